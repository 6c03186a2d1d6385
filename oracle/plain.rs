//! The old prover as it is, without counters and limits: prints its answer to a house file, or with --time the nanoseconds that
//! `prove_with_ctx` takes for it. The book is in the Rust's structures before the clock starts; the found term is freed while it runs.
mod book;
mod feed;
mod kernel;
mod timing;

use kernel::prove::prove_with_ctx;
use std::io;

fn answer(file: &[u8], time: bool) -> Vec<u8> {
    let book = book::decode(file).expect("a book");
    let (goal, context) = (book.goal(), book.context());
    if time {
        return timing::nanoseconds(|| prove_with_ctx(&goal, &context));
    }
    let (first, after) = book::told(prove_with_ctx(&goal, &context));
    format!("{first}\n{after}").into_bytes()
}

fn main() -> io::Result<()> {
    let mut time = false;
    let feed = feed::command_line(|option, _| match option {
        "--time" => time = true,
        _ => panic!("no option {option}"),
    });
    feed::on_a_stack(book::STACK, move || {
        feed.answer(0, |_, file| answer(file, time))
    })
}
