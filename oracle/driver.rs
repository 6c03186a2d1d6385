//! The old prover as a program: reads a house file and prints what the Rust answers.
//!
//!     rust [--status] [--seconds N] [--megabytes N] [--entries N] [PATH]     one house file, from PATH or from standard input
//!     rust --batch [..]                                                      many, each after its length in 4 bytes, little-endian;
//!                                                                            each answer comes after its length in the same way
//!
//! The answer is lines: `proved`, `unprovable`, `overflow` (the generator stopped at index 364), `gave up ..` (a limit of this driver,
//! no answer) or `no book` (the bytes are no well-formed house file); then `right N`, `left N`, `search N`, `names N`; and for a proof
//! `length N`, `depth N` and the house text, which is left out where it has over 32,768 bytes. With --status the first line is
//! `solvable`, `unsolvable` or `unknown`.
mod book;
mod counters;
mod feed;
mod kernel;
mod status;

use book::{fields, Book};
use counters::{Bounds, GaveUp, Measured};
use kernel::prove::prove_with_ctx;
use status::VerificationResultSolvableStatus;
use std::io;
use std::panic::{self, AssertUnwindSafe};
use std::time::Duration;

#[global_allocator]
static MEASURED: Measured = Measured;

const LARGEST_TREE: u64 = 1_000_000;

/// The number of nodes of each word's unfolded tree; none where a word breaks the layout.
fn tree_sizes(words: &[u32]) -> Option<Vec<u64>> {
    let mut sizes: Vec<u64> = vec![];
    for word in words {
        let (kind, left, right) = fields(*word);
        sizes.push(match kind {
            0 | 1 if left == 0 && right == 0 => 1,
            2 | 6 | 7 if right == 0 => 1,
            3 | 4 | 5 => sizes
                .get(left)?
                .saturating_add(*sizes.get(right)?)
                .saturating_add(1),
            _ => return None,
        });
    }
    Some(sizes)
}

fn status_of_book(book: &Book) -> (String, String) {
    let verdict = match status::status(&book.goal()) {
        VerificationResultSolvableStatus::Solvable => "solvable",
        VerificationResultSolvableStatus::Unsolvable => "unsolvable",
        VerificationResultSolvableStatus::Unknown => "unknown",
    };
    (verdict.to_string(), String::new())
}

struct Options {
    bounds: Bounds,
    status: bool,
}

fn stopped(cause: Box<dyn std::any::Any + Send>) -> String {
    if let Some(GaveUp(what)) = cause.downcast_ref::<GaveUp>() {
        return format!("gave up {what}");
    }
    let message = match cause.downcast_ref::<&str>() {
        Some(message) => message.to_string(),
        None => cause.downcast_ref::<String>().cloned().unwrap_or_default(),
    };
    if message == "attempt to multiply with overflow" {
        return "overflow".to_string();
    }
    format!("panic {message}")
}

fn answer(bytes: &[u8], options: &Options) -> String {
    let Some(book) = book::decode(bytes) else {
        return "no book\n".to_string();
    };
    let Some(sizes) = tree_sizes(&book.words) else {
        return "no book\n".to_string();
    };
    let used = book.assumptions.iter().map(|a| a.0).chain([book.goal]);
    if used.map(|i| sizes[i]).fold(0, u64::saturating_add) > LARGEST_TREE {
        return "gave up tree\n".to_string();
    }
    counters::start(options.bounds);
    let run = || {
        if options.status {
            status_of_book(&book)
        } else {
            book::told(prove_with_ctx(&book.goal(), &book.context()))
        }
    };
    let (first, after) = match panic::catch_unwind(AssertUnwindSafe(run)) {
        Ok(lines) => lines,
        Err(cause) => (stopped(cause), String::new()),
    };
    let counts = counters::counts();
    format!(
        "{first}\nright {}\nleft {}\nsearch {}\nnames {}\n{after}",
        counts.right, counts.left, counts.search, counts.indices
    )
}

fn main() -> io::Result<()> {
    panic::set_hook(Box::new(|_| {}));
    let mut options = Options {
        bounds: Bounds {
            entries: 1_000_000,
            time: Duration::from_secs(2),
            memory: 1 << 30,
        },
        status: false,
    };
    let feed = feed::command_line(|option, number| match option {
        "--status" => options.status = true,
        "--seconds" => options.bounds.time = Duration::from_secs(number() as u64),
        "--megabytes" => options.bounds.memory = number() << 20,
        "--entries" => options.bounds.entries = number() as u64,
        _ => panic!("no option {option}"),
    });
    let run = move || feed.answer(0, |_, bytes| answer(bytes, &options).into_bytes());
    feed::on_a_stack(book::STACK, run)
}
