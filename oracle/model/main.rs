//! The definitions of crates/theory/specs rendered as a program, by their names: Form, Names, NameText, Meter, Search, Refusal, Call,
//! Layout, Text, Writer, File and Status. It stands in for the proved program in comparisons and shares no code with the Rust
//! (with its driver only `feed.rs`, how both are fed).
//!
//!     model [--status] [--numbers] [--more] [--free] [--words N] [--nodes N] [--steps N] [--text N] [PATH]
//!     model --batch [..]      many house files, each after its length in 4 bytes, little-endian; each answer in the same way
//!
//! It prints `File.printed`. With --more, `unprovable` is followed by its index count too (`names N`), and a shortage by its steps.
//! --free drops every limit but that of steps. --words, --nodes, --steps and --text lend so much instead of what the program lends.
//! --numbers prints a line of ten numbers instead: those of the call (number, place, root, steps, indices, formulas, terms), the
//! writer's number, the length and the Adler-32 of the text; in a batch each file then comes after the words, nodes, steps and text
//! bytes that are lent for it, 4 bytes each. --status tells the status of the goal instead, the assumptions left out; among the numbers
//! its verdict stands in the root's place, 1 solvable, 2 unsolvable, 3 unknown.
mod call;
#[path = "../feed.rs"]
mod feed;
mod file;
mod form;
mod meter;
mod names;
mod search;
mod status;
mod text;

use call::Lent;
use file::{numbers_line, printed};
use std::io;

#[derive(Clone, Copy)]
pub struct Options {
    pub lent: Lent,
    pub status: bool,
    pub more: bool,
    pub numbers: bool,
}

fn answer(bytes: &[u8], options: &Options) -> Vec<u8> {
    if options.numbers {
        numbers_line(bytes, options)
    } else {
        printed(bytes, options)
    }
}

/// The options for a file of a batch, where the numbers before it say what is lent.
fn lent_before(before: &[usize], mut options: Options) -> Options {
    if let [words, nodes, steps, text] = *before {
        options.lent = Lent {
            words,
            nodes,
            steps,
            text,
            free: false,
        };
    }
    options
}

fn main() -> io::Result<()> {
    let mut options = Options {
        lent: Lent {
            words: 4096,
            nodes: 4096,
            steps: 1_000_000,
            text: 32768,
            free: false,
        },
        status: false,
        more: false,
        numbers: false,
    };
    let feed = feed::command_line(|option, number| match option {
        "--status" => options.status = true,
        "--more" => options.more = true,
        "--numbers" => options.numbers = true,
        "--free" => options.lent.free = true,
        "--words" => options.lent.words = number(),
        "--nodes" => options.lent.nodes = number(),
        "--steps" => options.lent.steps = number(),
        "--text" => options.lent.text = number(),
        _ => panic!("no option {option}"),
    });
    let numbers = if options.numbers { 4 } else { 0 };
    let run = move || {
        feed.answer(numbers, |before, bytes| {
            answer(bytes, &lent_before(before, options))
        })
    };
    feed::on_a_stack(1 << 30, run)
}
