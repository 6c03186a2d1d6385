//! The Rust's name generator beside document 01's rule: how many of the first 4,096 names are equal, and what happens at the next one.
#[path = "rust/src/kernel/prove/identifier_generator.rs"]
mod identifier_generator;

use identifier_generator::IdentifierGenerator;
use std::panic;

/// "Index i has i/26+1 letters: i in base 26, padded in front with a."
fn spell(i: usize) -> String {
    let letter = |place: usize| (0..place).fold(i, |rest, _| rest / 26) % 26;
    (0..i / 26 + 1)
        .rev()
        .map(|place| (b'a' + letter(place) as u8) as char)
        .collect()
}

fn main() {
    panic::set_hook(Box::new(|_| {}));
    let mut generator = IdentifierGenerator::new();
    for i in 0..4096 {
        match panic::catch_unwind(panic::AssertUnwindSafe(|| generator.generate())) {
            Err(_) => return println!("{i} names equal, index {i} overflows"),
            Ok(name) if name != spell(i) => {
                return println!("{i} names equal, index {i} is {name} and not {}", spell(i))
            }
            Ok(_) => {}
        }
    }
    println!("4096 names equal");
}
