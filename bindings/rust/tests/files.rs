//! House files: those of the repository's examples, and those that are made of claims.
mod common;

use common::{examples, lines, Assumed, Case, TIPS, TIPS_GOAL};
use quaysaffron::{output, Book, Claim, Limits, Outcome, Prover, Refusal};
use std::fs;

#[test]
fn the_examples_print_as_filed() {
    let named = examples("house");
    assert!(named.len() >= 39);
    assert_eq!(named, examples("out"));
    for name in named {
        let file = fs::read(name.with_extension("house")).expect("a house file");
        let printed = fs::read(name.with_extension("out")).expect("what is printed for it");
        assert_eq!(output(&file), printed, "{}", name.display());
    }
}

/// The words of a case stand as tools/house.py lays them, so the files are the same.
#[test]
fn a_claim_makes_the_example() {
    let cases: [(&str, Assumed, &str); 5] = [
        ("tips", TIPS, TIPS_GOAL),
        ("swap", &[("x", "(| p0 p1)")], "(| p1 p0)"),
        ("identity-a-taken", &[("a", "p0")], "(> p0 p0)"),
        ("refused-02-mixed", &[("x", "U5")], "E5"),
        ("refused-04-letter", &[("odd penny", "p0")], "p0"),
    ];
    for (name, assumed, goal) in cases {
        let folder = concat!(env!("CARGO_MANIFEST_DIR"), "/../../examples");
        let file = fs::read(format!("{folder}/{name}.house")).expect("a house file");
        assert_eq!(
            Case::new(assumed, goal).claim().to_house_file(),
            file,
            "{name}"
        );
    }
}

/// What a file cannot hold is no file, whatever the prover says of the claim.
#[test]
fn a_claim_that_no_file_holds() {
    let refused = b"refused 14\n";
    let mut book = Book::new();
    let goal = book.truth();
    for symbol in 0..4095 {
        book.atom(symbol);
    }
    assert_ne!(output(&Claim::new(&book, goal).to_house_file()), refused);
    book.atom(4095);
    let claim = Claim::new(&book, goal);
    assert_eq!(output(&claim.to_house_file()), refused);
    let said = Prover::with_limits(Limits::MOST).prove(&claim);
    assert!(matches!(said, Ok(Outcome::Proved(_))));
}

#[test]
fn a_claim_with_more_assumptions_than_a_file_holds() {
    let mut book = Book::new();
    let goal = book.truth();
    let mut claim = Claim::new(&book, goal);
    for at in 0..64 {
        claim = claim.assume(format!("x{at}"), goal);
    }
    assert_eq!(
        output(&claim.to_house_file()),
        lines(&claim.prove()).as_bytes()
    );
    let more = claim.assume("y", goal);
    assert_eq!(output(&more.to_house_file()), b"refused 14\n");
    assert_eq!(more.prove(), Err(Refusal::BadAssumption { place: 64 }));
}
