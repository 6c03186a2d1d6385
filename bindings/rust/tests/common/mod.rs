//! What the tests share: books in the house text's notation, random ones, and the lines that the program prints for an outcome.
// each test uses a part of it
#![allow(dead_code)]

pub mod slices;

use quaysaffron::{raw, Book, Claim, Formula, Outcome, Refusal};
use std::path::PathBuf;

/// The kinds of leaves.
pub const LEAVES: [usize; 3] = [raw::ATOM, raw::FOR_ALL, raw::EXISTS];

/// Named assumptions, each as the house text of its formula.
pub type Assumed<'t> = &'t [(&'t str, &'t str)];

/// A book with the goal and the assumptions of a claim.
pub struct Case {
    pub book: Book,
    pub assumed: Vec<(String, Formula)>,
    pub goal: Formula,
}

impl Case {
    pub fn new(assumed: Assumed, goal: &str) -> Case {
        let mut book = Book::new();
        let mut named = |(name, text): &(&str, &str)| (name.to_string(), formula(&mut book, text));
        let assumed = assumed.iter().map(&mut named).collect();
        let goal = formula(&mut book, goal);
        Case {
            book,
            assumed,
            goal,
        }
    }

    pub fn claim(&self) -> Claim<'_> {
        let bare = Claim::new(&self.book, self.goal);
        self.assumed
            .iter()
            .fold(bare, |claim, (name, formula)| claim.assume(name, *formula))
    }
}

/// The formula of a house text, whose brackets say no more than its order does.
pub fn formula(book: &mut Book, text: &str) -> Formula {
    let bare = text.replace(['(', ')'], " ");
    read(book, &mut bare.split_whitespace())
}

fn read<'t>(book: &mut Book, signs: &mut impl Iterator<Item = &'t str>) -> Formula {
    let (sign, symbol) = signs.next().expect("a sign").split_at(1);
    let symbol = || symbol.parse().expect("a symbol");
    match sign {
        "T" => book.truth(),
        "F" => book.falsity(),
        "p" => book.atom(symbol()),
        "U" => book.for_all(symbol()),
        "E" => book.exists(symbol()),
        _ => {
            let left = read(book, signs);
            let right = read(book, signs);
            joined(book, sign, left, right)
        }
    }
}

pub fn joined(book: &mut Book, sign: &str, left: Formula, right: Formula) -> Formula {
    match sign {
        "&" => book.and(left, right),
        "|" => book.or(left, right),
        ">" => book.implies(left, right),
        _ => panic!("no sign {sign}"),
    }
}

/// So many times the formula, joined by a sign in a balanced tree, the halves shared.
pub fn tree(book: &mut Book, sign: &str, count: usize, formula: Formula) -> Formula {
    if count == 1 {
        return formula;
    }
    let left = tree(book, sign, count.next_power_of_two() / 2, formula);
    let right = tree(book, sign, count - count.next_power_of_two() / 2, formula);
    joined(book, sign, left, right)
}

pub const TIPS: Assumed = &[
    ("left_over", "p0"),
    ("someone_closed", "(| p1 (| p2 p3))"),
    ("rule_ana", "(> p1 (> p0 p4))"),
    ("rule_ben", "(> p2 (> p0 p5))"),
    ("rule_cleo", "(> p3 (> p0 p6))"),
];
pub const TIPS_GOAL: &str = "(| p4 (| p5 p6))";

/// What the program prints for what was said of a claim.
pub fn lines(said: &Result<Outcome, Refusal>) -> String {
    let proved = match said {
        Ok(Outcome::Proved(derivation)) => derivation,
        Ok(Outcome::Unprovable { steps, .. }) => return format!("unprovable\nsteps {steps}\n"),
        Err(refusal) => return format!("refused {}\n", refusal.number()),
    };
    let [steps, names] = [proved.steps(), proved.names()];
    let [formulas, terms] = [proved.formulas(), proved.terms()];
    match proved.text() {
        Ok(text) => format!(
            "proved\nsteps {steps}\nnames {names}\nformulas {formulas}\nterms {terms}\n{text}\n"
        ),
        Err(refusal) => format!("refused {}\n", refusal.number()),
    }
}

/// The files of the repository's folder `examples` that end so, without that ending.
pub fn examples(ending: &str) -> Vec<PathBuf> {
    let folder = concat!(env!("CARGO_MANIFEST_DIR"), "/../../examples");
    let paths = std::fs::read_dir(folder).expect("the examples");
    let paths = paths.map(|entry| entry.expect("an example").path());
    let mut named: Vec<_> = paths
        .filter(|path| path.extension().is_some_and(|found| found == ending))
        .map(|path| path.with_extension(""))
        .collect();
    named.sort();
    named
}

/// Numbers that look random and are the same for the same seed (SplitMix64).
pub struct Random(pub u64);

impl Random {
    pub fn below(&mut self, bound: usize) -> usize {
        self.0 = self.0.wrapping_add(0x9e37_79b9_7f4a_7c15);
        let once = (self.0 ^ self.0 >> 30).wrapping_mul(0xbf58_476d_1ce4_e5b9);
        let twice = (once ^ once >> 27).wrapping_mul(0x94d0_49bb_1331_11eb);
        ((twice ^ twice >> 31) % bound as u64) as usize
    }

    pub fn one_in(&mut self, many: usize) -> bool {
        self.below(many) == 0
    }

    /// Each symbol of one kind, the first four those of atoms; now and then one that no leaf has, or one under a second kind.
    fn leaf(&mut self, book: &mut Book) -> Formula {
        match self.below(16) {
            0 => book.truth(),
            1 | 2 => book.falsity(),
            3 => book.for_all(4),
            4 => book.exists(5),
            6 => book.atom(Book::FIRST_FREE_SYMBOL),
            5 if self.one_in(40) => book.atom(Book::LAST_SYMBOL + 1),
            7 if self.one_in(40) => book.exists(self.below(5) as u16),
            symbol => book.atom(symbol as u16 % 4),
        }
    }

    fn formula(&mut self, book: &mut Book, connectives: usize) -> Formula {
        if connectives == 0 {
            return self.leaf(book);
        }
        let first = self.below(connectives);
        let left = self.formula(book, first);
        let right = self.formula(book, connectives - 1 - first);
        let sign = ["&", "|", ">", ">"][self.below(4)];
        joined(book, sign, left, right)
    }

    /// A name of a pool in which generated names occur; now and then one that is at fault.
    fn name(&mut self) -> String {
        match self.below(60) {
            0 => "no name".to_string(),
            at @ 1..=9 => quaysaffron::name(at).expect("a name"),
            at => format!("rule_{at}"),
        }
    }

    /// A book with few letters; now and then a formula of it is another book's.
    pub fn case(&mut self) -> Case {
        let mut book = Book::new();
        let foreign = Book::new().truth();
        let mut assumed = vec![];
        for _ in 0..self.below(5) {
            let connectives = self.below(8);
            let formula = self.formula(&mut book, connectives);
            let lost = self.one_in(80);
            assumed.push((self.name(), if lost { foreign } else { formula }));
        }
        let connectives = self.below(12);
        let formula = self.formula(&mut book, connectives);
        let goal = if self.one_in(80) { foreign } else { formula };
        Case {
            book,
            assumed,
            goal,
        }
    }
}
