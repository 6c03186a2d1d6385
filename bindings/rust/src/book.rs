//! Formulas, and the book that holds them.
use crate::raw;
use std::collections::HashMap;
use std::sync::atomic::{AtomicU64, Ordering};

/// An index that no book has.
const NOWHERE: u16 = u16::MAX;

static BOOKS: AtomicU64 = AtomicU64::new(0);

/// A formula of one [`Book`]: a handle, to be copied at will.
///
/// In another book it is no formula: what is built on it there is refused. Two handles are equal when they are of one book and mean the
/// same word of it; past the last word that a book can hold all are.
#[derive(Clone, Copy, Debug, PartialEq, Eq, Hash)]
pub struct Formula {
    book: u64,
    index: u16,
}

impl Formula {
    /// The index of its word in its book; [`Refusal::BadFormula`](crate::Refusal::BadFormula) tells places so.
    pub fn index(self) -> usize {
        self.index.into()
    }
}

/// A rule book: formulas, each of which is one word.
///
/// Every function files a word and gives its [`Formula`]; a word that stands there already is not filed again, so building a formula
/// twice gives the same handle. The words of a book can be named in claims for as long as it stands, on many threads at once.
///
/// Nothing here fails. What has no lawful word is left to the prover, which refuses every claim and status under such a book, and of
/// several faults tells the lowest index:
///
/// | What was built | How it is refused |
/// |---|---|
/// | a leaf whose symbol is over 16,383 | [`BadFormula`](crate::Refusal::BadFormula) at its index |
/// | a leaf whose symbol stands at a lower index under another kind | [`BadFormula`](crate::Refusal::BadFormula) at its index |
/// | a formula on a handle of another book | [`BadFormula`](crate::Refusal::BadFormula) at its index |
/// | over 16,384 words | [`Sizes`](crate::Refusal::Sizes) |
///
/// A handle of another book as an assumption is [`BadAssumption`](crate::Refusal::BadAssumption), as a goal
/// [`BadGoal`](crate::Refusal::BadGoal). A book allocates as it grows, up to 16,385 words; those that are built then are not kept, for
/// the book is too long already. It is not `Clone`, since a handle is of one book.
///
/// ```
/// let mut book = quaysaffron::Book::new();
/// let rain = book.atom(0);
/// let wet = book.atom(1);
/// assert_eq!(book.implies(rain, wet), book.implies(rain, wet));
/// assert_eq!(book.words().len(), 3);
/// ```
///
/// A symbol has one kind in a book: it is an [`atom`](Book::atom)'s, a [`for_all`](Book::for_all)'s or an [`exists`](Book::exists)'s. A
/// leaf that gives it a second one is filed as any other, and the book is refused at its index, whether a claim uses it or not.
///
/// ```
/// use quaysaffron::{Book, Claim, Refusal};
///
/// let mut book = Book::new();
/// let everyone_closed = book.for_all(5);
/// let ana_closed = book.atom(5);
/// let claim = Claim::new(&book, everyone_closed).assume("sheet", everyone_closed);
/// assert_eq!(claim.prove(), Err(Refusal::BadFormula { place: ana_closed.index() }));
/// ```
#[derive(Debug)]
pub struct Book {
    id: u64,
    words: Vec<u32>,
    places: HashMap<u32, u16>,
}

impl Book {
    /// Symbols from here on carry free parameters. Only a [`Status`](crate::Status) looks at that.
    pub const FIRST_FREE_SYMBOL: u16 = raw::FIRST_FREE_SYMBOL;

    /// The last symbol that has a lawful word.
    pub const LAST_SYMBOL: u16 = raw::LAST_SYMBOL;

    /// An empty book.
    pub fn new() -> Book {
        Book {
            // a number for each book; 64 bits do not run out
            id: BOOKS.fetch_add(1, Ordering::Relaxed),
            words: Vec::new(),
            places: HashMap::new(),
        }
    }

    /// What always holds; `T` in a text.
    pub fn truth(&mut self) -> Formula {
        self.filed(raw::word(raw::TRUE, 0, 0))
    }

    /// What never holds; `F` in a text.
    pub fn falsity(&mut self) -> Formula {
        self.filed(raw::word(raw::FALSE, 0, 0))
    }

    /// A statement that the prover does not look into; `p0` in a text. Its symbol is an atom's alone in this book.
    pub fn atom(&mut self, symbol: u16) -> Formula {
        self.leaf(raw::ATOM, symbol)
    }

    /// A statement with "every", which is as a whole a leaf; `U0` in a text. Its symbol is no atom's and no [`exists`](Book::exists)'s
    /// in this book.
    pub fn for_all(&mut self, symbol: u16) -> Formula {
        self.leaf(raw::FOR_ALL, symbol)
    }

    /// A statement with "some", which is as a whole a leaf; `E0` in a text. Its symbol is no atom's and no [`for_all`](Book::for_all)'s
    /// in this book.
    pub fn exists(&mut self, symbol: u16) -> Formula {
        self.leaf(raw::EXISTS, symbol)
    }

    /// `left` and `right`; `(& A B)` in a text.
    pub fn and(&mut self, left: Formula, right: Formula) -> Formula {
        self.pair(raw::AND, left, right)
    }

    /// `left` or `right`, or both; `(| A B)` in a text.
    pub fn or(&mut self, left: Formula, right: Formula) -> Formula {
        self.pair(raw::OR, left, right)
    }

    /// If `condition` then `conclusion`; `(> A B)` in a text.
    pub fn implies(&mut self, condition: Formula, conclusion: Formula) -> Formula {
        self.pair(raw::IMPL, condition, conclusion)
    }

    /// If `formula` then False.
    pub fn not(&mut self, formula: Formula) -> Formula {
        let falsity = self.falsity();
        self.implies(formula, falsity)
    }

    /// All of the formulas: `(& A (& B C))`, the one formula where there is one, True where there is none.
    pub fn all(&mut self, formulas: &[Formula]) -> Formula {
        match formulas.split_last() {
            Some((last, before)) => self.chain(raw::AND, before, *last),
            None => self.truth(),
        }
    }

    /// Any of the formulas: `(| A (| B C))`, the one formula where there is one, False where there is none.
    pub fn any(&mut self, formulas: &[Formula]) -> Formula {
        match formulas.split_last() {
            Some((last, before)) => self.chain(raw::OR, before, *last),
            None => self.falsity(),
        }
    }

    /// A rule: if each of the conditions then `conclusion`, as `(> A (> B C))`; the conclusion alone where there is no condition.
    pub fn rule(&mut self, conditions: &[Formula], conclusion: Formula) -> Formula {
        self.chain(raw::IMPL, conditions, conclusion)
    }

    /// The words, in the order in which they were filed; docs/REFERENCE.md, section 2, has their layout.
    pub fn words(&self) -> &[u32] {
        &self.words
    }

    /// The index of a formula that is of this book.
    pub(crate) fn index_of(&self, formula: Formula) -> u16 {
        if formula.book == self.id {
            formula.index
        } else {
            NOWHERE
        }
    }

    fn leaf(&mut self, kind: usize, symbol: u16) -> Formula {
        self.filed(raw::word(kind, symbol.into(), 0))
    }

    fn pair(&mut self, kind: usize, left: Formula, right: Formula) -> Formula {
        let [left, right] = [left, right].map(|part| self.index_of(part).into());
        self.filed(raw::word(kind, left, right))
    }

    fn chain(&mut self, kind: usize, before: &[Formula], last: Formula) -> Formula {
        let joined = |right, left: &Formula| self.pair(kind, *left, right);
        before.iter().rev().fold(last, joined)
    }

    fn filed(&mut self, word: u32) -> Formula {
        let known = self.places.get(&word).copied();
        Formula {
            book: self.id,
            index: known.unwrap_or_else(|| self.append(word)),
        }
    }

    /// Files a new word, and tells its index. A book that is one word too long stays so: its last index stands for all that would follow.
    fn append(&mut self, word: u32) -> u16 {
        let index = self.words.len().min(raw::MOST_WORDS) as u16;
        if self.words.len() <= raw::MOST_WORDS {
            self.words.push(word);
            self.places.insert(word, index);
        }
        index
    }
}

impl Default for Book {
    fn default() -> Book {
        Book::new()
    }
}
