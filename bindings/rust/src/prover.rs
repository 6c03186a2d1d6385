//! The prover: what it lends, and what it answers.
use crate::raw::{self, Record};
use crate::{Book, Claim, Derivation, Formula, Refusal};

/// How much a [`Prover`] lends to a search, and to a text.
///
/// The default is what the program `./quay` lends. Whatever is asked for, a prover allocates at most 0.4 MB: of words or nodes beyond
/// [`MOST`](Limits::MOST) it lends one more than the most, and the call refuses that with [`Sizes`](Refusal::Sizes) as it would any
/// more. A book with more words than are lent is refused with [`Sizes`](Refusal::Sizes) too.
///
/// ```
/// use quaysaffron::{Book, Claim, Limits, Prover, Refusal};
///
/// let mut book = Book::new();
/// let letter = book.atom(0);
/// let goal = book.implies(letter, letter);
/// let mut prover = Prover::with_limits(Limits { steps: 4, ..Limits::default() });
/// assert_eq!(prover.prove(&Claim::new(&book, goal)), Err(Refusal::Steps { steps: 4 }));
/// ```
#[derive(Clone, Copy, Debug, PartialEq, Eq, Hash)]
pub struct Limits {
    /// The words, those of the book and those that the search makes.
    pub formulas: usize,
    /// The nodes of the term.
    pub terms: usize,
    /// The steps of a search.
    pub steps: usize,
    /// The bytes of [`Derivation::text`]. More than those of [`MOST`](Limits::MOST) count as these: [`Derivation::write`] takes a buffer
    /// of any length.
    pub text: usize,
}

impl Limits {
    /// The most that may be lent to a search, and a text of 1,048,576 bytes.
    pub const MOST: Limits = Limits {
        formulas: raw::MOST_WORDS,
        terms: raw::MOST_NODES,
        steps: raw::MOST_STEPS,
        text: 1 << 20,
    };
}

impl Default for Limits {
    /// What the program lends: 4,096 words, 4,096 nodes, 1,000,000 steps, 32,768 text bytes.
    fn default() -> Limits {
        Limits {
            formulas: raw::PROGRAM_WORDS,
            terms: raw::PROGRAM_NODES,
            steps: raw::PROGRAM_STEPS,
            text: raw::PROGRAM_TEXT_BYTES,
        }
    }
}

/// What is said of a claim.
#[derive(Clone, Debug, PartialEq, Eq)]
#[must_use]
pub enum Outcome {
    /// The goal follows from the assumptions; here is why.
    Proved(Derivation),
    /// No term of any size derives the goal from the assumptions. That is not to say that it is false.
    Unprovable {
        /// The steps of the search.
        steps: usize,
        /// The generated names that it went through, skipped ones included.
        names: usize,
    },
}

impl Outcome {
    /// The derivation, if there is one.
    pub fn derivation(self) -> Option<Derivation> {
        match self {
            Outcome::Proved(derivation) => Some(derivation),
            Outcome::Unprovable { .. } => None,
        }
    }
}

/// What is said of a goal alone.
#[derive(Clone, Copy, Debug, PartialEq, Eq, Hash)]
#[must_use]
pub enum Status {
    /// It is proved.
    Solvable,
    /// It is not proved and has neither quantified formulas nor free symbols; or its negation is proved.
    Unsolvable,
    /// It has a quantified formula or a free symbol, and no term of any size derives it or its negation.
    Unknown,
}

/// Asks the proved search. It owns the buffers that are lent, and is to be kept from claim to claim.
///
/// The buffers, 128 KB by default, are allocated once; after that a call allocates only for a [`Derivation`] that it gives back. What an
/// earlier claim left in them changes no answer. A prover takes one claim at a time; each thread has its own. A call takes stack: a
/// thread with [`STACK_BYTES`](raw::STACK_BYTES) has enough, and so have threads with Rust's default of 2 MB.
#[derive(Clone, Debug)]
pub struct Prover {
    limits: Limits,
    words: Vec<u32>,
    terms: Vec<u16>,
    work: Vec<Record>,
}

impl Prover {
    /// A prover that lends what the program lends.
    pub fn new() -> Prover {
        Prover::with_limits(Limits::default())
    }

    /// A prover that lends so much.
    pub fn with_limits(limits: Limits) -> Prover {
        // one too many is refused as any more would be
        let words = limits.formulas.min(raw::MOST_WORDS + 1);
        let nodes = limits.terms.min(raw::MOST_NODES + 1);
        Prover {
            limits,
            words: vec![0; words],
            terms: vec![0; nodes * raw::NODE_NUMBERS],
            work: vec![Record::default(); raw::WORK_RECORDS],
        }
    }

    /// The limits that it was made with.
    pub fn limits(&self) -> Limits {
        self.limits
    }

    /// Searches for a derivation of the claim's goal from its assumptions. `Ok` is an answer and no proof: it may be
    /// [`Unprovable`](Outcome::Unprovable).
    pub fn prove(&mut self, claim: &Claim) -> Result<Outcome, Refusal> {
        let count = self.lend(claim.book);
        let answer = raw::prove(
            &mut self.words,
            count,
            &claim.assumed,
            &claim.names,
            claim.goal.into(),
            &mut self.terms,
            &mut self.work,
            self.limits.steps,
        );
        match answer.kind {
            raw::PROVED => Ok(Outcome::Proved(self.found(claim, answer))),
            raw::UNPROVABLE => Ok(Outcome::Unprovable {
                steps: answer.steps,
                names: answer.indices,
            }),
            _ => Err(Refusal::told(answer.number, answer.place, answer.steps)),
        }
    }

    /// The status of a goal without assumptions. A shortage is that of the search for the goal or of the one for its negation, with that
    /// search's own steps: each has all of [`Limits::steps`]. The negation takes 2 formulas more.
    ///
    /// ```
    /// use quaysaffron::{Book, Prover, Status};
    ///
    /// let mut book = Book::new();
    /// let free = book.atom(Book::FIRST_FREE_SYMBOL);
    /// let (closed, truth) = (book.atom(0), book.truth());
    /// let mut prover = Prover::new();
    /// assert_eq!(prover.status(&book, truth), Ok(Status::Solvable));
    /// assert_eq!(prover.status(&book, closed), Ok(Status::Unsolvable));
    /// assert_eq!(prover.status(&book, free), Ok(Status::Unknown));
    /// ```
    pub fn status(&mut self, book: &Book, goal: Formula) -> Result<Status, Refusal> {
        let count = self.lend(book);
        let answer = raw::status(
            &mut self.words,
            count,
            book.index_of(goal).into(),
            &mut self.terms,
            &mut self.work,
            self.limits.steps,
        );
        match answer.kind {
            raw::SOLVABLE => Ok(Status::Solvable),
            raw::UNSOLVABLE => Ok(Status::Unsolvable),
            raw::UNKNOWN => Ok(Status::Unknown),
            _ => Err(Refusal::told(answer.number, answer.place, answer.steps)),
        }
    }

    /// Lays the book's words at the front, as far as there is room, and tells how many there are.
    fn lend(&mut self, book: &Book) -> usize {
        let given = book.words();
        let laid = given.len().min(self.words.len());
        self.words[..laid].copy_from_slice(&given[..laid]);
        given.len()
    }

    fn found(&self, claim: &Claim, answer: raw::Answer) -> Derivation {
        let room = self.limits.text.min(Limits::MOST.text);
        Derivation::kept(claim, answer, &self.words, &self.terms, room)
    }
}

impl Default for Prover {
    fn default() -> Prover {
        Prover::new()
    }
}
