//! Refusal.antt and Call.antt: the refusals 1 to 5, the limits of a call, and its outcome.
use crate::form::{bad_word, shape};
use crate::meter::{Lack, Limits, Search};
use crate::names::{bad_name, names_in};

#[derive(Clone, Copy)]
pub enum Fault {
    Sizes = 1,
    BadFormula = 2,
    BadAssumption = 3,
    BadNames = 4,
    BadGoal = 5,
}

/// What is lent beside the file's contents; free: no limit but that of steps holds.
#[derive(Clone, Copy)]
pub struct Lent {
    pub words: usize,
    pub nodes: usize,
    pub steps: usize,
    pub text: usize,
    pub free: bool,
}

pub struct Claim<'a> {
    pub words: &'a [usize],
    pub assumed: &'a [usize],
    pub text: &'a [u8],
    pub goal: usize,
    pub lent: Lent,
}

pub enum Outcome {
    Proved(usize, Search),
    Unprovable(usize, usize),
    Shortage(Lack, usize),
    Refused(Fault, usize),
}
pub use Outcome::{Proved, Refused, Shortage, Unprovable};

pub fn bad_assumption(count: usize, hs: &[usize]) -> Option<usize> {
    if hs.len() > 64 {
        return Some(64);
    }
    hs.iter().position(|a| *a >= count)
}

pub fn refusal(x: &Claim) -> Option<(Fault, usize)> {
    let count = x.words.len();
    let rooms = x.lent.words <= 16384 && x.lent.nodes <= 16384 && x.lent.steps <= 1_000_000;
    let right_sizes = x.lent.free || rooms && count <= x.lent.words;
    let unless = |holds: bool| (!holds).then_some(0);
    let fault_at = |fault, place: Option<usize>| place.map(|i| (fault, i));
    fault_at(Fault::Sizes, unless(right_sizes))
        .or_else(|| fault_at(Fault::BadFormula, bad_word(x.words)))
        .or_else(|| fault_at(Fault::BadAssumption, bad_assumption(count, x.assumed)))
        .or_else(|| fault_at(Fault::BadNames, bad_name(x.assumed.len(), x.text)))
        .or_else(|| fault_at(Fault::BadGoal, unless(x.goal < count)))
}

pub fn search_limits(lent: &Lent) -> Limits {
    let unless_free = |n| if lent.free { usize::MAX } else { n };
    Limits {
        steps: lent.steps,
        names: unless_free(4096),
        formulas: unless_free(lent.words),
        terms: unless_free(lent.nodes),
        contexts: unless_free(256),
        levels: unless_free(63),
    }
}

pub fn called(x: &Claim) -> Outcome {
    if let Some((fault, place)) = refusal(x) {
        return Refused(fault, place);
    }
    let mut s = Search {
        limits: search_limits(&x.lent),
        taken: names_in(x.text),
        words: x.words.iter().map(|w| shape(*w)).collect(),
        nodes: vec![],
        used: 0,
        steps: 0,
    };
    match s.whole(x.assumed, x.goal) {
        Ok(Some(root)) => Proved(root, s),
        Ok(None) => Unprovable(s.steps, s.used),
        Err(lack) => Shortage(lack, s.steps),
    }
}

/// number, place, root, steps, indices, formulas, terms
pub fn numbers(outcome: &Outcome, count: usize) -> [usize; 7] {
    match outcome {
        Proved(r, s) => [0, 0, *r, s.steps, s.used, s.words.len(), s.nodes.len()],
        Unprovable(n, u) => [0, 0, 0, *n, *u, count, 0],
        Shortage(lack, n) => [*lack as usize, 0, 0, *n, 0, 0, 0],
        Refused(fault, i) => [*fault as usize, *i, 0, 0, 0, 0, 0],
    }
}
