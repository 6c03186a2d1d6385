//! Status.antt: the status of a formula, as two searches and a verdict.
use crate::call::Outcome::*;
use crate::call::{called, numbers, Claim, Outcome};
use crate::file::{answer_lines, File};
use crate::form::shape;
use crate::form::Shape::*;
use crate::meter::Lack;
use crate::Options;

/// Whether each word's tree holds a ForAll, an Exists or a free symbol.
pub fn open_forms(words: &[usize]) -> Vec<bool> {
    let mut done: Vec<bool> = vec![];
    for w in words {
        done.push(match shape(*w) {
            Top | Bot => false,
            Leaf(k, s) => k != 2 || s >= 8192,
            And(a, b) | Or(a, b) | Imp(a, b) => done[a] || done[b],
        });
    }
    done
}

pub fn second_outcome(x: &Claim) -> Outcome {
    let count = x.words.len();
    if !x.lent.free && count + 2 > x.lent.words {
        return Shortage(Lack::Formulas, 0);
    }
    let words = [x.words, &[1, 5 + 16 * x.goal + 262144 * count]].concat();
    called(&Claim {
        words: &words,
        goal: count + 1,
        ..*x
    })
}

enum Verdict {
    Solvable = 1,
    Unsolvable = 2,
    Unknown = 3,
}

/// A verdict, or the outcome of the search that ran short or was refused.
fn asked(x: &File, options: &Options) -> Result<Verdict, Outcome> {
    let first = Claim {
        words: &x.words,
        assumed: &[],
        text: &[],
        goal: x.goals[0],
        lent: options.lent,
    };
    match called(&first) {
        Proved(..) => Ok(Verdict::Solvable),
        Unprovable(..) if !open_forms(&x.words)[first.goal] => Ok(Verdict::Unsolvable),
        Unprovable(..) => match second_outcome(&first) {
            Proved(..) => Ok(Verdict::Unsolvable),
            Unprovable(..) => Ok(Verdict::Unknown),
            outcome => Err(outcome),
        },
        outcome => Err(outcome),
    }
}

pub fn status_lines(x: &File, options: &Options) -> Vec<u8> {
    match asked(x, options) {
        Ok(Verdict::Solvable) => b"solvable\n".to_vec(),
        Ok(Verdict::Unsolvable) => b"unsolvable\n".to_vec(),
        Ok(Verdict::Unknown) => b"unknown\n".to_vec(),
        Err(outcome) => answer_lines(outcome, options),
    }
}

/// The seven numbers of a status, the verdict in the root's place.
pub fn status_numbers(x: &File, options: &Options) -> [usize; 7] {
    match asked(x, options) {
        Ok(verdict) => [0, 0, verdict as usize, 0, 0, 0, 0],
        Err(outcome) => numbers(&outcome, x.words.len()),
    }
}
