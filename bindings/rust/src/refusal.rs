//! The numbers that come back.
use crate::raw;
use std::error::Error;
use std::fmt;
use Refusal::*;

/// Why there is no answer: a row of the table of docs/REFERENCE.md, section 3.
///
/// [`Sizes`](Refusal::Sizes) to [`BadGoal`](Refusal::BadGoal) refuse what was given, and the lowest row comes back.
/// [`Steps`](Refusal::Steps) to [`Levels`](Refusal::Levels) are shortages: the search, of a status either of the two, would pass that
/// limit, after it entered so many steps, and nothing is said of the claim.
#[derive(Clone, Copy, Debug, PartialEq, Eq, Hash)]
#[non_exhaustive]
pub enum Refusal {
    /// 1: over 16,384 words, more words than the limits lend, over 16,384 nodes, or over 1,000,000 steps.
    Sizes,
    /// 2: a word of the book breaks the layout, or is a leaf whose symbol stands at a lower index under another kind.
    BadFormula {
        /// The lowest such word.
        place: usize,
    },
    /// 3: an assumption's formula is not in the book, or there are over 64 assumptions.
    BadAssumption {
        /// The first such assumption, or 64.
        place: usize,
    },
    /// 4: a name does not have 1 to 32 bytes from A-Z, a-z, 0-9 and _, or repeats an earlier one.
    BadNames {
        /// The first such name.
        place: usize,
    },
    /// 5: the goal's formula is not in the book.
    BadGoal,
    /// 6: the search would pass the step limit.
    Steps {
        /// The limit.
        steps: usize,
    },
    /// 7: the search would pass 4,096 generated names.
    Names {
        /// The steps entered; 0 for a name that was asked for alone.
        steps: usize,
    },
    /// 8: the search would pass the lent words.
    Formulas {
        /// The steps entered; 0 where a status has no room for the two formulas that its second search adds.
        steps: usize,
    },
    /// 9: the search would pass the lent nodes.
    Terms {
        /// The steps entered.
        steps: usize,
    },
    /// 10: the search would pass 256 records in a sequent.
    Contexts {
        /// The steps entered.
        steps: usize,
    },
    /// 11: the search would pass level 63.
    Levels {
        /// The steps entered.
        steps: usize,
    },
    /// 12: a text is longer than its buffer, or has over 1,024 nodes on a path.
    NoRoom,
    /// 13: a term node breaks the layout. Only [`raw::text`] can meet it: the nodes of a [`Derivation`](crate::Derivation) are lawful.
    BadTerm {
        /// The lowest such node, or the node count where the root is not below it.
        place: usize,
    },
    /// 14: the bytes are no house file. Only [`output`](crate::output) can meet it, and prints it.
    BadFile,
}

impl Refusal {
    /// The row of a number that a call told. That no call tells a number outside the table is proved, so the last row takes the rest.
    pub(crate) fn told(number: usize, place: usize, steps: usize) -> Refusal {
        match number {
            raw::SIZES => Sizes,
            raw::BAD_FORMULA => BadFormula { place },
            raw::BAD_ASSUMPTION => BadAssumption { place },
            raw::BAD_NAMES => BadNames { place },
            raw::BAD_GOAL => BadGoal,
            raw::STEPS => Steps { steps },
            raw::NAMES => Names { steps },
            raw::FORMULAS => Formulas { steps },
            raw::TERMS => Terms { steps },
            raw::CONTEXTS => Contexts { steps },
            raw::LEVELS => Levels { steps },
            raw::NO_ROOM => NoRoom,
            raw::BAD_TERM => BadTerm { place },
            _ => BadFile,
        }
    }

    /// The number of the row, as in the line `refused N`.
    pub fn number(&self) -> usize {
        match self {
            Sizes => raw::SIZES,
            BadFormula { .. } => raw::BAD_FORMULA,
            BadAssumption { .. } => raw::BAD_ASSUMPTION,
            BadNames { .. } => raw::BAD_NAMES,
            BadGoal => raw::BAD_GOAL,
            Steps { .. } => raw::STEPS,
            Names { .. } => raw::NAMES,
            Formulas { .. } => raw::FORMULAS,
            Terms { .. } => raw::TERMS,
            Contexts { .. } => raw::CONTEXTS,
            Levels { .. } => raw::LEVELS,
            NoRoom => raw::NO_ROOM,
            BadTerm { .. } => raw::BAD_TERM,
            BadFile => raw::BAD_FILE,
        }
    }

    /// Whether a limit would have been passed: rows 6 to 11. Where it is 6, 8 or 9 a prover that lends more may answer, up to
    /// [`Limits::MOST`](crate::Limits::MOST); the limits of 7, 10 and 11 are fixed.
    pub fn is_shortage(&self) -> bool {
        self.steps().is_some()
    }

    /// The steps that the search had entered, of a shortage.
    pub fn steps(&self) -> Option<usize> {
        match *self {
            Steps { steps } | Names { steps } | Formulas { steps } => Some(steps),
            Terms { steps } | Contexts { steps } | Levels { steps } => Some(steps),
            _ => None,
        }
    }

    /// The place of what is at fault, of the rows that have one.
    pub fn place(&self) -> Option<usize> {
        match *self {
            BadFormula { place } | BadAssumption { place } => Some(place),
            BadNames { place } | BadTerm { place } => Some(place),
            _ => None,
        }
    }

    fn words(&self) -> &'static str {
        match self {
            Sizes => "Sizes: something lent does not have its size",
            BadFormula { .. } => {
                "BadFormula: a word breaks the layout, or its symbol stands at a lower index \
                 under another kind"
            }
            BadAssumption { .. } => {
                "BadAssumption: a formula is not in the book, or there are over 64"
            }
            BadNames { .. } => {
                "BadNames: a name does not have 1 to 32 bytes from A-Z, a-z, 0-9 and _, \
                 or repeats an earlier one"
            }
            BadGoal => "BadGoal: the goal's formula is not in the book",
            Steps { .. } => "Steps: the search would pass the step limit",
            Names { .. } => "Names: 4,096 generated names would be passed",
            Formulas { .. } => "Formulas: the search would pass the lent words",
            Terms { .. } => "Terms: the search would pass the lent nodes",
            Contexts { .. } => "Contexts: the search would pass 256 records in a sequent",
            Levels { .. } => "Levels: the search would pass level 63",
            NoRoom => "NoRoom: the text would pass its buffer, or 1,024 nodes on a path",
            BadTerm { .. } => "BadTerm: a node breaks the layout",
            BadFile => "BadFile: the bytes are no house file",
        }
    }
}

/// The refusal in words: its name, what is wrong, and its place or steps.
impl fmt::Display for Refusal {
    fn fmt(&self, f: &mut fmt::Formatter) -> fmt::Result {
        f.write_str(self.words())?;
        match (self.place(), self.steps()) {
            (Some(place), _) => write!(f, ", at place {place}"),
            (_, Some(steps)) => write!(f, ", after {steps} steps"),
            _ => Ok(()),
        }
    }
}

impl Error for Refusal {}
