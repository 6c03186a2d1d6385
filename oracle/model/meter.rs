//! Term.antt and Meter.antt: nodes, limits, states, sequents, answers and charges.
use crate::form::Shape;
use crate::names::Name;

#[derive(Clone, Copy)]
pub enum Piece {
    Ident(usize),
    Pair(usize, usize),
    Fst(usize),
    Snd(usize),
    Fn(usize, usize),
    App(usize, usize),
    Inl(usize),
    Inr(usize),
    Case(usize, usize, usize, usize, usize),
    Abort(usize),
    Asc(usize, usize),
    Unit,
}
pub use Piece::{Abort, App, Asc, Case, Fn, Fst, Ident, Inl, Inr, Pair, Snd, Unit};

#[derive(Clone, Copy)]
pub enum Lack {
    Steps = 6,
    Names = 7,
    Formulas = 8,
    Terms = 9,
    Contexts = 10,
    Levels = 11,
}

pub struct Limits {
    pub steps: usize,
    pub names: usize,
    pub formulas: usize,
    pub terms: usize,
    pub contexts: usize,
    pub levels: usize,
}

#[derive(Clone, Copy)]
pub struct Entry {
    pub formula: usize,
    pub proof: usize,
}

/// The ordered context's last record stands last, where the definition has it first.
#[derive(Clone)]
pub struct Sequent {
    pub unordered: Vec<Entry>,
    pub ordered: Vec<Entry>,
    pub goal: usize,
    pub level: usize,
}

impl Sequent {
    pub fn count(&self) -> usize {
        self.unordered.len() + self.ordered.len()
    }

    pub fn goal_up(&self, goal: usize) -> Sequent {
        Sequent {
            goal,
            level: self.level + 1,
            ..self.clone()
        }
    }

    pub fn push_up(&self, e: Entry, goal: usize) -> Sequent {
        let mut up = self.goal_up(goal);
        up.ordered.push(e);
        up
    }

    pub fn push(mut self, e: Entry) -> Sequent {
        self.ordered.push(e);
        self
    }

    pub fn append(mut self, e: Entry) -> Sequent {
        self.unordered.push(e);
        self
    }
}

pub enum Judgement {
    ByRight,
    ByLeft,
    BySearch,
}
pub use Judgement::{ByLeft, ByRight, BySearch};

/// found (the node), failed, or short; words, nodes, indices and steps stand in the search's own state.
pub type Answer = Result<Option<usize>, Lack>;

/// What a rule ends in: an answer, or a judgement whose answer is its own.
pub enum End {
    Answers(Option<usize>),
    Asks(Judgement, Sequent),
}
pub use End::{Answers, Asks};

pub type Ended = Result<End, Lack>;

/// Words and nodes made so far, to which a failed try goes back.
pub struct Mark {
    pub words: usize,
    pub nodes: usize,
}

pub struct Search {
    pub limits: Limits,
    pub taken: Vec<Name>,
    pub words: Vec<Shape>,
    pub nodes: Vec<Piece>,
    pub used: usize,
    pub steps: usize,
}

impl Search {
    pub fn lacking(&self, u: usize, f: usize, t: usize, q: &Sequent) -> Option<Lack> {
        let l = &self.limits;
        if u > l.names {
            Some(Lack::Names)
        } else if f > l.formulas {
            Some(Lack::Formulas)
        } else if t > l.terms {
            Some(Lack::Terms)
        } else if q.count() > l.contexts {
            Some(Lack::Contexts)
        } else if q.level > l.levels {
            Some(Lack::Levels)
        } else {
            None
        }
    }

    pub fn charge(
        &mut self,
        u: usize,
        ws: &[Shape],
        ns: &[Piece],
        q: &Sequent,
    ) -> Result<(), Lack> {
        let f = self.words.len() + ws.len();
        let t = self.nodes.len() + ns.len();
        if let Some(lack) = self.lacking(u, f, t, q) {
            return Err(lack);
        }
        self.words.extend(ws);
        self.nodes.extend(ns);
        self.used = u;
        Ok(())
    }

    pub fn spend(&mut self, ns: &[Piece]) -> Result<(), Lack> {
        if self.nodes.len() + ns.len() > self.limits.terms {
            return Err(Lack::Terms);
        }
        self.nodes.extend(ns);
        Ok(())
    }

    pub fn enter(&mut self) -> Result<(), Lack> {
        if self.steps + 1 > self.limits.steps {
            return Err(Lack::Steps);
        }
        self.steps += 1;
        Ok(())
    }

    pub fn mark(&self) -> Mark {
        Mark {
            words: self.words.len(),
            nodes: self.nodes.len(),
        }
    }

    /// `attempt`: a failed try gives its words and nodes back, indices and steps stay.
    pub fn attempt(&mut self, mark: &Mark, j: Judgement, q: Sequent) -> Answer {
        let answer = self.run(j, q)?;
        if answer.is_none() {
            self.words.truncate(mark.words);
            self.nodes.truncate(mark.nodes);
        }
        Ok(answer)
    }

    pub fn close(&mut self, n: Piece) -> Ended {
        let at = self.nodes.len();
        self.spend(&[n])?;
        Ok(Answers(Some(at)))
    }
}
