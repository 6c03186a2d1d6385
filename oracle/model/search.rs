//! Search.antt: right, left and search as written, and the start.
use crate::form::Shape::{self, And, Bot, Imp, Leaf, Or, Top};
use crate::meter::*;
use crate::names::fresh;

pub fn name(g: usize) -> usize {
    64 + g
}

pub fn entry(formula: usize, proof: usize) -> Entry {
    Entry { formula, proof }
}

impl Search {
    fn look(&self, i: usize) -> Shape {
        self.words[i]
    }

    fn first_leaf(&self, k: usize, y: usize, es: &[Entry]) -> Option<usize> {
        let is_leaf = |e: &&Entry| self.look(e.formula) == Leaf(k, y);
        es.iter().find(is_leaf).map(|e| e.proof)
    }

    fn fire_shape(&self, us: &[Entry], w: Shape) -> Option<(usize, usize)> {
        let Imp(a, b) = w else { return None };
        let Leaf(k, s) = self.look(a) else {
            return None;
        };
        self.first_leaf(k, s, us).map(|t| (t, b))
    }

    /// (kept, the Applications, the new records by rising position)
    fn fire(&self, us: &[Entry]) -> (Vec<Entry>, Vec<Piece>, Vec<Entry>) {
        let (mut kept, mut nodes, mut new) = (vec![], vec![], vec![]);
        for e in us {
            match self.fire_shape(us, self.look(e.formula)) {
                None => kept.push(*e),
                Some((t, b)) => {
                    new.push(entry(b, self.nodes.len() + nodes.len()));
                    nodes.push(App(e.proof, t));
                }
            }
        }
        (kept, nodes, new)
    }

    /// The index of A→B, of B and of C, where the shape is (A→B)→C.
    fn nest(&self, w: Shape) -> Option<(usize, usize, usize)> {
        let Imp(a, c) = w else { return None };
        let Imp(_, r) = self.look(a) else {
            return None;
        };
        Some((a, r, c))
    }

    fn on_right(&mut self, q: Sequent) -> Ended {
        match self.look(q.goal) {
            Top => self.close(Unit),
            Bot | Leaf(..) | Or(..) => Ok(Asks(ByLeft, q)),
            And(a, b) => {
                self.charge(self.used, &[], &[], &q.goal_up(a))?;
                let Some(t) = self.run(ByRight, q.goal_up(a))? else {
                    return Ok(Answers(None));
                };
                self.charge(self.used, &[], &[], &q.goal_up(b))?;
                let Some(u) = self.run(ByRight, q.goal_up(b))? else {
                    return Ok(Answers(None));
                };
                self.close(Pair(t, u))
            }
            Imp(a, b) => {
                let g = fresh(&self.taken, self.used);
                let q1 = q.push_up(entry(a, self.nodes.len()), b);
                self.charge(g + 1, &[], &[Ident(name(g))], &q1)?;
                let Some(t) = self.run(ByRight, q1)? else {
                    return Ok(Answers(None));
                };
                self.close(Fn(name(g), t))
            }
        }
    }

    /// q is without the popped record e of a→c.
    fn on_impl(&mut self, q: Sequent, e: Entry, a: usize, c: usize) -> Ended {
        let n = self.nodes.len();
        let f = self.words.len();
        let x = fresh(&self.taken, self.used);
        let y = fresh(&self.taken, x + 1);
        match self.look(a) {
            Top => {
                let q1 = q.push(entry(c, n + 1));
                self.charge(self.used, &[], &[Unit, App(e.proof, n)], &q1)?;
                Ok(Asks(ByLeft, q1))
            }
            Bot => Ok(Asks(ByLeft, q)),
            Leaf(..) | Imp(..) => Ok(Asks(ByLeft, q.append(e))),
            And(l, r) => {
                let q1 = q.push(entry(f + 1, n + 6));
                let ns = [
                    Ident(name(x)),
                    Ident(name(y)),
                    Pair(n, n + 1),
                    App(e.proof, n + 2),
                    Fn(name(y), n + 3),
                    Fn(name(x), n + 4),
                    Asc(n + 5, f + 1),
                ];
                self.charge(y + 1, &[Imp(r, c), Imp(l, f)], &ns, &q1)?;
                Ok(Asks(ByLeft, q1))
            }
            Or(l, r) => {
                let q1 = q.push(entry(f, n + 4)).push(entry(f + 1, n + 9));
                let ns = [
                    Ident(name(x)),
                    Inl(n),
                    App(e.proof, n + 1),
                    Fn(name(x), n + 2),
                    Asc(n + 3, f),
                    Ident(name(y)),
                    Inr(n + 5),
                    App(e.proof, n + 6),
                    Fn(name(y), n + 7),
                    Asc(n + 8, f + 1),
                ];
                self.charge(y + 1, &[Imp(l, c), Imp(r, c)], &ns, &q1)?;
                Ok(Asks(ByLeft, q1))
            }
        }
    }

    fn on_left(&mut self, q: Sequent, e: Entry) -> Ended {
        match self.look(e.formula) {
            Top => Ok(Asks(ByLeft, q)),
            Bot => self.close(Abort(e.proof)),
            Leaf(..) => Ok(Asks(ByLeft, q.append(e))),
            And(a, b) => {
                let n = self.nodes.len();
                let q1 = q.push(entry(a, n)).push(entry(b, n + 1));
                self.charge(self.used, &[], &[Fst(e.proof), Snd(e.proof)], &q1)?;
                Ok(Asks(ByLeft, q1))
            }
            Or(a, b) => {
                let x = fresh(&self.taken, self.used);
                let q1 = q.push_up(entry(a, self.nodes.len()), q.goal);
                self.charge(x + 1, &[], &[Ident(name(x))], &q1)?;
                let Some(t) = self.run(ByLeft, q1)? else {
                    return Ok(Answers(None));
                };
                let y = fresh(&self.taken, self.used);
                let q2 = q.push_up(entry(b, self.nodes.len()), q.goal);
                self.charge(y + 1, &[], &[Ident(name(y))], &q2)?;
                let Some(u) = self.run(ByLeft, q2)? else {
                    return Ok(Answers(None));
                };
                self.close(Case(e.proof, name(x), t, name(y), u))
            }
            Imp(a, c) => self.on_impl(q, e, a, c),
        }
    }

    fn pop_left(&mut self, mut q: Sequent) -> Ended {
        match q.ordered.pop() {
            None => Ok(Asks(BySearch, q)),
            Some(e) => self.on_left(q, e),
        }
    }

    /// Some: found. None: the position is no (A→B)→C, or its try failed.
    fn try_at(&mut self, q: &Sequent, at: usize) -> Answer {
        let e = q.unordered[at];
        let Some((p0, p1, p2)) = self.nest(self.look(e.formula)) else {
            return Ok(None);
        };
        let s = self.mark();
        let n = self.nodes.len();
        let f = self.words.len();
        let x = fresh(&self.taken, self.used);
        let y = fresh(&self.taken, x + 1);
        let mut unordered = q.unordered.clone();
        unordered.remove(at);
        let q1 = Sequent {
            unordered: unordered.clone(),
            ordered: vec![entry(f, n + 4)],
            goal: p0,
            level: q.level + 1,
        };
        let ns = [
            Ident(name(x)),
            Fn(name(y), n),
            App(e.proof, n + 1),
            Fn(name(x), n + 2),
            Asc(n + 3, f),
        ];
        self.charge(y + 1, &[Imp(p1, p2)], &ns, &q1)?;
        let Some(t) = self.attempt(&s, ByRight, q1)? else {
            return Ok(None);
        };
        let q2 = Sequent {
            unordered,
            ordered: vec![entry(p2, self.nodes.len())],
            goal: q.goal,
            level: q.level + 1,
        };
        self.charge(self.used, &[], &[App(e.proof, t)], &q2)?;
        self.attempt(&s, ByLeft, q2)
    }

    fn positions(&mut self, q: Sequent) -> Ended {
        for at in 0..q.unordered.len() {
            if let Some(u) = self.try_at(&q, at)? {
                return Ok(Answers(Some(u)));
            }
        }
        Ok(Answers(None))
    }

    fn halves(&mut self, q: Sequent) -> Ended {
        if let Or(a, b) = self.look(q.goal) {
            let s = self.mark();
            self.charge(self.used, &[], &[], &q.goal_up(a))?;
            if let Some(t) = self.attempt(&s, ByRight, q.goal_up(a))? {
                return self.close(Inl(t));
            }
            self.charge(self.used, &[], &[], &q.goal_up(b))?;
            if let Some(t) = self.attempt(&s, ByRight, q.goal_up(b))? {
                return self.close(Inr(t));
            }
        }
        self.positions(q)
    }

    fn rule2(&mut self, q: Sequent) -> Ended {
        let (kept, nodes, new) = self.fire(&q.unordered);
        if new.is_empty() {
            return self.halves(q);
        }
        let q1 = Sequent {
            unordered: kept,
            ordered: new.into_iter().rev().collect(),
            ..q
        };
        self.charge(self.used, &[], &nodes, &q1)?;
        Ok(Asks(ByLeft, q1))
    }

    fn on_search(&mut self, q: Sequent) -> Ended {
        if let Leaf(k, y) = self.look(q.goal) {
            if let Some(t) = self.first_leaf(k, y, &q.unordered) {
                return Ok(Answers(Some(t)));
            }
        }
        self.rule2(q)
    }

    fn rule(&mut self, j: Judgement, q: Sequent) -> Ended {
        match j {
            ByRight => self.on_right(q),
            ByLeft => self.pop_left(q),
            BySearch => self.on_search(q),
        }
    }

    pub fn run(&mut self, mut j: Judgement, mut q: Sequent) -> Answer {
        loop {
            self.enter()?;
            match self.rule(j, q)? {
                Answers(answer) => return Ok(answer),
                Asks(j1, q1) => (j, q) = (j1, q1),
            }
        }
    }

    pub fn whole(&mut self, hs: &[usize], g: usize) -> Answer {
        let idents: Vec<Piece> = (0..hs.len()).map(Ident).collect();
        self.spend(&idents)?;
        let first = Sequent {
            unordered: vec![],
            ordered: hs.iter().enumerate().map(|(i, a)| entry(*a, i)).collect(),
            goal: g,
            level: 0,
        };
        self.run(ByRight, first)
    }
}
