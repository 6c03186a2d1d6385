//! A house file as the Rust's own structures, and what the Rust found as lines with house text: for the driver and for the timing.
use crate::kernel::checker::identifier_context::IdentifierContext;
use crate::kernel::proof_term::{
    Abort, Application, Case, Function, Ident, OrLeft, OrRight, Pair, ProjectFst, ProjectSnd,
    ProofTerm, Type, TypeAscription,
};
use crate::kernel::prop::{Prop, PropParameter};

/// A stack for the deepest search: in the Rust it grows with the entries.
pub const STACK: usize = 6 << 30;
const LONGEST_TEXT: usize = 32_768;

pub struct Book {
    pub words: Vec<u32>,
    pub assumptions: Vec<(usize, String)>,
    pub goal: usize,
}

impl Book {
    pub fn context(&self) -> IdentifierContext {
        let mut ctx = IdentifierContext::new();
        for (index, name) in &self.assumptions {
            ctx.add(name.clone(), Type::Prop(tree(&self.words, *index)));
        }
        ctx
    }

    pub fn goal(&self) -> Prop {
        tree(&self.words, self.goal)
    }
}

struct Bytes<'a>(&'a [u8]);

impl<'a> Bytes<'a> {
    fn take(&mut self, n: usize) -> Option<&'a [u8]> {
        let (front, rest) = self.0.split_at_checked(n)?;
        self.0 = rest;
        Some(front)
    }

    fn number(&mut self, width: usize) -> Option<usize> {
        let bytes = self.take(width)?;
        Some(bytes.iter().rev().fold(0, |n, b| n * 256 + *b as usize))
    }
}

pub fn decode(bytes: &[u8]) -> Option<Book> {
    let mut bytes = Bytes(bytes);
    let mut words = vec![];
    for _ in 0..bytes.number(2)? {
        words.push(bytes.number(4)? as u32);
    }
    let mut assumptions = vec![];
    for _ in 0..bytes.number(2)? {
        let index = bytes.number(2)?;
        let length = bytes.number(1)?;
        let name = String::from_utf8(bytes.take(length)?.to_vec()).ok()?;
        assumptions.push((index, name));
    }
    if bytes.number(2)? != 1 {
        return None;
    }
    let goal = bytes.number(2)?;
    let known = |i: usize| i < words.len();
    (bytes.0.is_empty() && known(goal) && assumptions.iter().all(|a| known(a.0))).then_some(Book {
        words,
        assumptions,
        goal,
    })
}

pub fn fields(word: u32) -> (u32, usize, usize) {
    (
        word & 15,
        (word >> 4 & 16_383) as usize,
        (word >> 18) as usize,
    )
}

fn tree(words: &[u32], at: usize) -> Prop {
    let (kind, left, right) = fields(words[at]);
    let child = |i| Box::new(tree(words, i));
    let atom = || {
        let free = PropParameter::Uninstantiated("y".to_string());
        let params = if left < 8_192 { vec![] } else { vec![free] };
        Prop::Atom(format!("p{left}"), params)
    };
    match kind {
        0 => Prop::True,
        1 => Prop::False,
        2 => atom(),
        3 => Prop::And(child(left), child(right)),
        4 => Prop::Or(child(left), child(right)),
        5 => Prop::Impl(child(left), child(right)),
        6 => Prop::ForAll {
            object_ident: "x".to_string(),
            object_type_ident: "t".to_string(),
            body: Box::new(atom()),
        },
        _ => Prop::Exists {
            object_ident: "x".to_string(),
            object_type_ident: "t".to_string(),
            body: Box::new(atom()),
        },
    }
}

fn write_leaf(letter: char, leaf: &Prop, out: &mut String) {
    let Prop::Atom(name, _) = leaf else {
        panic!("a leaf's body is an atom");
    };
    out.push(letter);
    out.push_str(&name[1..]);
}

fn write_pair(word: &str, fst: &Prop, snd: &Prop, out: &mut String) {
    out.push_str(word);
    write_prop(fst, out);
    out.push(' ');
    write_prop(snd, out);
    out.push(')');
}

fn write_prop(prop: &Prop, out: &mut String) {
    match prop {
        Prop::True => out.push('T'),
        Prop::False => out.push('F'),
        Prop::Atom(_, _) => write_leaf('p', prop, out),
        Prop::ForAll { body, .. } => write_leaf('U', body, out),
        Prop::Exists { body, .. } => write_leaf('E', body, out),
        Prop::And(fst, snd) => write_pair("(& ", fst, snd, out),
        Prop::Or(fst, snd) => write_pair("(| ", fst, snd, out),
        Prop::Impl(fst, snd) => write_pair("(> ", fst, snd, out),
    }
}

/// A part of a term's text.
enum Part<'a> {
    Word(&'a str),
    Term(&'a ProofTerm),
    Prop(&'a Prop),
}

fn parts(term: &ProofTerm) -> Vec<Part<'_>> {
    use Part::{Prop as P, Term as T, Word as W};
    let call = |word, body| vec![W(word), T(body), W(")")];
    let two = |word, fst, snd| vec![W(word), T(fst), W(" "), T(snd), W(")")];
    match term {
        ProofTerm::Ident(Ident(name, _)) => vec![W(name)],
        ProofTerm::Pair(Pair(fst, snd, _)) => two("(pair ", fst, snd),
        ProofTerm::ProjectFst(ProjectFst(body, _)) => call("(fst ", body),
        ProofTerm::ProjectSnd(ProjectSnd(body, _)) => call("(snd ", body),
        ProofTerm::Function(Function {
            param_ident, body, ..
        }) => vec![W("(fn "), W(param_ident), W(" "), T(body), W(")")],
        ProofTerm::Application(Application {
            function,
            applicant,
            ..
        }) => two("(app ", function, applicant),
        ProofTerm::OrLeft(OrLeft(body, _)) => call("(inl ", body),
        ProofTerm::OrRight(OrRight(body, _)) => call("(inr ", body),
        ProofTerm::Case(Case {
            head,
            fst_ident: x,
            fst_term: s,
            snd_ident: y,
            snd_term: t,
            ..
        }) => {
            let mut parts = vec![W("(case "), T(head), W(" "), W(x), W(" "), T(s)];
            parts.extend([W(" "), W(y), W(" "), T(t), W(")")]);
            parts
        }
        ProofTerm::Abort(Abort(body, _)) => call("(abort ", body),
        ProofTerm::TypeAscription(TypeAscription {
            proof_term,
            ascription: Type::Prop(prop),
            ..
        }) => vec![W("(as "), T(proof_term), W(" "), P(prop), W(")")],
        ProofTerm::Unit(_) => vec![W("()")],
        _ => panic!("the prover makes no such term"),
    }
}

/// The text's length, the nodes on the longest path, and the text itself as far as it fits.
#[derive(Default)]
struct Text {
    length: usize,
    depth: usize,
    text: String,
}

impl Text {
    fn push(&mut self, word: &str) {
        self.length += word.len();
        if self.length <= LONGEST_TEXT {
            self.text.push_str(word);
        }
    }

    fn add(&mut self, term: &ProofTerm, depth: usize) {
        self.depth = self.depth.max(depth);
        for part in parts(term) {
            match part {
                Part::Word(word) => self.push(word),
                Part::Term(child) => self.add(child, depth + 1),
                Part::Prop(prop) => {
                    self.depth = self.depth.max(depth + prop_depth(prop));
                    let mut text = String::new();
                    write_prop(prop, &mut text);
                    self.push(&text);
                }
            }
        }
    }
}

fn prop_depth(prop: &Prop) -> usize {
    match prop {
        Prop::And(fst, snd) | Prop::Or(fst, snd) | Prop::Impl(fst, snd) => {
            1 + prop_depth(fst).max(prop_depth(snd))
        }
        _ => 1,
    }
}

/// The first line of an answer, and for a proof the lines `length N`, `depth N` and the house text, if it is not too long.
pub fn told(found: Option<ProofTerm>) -> (String, String) {
    let Some(term) = found else {
        return ("unprovable".to_string(), String::new());
    };
    let mut text = Text::default();
    text.add(&term, 1);
    let mut after = format!("length {}\ndepth {}\n", text.length, text.depth);
    if text.length <= LONGEST_TEXT {
        after += &text.text;
        after.push('\n');
    }
    ("proved".to_string(), after)
}
