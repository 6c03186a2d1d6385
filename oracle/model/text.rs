//! Layout.antt, Text.antt and Writer.antt: the house text of a found term, and refusal 12.
use crate::call::Lent;
use crate::form::Shape::{self, And, Bot, Imp, Leaf, Or, Top};
use crate::meter::Piece::*;
use crate::meter::{Piece, Search};
use crate::names::{bytes_of, spell};

/// A part of a node's text.
pub enum Part {
    Word(&'static str),
    Name(usize),
    Node(usize),
    Form(usize),
}

pub fn parts(piece: Piece) -> Vec<Part> {
    use Part::{Form as A, Name as X, Node as T, Word as W};
    match piece {
        Ident(x) => vec![X(x)],
        Pair(s, t) => vec![W("(pair "), T(s), W(" "), T(t), W(")")],
        Fst(t) => vec![W("(fst "), T(t), W(")")],
        Snd(t) => vec![W("(snd "), T(t), W(")")],
        Fn(x, t) => vec![W("(fn "), X(x), W(" "), T(t), W(")")],
        App(s, t) => vec![W("(app "), T(s), W(" "), T(t), W(")")],
        Inl(t) => vec![W("(inl "), T(t), W(")")],
        Inr(t) => vec![W("(inr "), T(t), W(")")],
        Case(h, x, s, y, t) => vec![
            W("(case "),
            T(h),
            W(" "),
            X(x),
            W(" "),
            T(s),
            W(" "),
            X(y),
            W(" "),
            T(t),
            W(")"),
        ],
        Abort(t) => vec![W("(abort "), T(t), W(")")],
        Asc(t, a) => vec![W("(as "), T(t), W(" "), A(a), W(")")],
        Unit => vec![W("()")],
    }
}

pub fn leaf_text(k: usize, s: usize) -> String {
    let letter = match k {
        0..=2 => 'p',
        3..=6 => 'U',
        _ => 'E',
    };
    format!("{letter}{s}")
}

/// Length and depth of a text, as numbers that stay at the largest one.
#[derive(Clone, Copy)]
pub struct Extent {
    pub length: usize,
    pub depth: usize,
}

pub fn form_extents(words: &[Shape]) -> Vec<Extent> {
    let mut done: Vec<Extent> = vec![];
    for w in words {
        let leaf = |length| Extent { length, depth: 1 };
        let extent = match *w {
            Top | Bot => leaf(1),
            Leaf(k, s) => leaf(leaf_text(k, s).len()),
            And(a, b) | Or(a, b) | Imp(a, b) => Extent {
                length: done[a]
                    .length
                    .saturating_add(done[b].length)
                    .saturating_add(5),
                depth: done[a].depth.max(done[b].depth) + 1,
            },
        };
        done.push(extent);
    }
    done
}

pub fn term_extents(s: &Search) -> Vec<Extent> {
    let forms = form_extents(&s.words);
    let mut done: Vec<Extent> = vec![];
    for piece in &s.nodes {
        let mut sum = Extent {
            length: 0,
            depth: 0,
        };
        for part in parts(*piece) {
            let extent = match part {
                Part::Word(w) => Extent {
                    length: w.len(),
                    depth: 0,
                },
                Part::Name(x) => Extent {
                    length: bytes_of(&s.taken, x).len(),
                    depth: 0,
                },
                Part::Node(t) => done[t],
                Part::Form(a) => forms[a],
            };
            sum.length = sum.length.saturating_add(extent.length);
            sum.depth = sum.depth.max(extent.depth);
        }
        sum.depth += 1;
        done.push(sum);
    }
    done
}

pub fn form_text(words: &[Shape], i: usize, out: &mut Vec<u8>) {
    let (word, a, b) = match words[i] {
        Top => return out.push(b'T'),
        Bot => return out.push(b'F'),
        Leaf(k, s) => return out.extend(leaf_text(k, s).bytes()),
        And(a, b) => ("(& ", a, b),
        Or(a, b) => ("(| ", a, b),
        Imp(a, b) => ("(> ", a, b),
    };
    out.extend(word.bytes());
    form_text(words, a, out);
    out.push(b' ');
    form_text(words, b, out);
    out.push(b')');
}

pub fn term_text(s: &Search, i: usize, out: &mut Vec<u8>) {
    for part in parts(s.nodes[i]) {
        match part {
            Part::Word(w) => out.extend(w.bytes()),
            Part::Name(x) => out.extend(bytes_of(&s.taken, x)),
            Part::Node(t) => term_text(s, t, out),
            Part::Form(a) => form_text(&s.words, a, out),
        }
    }
}

/// `Layout.bad_term` never refuses what the search made; here it is looked at, with the layout of the made words.
pub fn lawful(s: &Search, root: usize, free: bool) -> bool {
    let word = |(i, w): (usize, &Shape)| match *w {
        And(a, b) | Or(a, b) | Imp(a, b) => a < i && b < i,
        _ => true,
    };
    let lawful_name = |x: usize| match x.checked_sub(64) {
        None => x < s.taken.len(),
        Some(g) => (free || g <= 4095) && !s.taken.contains(&spell(g)),
    };
    let node = |(i, piece): (usize, &Piece)| {
        parts(*piece).iter().all(|part| match part {
            Part::Word(_) => true,
            Part::Name(x) => lawful_name(*x),
            Part::Node(t) => *t < i,
            Part::Form(a) => *a < s.words.len(),
        })
    };
    let words = s.words.iter().enumerate().all(word);
    words && s.nodes.iter().enumerate().all(node) && root < s.nodes.len()
}

/// None is 12.
pub fn written(s: &Search, root: usize, lent: &Lent) -> Option<Vec<u8>> {
    assert!(lawful(s, root, lent.free), "13");
    let extent = term_extents(s)[root];
    if extent.depth > 1024 || extent.length > lent.text {
        return None;
    }
    let mut text = vec![];
    term_text(s, root, &mut text);
    assert!(text.len() == extent.length);
    Some(text)
}
