//! Form.antt: formula words and their shapes.

#[derive(Clone, Copy, PartialEq)]
pub enum Shape {
    Top,
    Bot,
    Leaf(usize, usize),
    And(usize, usize),
    Or(usize, usize),
    Imp(usize, usize),
}
pub use Shape::{And, Bot, Imp, Leaf, Or, Top};

pub fn kind_of(w: usize) -> usize {
    w % 16
}

pub fn left_of(w: usize) -> usize {
    w / 16 % 16384
}

pub fn right_of(w: usize) -> usize {
    w / 262144
}

pub fn shape(w: usize) -> Shape {
    let (l, r) = (left_of(w), right_of(w));
    match kind_of(w) {
        0 => Top,
        1 => Bot,
        2 => Leaf(2, l),
        3 => And(l, r),
        4 => Or(l, r),
        5 => Imp(l, r),
        k => Leaf(k, l),
    }
}

/// The layout of word w at index i.
pub fn laid_out(i: usize, w: usize) -> bool {
    let (l, r) = (left_of(w), right_of(w));
    match kind_of(w) {
        0 | 1 => l == 0 && r == 0,
        2 | 6 | 7 => r == 0,
        3 | 4 | 5 => l < i && r < i,
        _ => false,
    }
}

/// A leaf of symbol s under another kind than k.
pub fn other_kind(k: usize, s: usize, shape: Shape) -> bool {
    match shape {
        Leaf(k2, s2) => s == s2 && k != k2,
        Top | Bot | And(..) | Or(..) | Imp(..) => false,
    }
}

pub fn stands_otherwise(k: usize, s: usize, before: &[usize]) -> bool {
    before.iter().any(|v| other_kind(k, s, shape(*v)))
}

pub fn clashes(before: &[usize], shape: Shape) -> bool {
    match shape {
        Leaf(k, s) => stands_otherwise(k, s, before),
        Top | Bot | And(..) | Or(..) | Imp(..) => false,
    }
}

pub fn good_word(before: &[usize], w: usize) -> bool {
    laid_out(before.len(), w) && !clashes(before, shape(w))
}

/// Form.antt's bad_from is this search for the lowest.
pub fn bad_word(ws: &[usize]) -> Option<usize> {
    (0..ws.len()).find(|i| !good_word(&ws[..*i], ws[*i]))
}
