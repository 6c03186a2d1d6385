//! Slices to lend to the functions of `raw`, full of junk where nothing is given, and the answer of a refusal.
use quaysaffron::raw::{self, Answer, Record};

pub const JUNK: u8 = 0xaa;

/// What a search or a status may write.
#[derive(Clone, Debug, PartialEq)]
pub struct Lent {
    pub words: Vec<u32>,
    pub terms: Vec<u16>,
    pub work: Vec<Record>,
}

impl Lent {
    /// The given words and junk behind them, and nothing else but junk.
    pub fn new(given: &[u32], room: usize, nodes: usize, junk: u8) -> Lent {
        let half = u16::from_le_bytes([junk; 2]);
        let mut words = given.to_vec();
        words.resize(given.len() + room, u32::from_le_bytes([junk; 4]));
        let record = Record {
            formula: half,
            term: half,
        };
        Lent {
            words,
            terms: vec![half; nodes * raw::NODE_NUMBERS],
            work: vec![record; raw::WORK_RECORDS],
        }
    }

    /// The given words and nodes, and nothing else but zero.
    pub fn left(&self, words: &[u32], numbers: &[u16]) -> Lent {
        let mut left = Lent::new(
            &[],
            self.words.len(),
            self.terms.len() / raw::NODE_NUMBERS,
            0,
        );
        left.words[..words.len()].copy_from_slice(words);
        left.terms[..numbers.len()].copy_from_slice(numbers);
        left
    }
}

pub fn refused(number: usize, place: usize) -> Answer {
    Answer {
        kind: raw::REFUSED,
        number,
        place,
        ..Answer::default()
    }
}
