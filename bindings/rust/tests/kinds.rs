//! One symbol, one kind (document 02, request 6): a word whose leaf symbol stands at a lower index under another leaf kind is refused with
//! 2 at that word, by every call that tests words, and nothing lent is changed.
mod common;

use common::slices::{refused, Lent, JUNK};
use common::LEAVES;
use quaysaffron::raw::{self, Answer, Tested, Written};

const SYMBOLS: usize = raw::LAST_SYMBOL as usize + 1;
const TRUE: u32 = raw::word(raw::TRUE, 0, 0);
const P5: u32 = leaf(raw::ATOM, 5);
const U5: u32 = leaf(raw::FOR_ALL, 5);
const E5: u32 = leaf(raw::EXISTS, 5);
/// Both parts of it are word 0.
const AND: u32 = raw::word(raw::AND, 0, 0);
/// The node of assumption 0.
const IDENT: [u16; raw::NODE_NUMBERS] = [raw::IDENT, 0, 0, 0, 0, 0];
/// The library keeps the kinds of four symbols in a byte, those that differ in their two top bits alone.
const SHARING: [usize; 4] = [5, 4101, 8197, 12293];
/// More than any search here takes.
const STEPS: usize = 100;

const fn leaf(kind: usize, symbol: usize) -> u32 {
    raw::word(kind, symbol, 0)
}

/// Each two kinds, in both orders.
fn pairs() -> impl Iterator<Item = (usize, usize)> {
    let pair = |first| LEAVES.map(|second| (first, second));
    LEAVES
        .into_iter()
        .flat_map(pair)
        .filter(|(first, second)| first != second)
}

/// What a test of words tells of the lowest that is at fault.
fn at(place: Option<usize>) -> Tested {
    place.map_or(Tested::default(), |place| Tested {
        number: raw::BAD_FORMULA,
        place,
    })
}

/// Slices with these words at the front, some junk behind them if there is room, and nodes enough for what is asked here.
fn fresh(words: &[u32]) -> Lent {
    Lent::new(words, 4.min(raw::MOST_WORDS - words.len()), 4, JUNK)
}

/// A search for word `goal` from word 0, called x, among the first `count` words, and whether it left every slice as it was.
fn searched(words: &[u32], count: usize, goal: usize) -> (Answer, bool) {
    let before = fresh(words);
    let mut lent = before.clone();
    let Lent { words, terms, work } = &mut lent;
    let answer = raw::prove(words, count, &[0], b"\x01x", goal, terms, work, STEPS);
    (answer, lent == before)
}

/// The status of word `goal` likewise.
fn asked(words: &[u32], goal: usize) -> (Answer, bool) {
    let before = fresh(words);
    let (count, mut lent) = (words.len(), before.clone());
    let Lent { words, terms, work } = &mut lent;
    let answer = raw::status(words, count, goal, terms, work, STEPS);
    (answer, lent == before)
}

/// The text of x over the words, and whether it left the buffer as it was.
fn written(words: &[u32]) -> (Written, bool) {
    let mut text = [JUNK; 40];
    let written = raw::text(words, words.len(), 1, b"\x01x", &IDENT, 1, 0, &mut text);
    (written, text == [JUNK; 40])
}

/// The bytes of a house file without assumptions, its goal word 0.
fn house_file(words: &[u32]) -> Vec<u8> {
    let mut file = (words.len() as u16).to_le_bytes().to_vec();
    file.extend(words.iter().flat_map(|word| word.to_le_bytes()));
    file.extend([0, 0, 1, 0, 0, 0]);
    file
}

/// What every call tells of words that are refused at a place.
fn every_call_refuses(words: &[u32], place: usize) {
    assert_eq!(raw::test_words(words, words.len()), at(Some(place)));
    let refusal = refused(raw::BAD_FORMULA, place);
    for goal in 0..words.len() {
        assert_eq!(searched(words, words.len(), goal), (refusal, true));
        assert_eq!(asked(words, goal), (refusal, true));
    }
    let unwritten = Written {
        number: raw::BAD_FORMULA,
        place,
        size: 0,
    };
    assert_eq!(written(words), (unwritten, true));
    let (mut out, line) = ([JUNK; raw::OUTPUT_BYTES], b"refused 2\n");
    assert_eq!(raw::output(&house_file(words), &mut out), line.len());
    assert_eq!(&out[..line.len()], line);
    assert!(out[line.len()..].iter().all(|byte| *byte == 0));
}

/// What every call tells of words that pass.
fn every_call_takes(words: &[u32]) {
    assert_eq!(raw::test_words(words, words.len()), at(None));
    let (written, unchanged) = written(words);
    assert_eq!((written.number, written.size, unchanged), (0, 1, false));
    for goal in 0..words.len() {
        assert_eq!(searched(words, words.len(), goal).0.number, 0);
        assert_eq!(asked(words, goal).0.number, 0);
    }
}

#[test]
fn two_kinds_in_both_orders() {
    assert_eq!(pairs().count(), 6);
    for (first, second) in pairs() {
        for symbol in [0, 5, SYMBOLS - 1] {
            every_call_refuses(&[leaf(first, symbol), leaf(second, symbol)], 1);
        }
    }
}

#[test]
fn words_that_nothing_uses() {
    for (first, second) in pairs() {
        every_call_refuses(&[TRUE, leaf(first, 5), TRUE, AND, leaf(second, 5)], 4);
    }
}

#[test]
fn three_kinds() {
    every_call_refuses(&[P5, U5, E5], 1);
    every_call_refuses(&[P5, P5, leaf(raw::FOR_ALL, 6), E5, U5], 3);
}

/// Of a clash and a word that breaks the layout, whichever stands lower.
#[test]
fn the_lowest_fault() {
    every_call_refuses(&[P5, U5, raw::NO_WORD], 1);
    every_call_refuses(&[P5, raw::NO_WORD, U5], 1);
    every_call_refuses(&[P5, raw::word(raw::AND, 0, 1), U5], 1);
    // a leaf with a right field
    every_call_refuses(&[P5, raw::word(raw::FOR_ALL, 5, 1), E5], 1);
}

#[test]
fn words_that_pass() {
    let fields = [P5, AND, leaf(raw::FOR_ALL, 0), leaf(raw::EXISTS, 1)];
    let others = [P5, leaf(raw::FOR_ALL, 6), leaf(raw::EXISTS, 4), P5];
    for words in [&[P5, P5][..], &[U5, U5], &[E5, E5], &fields, &others] {
        every_call_takes(words);
    }
}

/// No bit of a symbol is left out.
#[test]
fn symbols_that_differ_in_one_bit() {
    let bits = SYMBOLS.ilog2();
    for (first, second) in pairs() {
        let mut words = vec![leaf(first, 0)];
        words.extend((0..bits).map(|bit| leaf(second, 1 << bit)));
        let count = words.len();
        assert_eq!(raw::test_words(&words, count), at(None));
        for bit in 0..bits {
            words.push(leaf(first, 1 << bit));
            assert_eq!(raw::test_words(&words, count + 1), at(Some(count)));
            words.pop();
        }
    }
}

/// Under kinds by turns they pass; any of them is refused once more under another.
#[test]
fn symbols_that_share_a_byte() {
    let word = |turn: usize, symbol| leaf(LEAVES[turn % LEAVES.len()], symbol);
    for turn in 0..LEAVES.len() {
        let symbols = (turn..).zip(SHARING);
        let words: Vec<u32> = symbols
            .clone()
            .map(|(at, symbol)| word(at, symbol))
            .collect();
        every_call_takes(&words);
        for (at, symbol) in symbols {
            for later in 1..LEAVES.len() {
                let mixed = [&words[..], &[word(at + later, symbol)]].concat();
                every_call_refuses(&mixed, words.len());
            }
        }
    }
}

/// The kind and the steps of an answer.
fn answered(words: &[u32], count: usize, goal: usize) -> (usize, usize) {
    let (answer, _) = searched(words, count, goal);
    (answer.kind, answer.steps)
}

#[test]
fn answers_beside_a_refusal() {
    assert_eq!(answered(&[P5, P5], 2, 1), (raw::PROVED, 4));
    assert_eq!(answered(&[U5, U5], 2, 1), (raw::PROVED, 4));
    // its parts are no symbols
    let fields = [P5, AND, leaf(raw::FOR_ALL, 0)];
    assert_eq!(answered(&fields, 3, 2), (raw::UNPROVABLE, 4));
    let Lent { words, terms, work } = &mut fresh(&fields);
    let alone = raw::prove(words, 3, &[], b"", 2, terms, work, STEPS);
    assert_eq!((alone.kind, alone.steps), (raw::UNPROVABLE, 3));
}

#[test]
fn words_above_the_count_are_not_looked_at() {
    for (first, second) in pairs() {
        let words = [leaf(first, 5), leaf(second, 5)];
        assert_eq!(raw::test_words(&words, 1), at(None));
        assert_eq!(raw::test_words(&words, 2), at(Some(1)));
        assert_eq!(raw::test_words(&words, usize::MAX), at(Some(1)));
        assert_eq!(raw::test_words(&words[1..], usize::MAX), at(None));
        assert_eq!(answered(&words, 1, 0), (raw::PROVED, 4));
    }
}

/// Every symbol as an atom; more words than may be lent can be tested alone.
#[test]
fn as_many_words_as_symbols() {
    let atoms: Vec<u32> = (0..SYMBOLS).map(|symbol| leaf(raw::ATOM, symbol)).collect();
    assert_eq!(raw::test_words(&atoms, SYMBOLS), at(None));
    assert_eq!(answered(&atoms, SYMBOLS, 0), (raw::PROVED, 4));
    let last = SYMBOLS - 1;
    for (kind, symbol) in [(raw::FOR_ALL, 0), (raw::EXISTS, last - 1)] {
        let mut words = atoms.clone();
        words[last] = leaf(kind, symbol);
        assert_eq!(raw::test_words(&words, SYMBOLS), at(Some(last)));
        assert_eq!(raw::test_words(&words, last), at(None));
        let refusal = (refused(raw::BAD_FORMULA, last), true);
        assert_eq!(searched(&words, SYMBOLS, 0), refusal);
        assert_eq!(asked(&words, 0), refusal);
    }
    let twice = [&atoms[..], &atoms, &[U5]].concat();
    assert_eq!(raw::test_words(&twice, 2 * SYMBOLS), at(None));
    assert_eq!(raw::test_words(&twice, twice.len()), at(Some(2 * SYMBOLS)));
}

/// Row 1 comes before row 2, the others behind it.
#[test]
fn the_first_row_is_told() {
    let told = |assumed: &[u16], names: &[u8], goal, numbers| {
        let Lent { words, terms, work } = &mut fresh(&[P5, U5]);
        let terms = &mut terms[..numbers];
        raw::prove(words, 2, assumed, names, goal, terms, work, STEPS)
    };
    let (mixed, node) = (refused(raw::BAD_FORMULA, 1), raw::NODE_NUMBERS);
    assert_eq!(told(&[7], b"\x01x", 0, node), mixed);
    assert_eq!(told(&[0], b"\x01-", 0, node), mixed);
    assert_eq!(told(&[0], b"\x01x", 7, node), mixed);
    assert_eq!(told(&[0], b"\x01x", 0, node + 1), refused(raw::SIZES, 0));
}
