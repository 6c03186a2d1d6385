//! What every lent slice holds after a call, each full of junk before it.
mod common;

use common::slices::{refused, Lent, JUNK};
use common::{Case, Random};
use quaysaffron::raw::{self, Answer, Record, Tested, Written};

const P0: u32 = raw::word(raw::ATOM, 0, 0);
const P1: u32 = raw::word(raw::ATOM, 1, 0);
const FREE: u32 = raw::word(raw::ATOM, raw::FIRST_FREE_SYMBOL as usize, 0);
/// x : p0 or p1, goal p1 or p0.
const SWAP: [u32; 4] = [P0, P1, raw::word(raw::OR, 0, 1), raw::word(raw::OR, 1, 0)];
/// `(case x a (inr a) b (inl b))`.
const SWAP_NODES: [[u16; raw::NODE_NUMBERS]; 6] = [
    [raw::IDENT, 0, 0, 0, 0, 0],
    [raw::IDENT, raw::FIRST_GENERATED, 0, 0, 0, 0],
    [raw::OR_RIGHT, 1, 0, 0, 0, 0],
    [raw::IDENT, raw::FIRST_GENERATED + 1, 0, 0, 0, 0],
    [raw::OR_LEFT, 3, 0, 0, 0, 0],
    [
        raw::CASE,
        0,
        raw::FIRST_GENERATED,
        2,
        raw::FIRST_GENERATED + 1,
        4,
    ],
];

/// A search for SWAP's goal from x, the count and the steps given.
fn swap(lent: &mut Lent, count: usize, names: &[u8], goal: usize, steps: usize) -> Answer {
    let Lent { words, terms, work } = lent;
    raw::prove(words, count, &[2], names, goal, terms, work, steps)
}

fn short(number: usize, steps: usize) -> Answer {
    Answer {
        kind: raw::SHORT,
        number,
        steps,
        ..Answer::default()
    }
}

#[test]
fn proved() {
    let mut lent = Lent::new(&SWAP, 3, 8, JUNK);
    let left = lent.left(&SWAP, SWAP_NODES.as_flattened());
    let answer = swap(&mut lent, 4, b"\x01x", 3, 17);
    let counts = Answer {
        root: 5,
        steps: 17,
        indices: 2,
        formulas: 4,
        terms: 6,
        ..Answer::default()
    };
    assert_eq!(
        answer,
        Answer {
            kind: raw::PROVED,
            ..counts
        }
    );
    assert_eq!(lent, left);
}

#[test]
fn unprovable_and_short() {
    let fresh = Lent::new(&SWAP, 3, 8, JUNK);
    let left = fresh.left(&SWAP, &[]);
    let mut lent = fresh.clone();
    let answer = swap(&mut lent, 4, b"\x01x", 0, raw::MOST_STEPS);
    let counts = Answer {
        steps: 8,
        indices: 2,
        formulas: 4,
        ..Answer::default()
    };
    assert_eq!(
        answer,
        Answer {
            kind: raw::UNPROVABLE,
            ..counts
        }
    );
    assert_eq!(lent, left);

    let mut lent = fresh.clone();
    assert_eq!(swap(&mut lent, 4, b"\x01x", 3, 16), short(raw::STEPS, 16));
    assert_eq!(lent, left);
    let mut lent = Lent::new(&SWAP, 0, 5, JUNK);
    let left = lent.left(&SWAP, &[]);
    assert_eq!(swap(&mut lent, 4, b"\x01x", 3, 17), short(raw::TERMS, 17));
    assert_eq!(lent, left);
}

#[test]
fn refused_and_unchanged() {
    let fresh = Lent::new(&SWAP, 3, 8, JUNK);
    // count, names, goal and step limit; the fifth word is the first of junk
    let rows: [(usize, &[u8], usize, usize, Answer); 7] = [
        (8, b"\x01x", 3, 17, refused(raw::SIZES, 0)),
        (4, b"\x01x", 3, raw::MOST_STEPS + 1, refused(raw::SIZES, 0)),
        (5, b"\x01x", 3, 17, refused(raw::BAD_FORMULA, 4)),
        (2, b"\x01x", 1, 17, refused(raw::BAD_ASSUMPTION, 0)),
        (4, b"\x02x", 3, 17, refused(raw::BAD_NAMES, 0)),
        (4, b"\x01xy", 3, 17, refused(raw::BAD_NAMES, 1)),
        (4, b"\x01x", 4, 17, refused(raw::BAD_GOAL, 0)),
    ];
    for (count, names, goal, steps, answer) in rows {
        let mut lent = fresh.clone();
        assert_eq!(swap(&mut lent, count, names, goal, steps), answer);
        assert_eq!(lent, fresh);
    }
}

#[test]
fn refused_sizes_of_slices() {
    let refusals = |edit: fn(&mut Lent)| {
        let mut fresh = Lent::new(&SWAP, 3, 8, JUNK);
        edit(&mut fresh);
        let mut lent = fresh.clone();
        assert_eq!(swap(&mut lent, 4, b"\x01x", 3, 17), refused(raw::SIZES, 0));
        assert_eq!(lent, fresh);
    };
    refusals(|lent| lent.words.truncate(3));
    refusals(|lent| lent.words.resize(raw::MOST_WORDS + 1, 0));
    refusals(|lent| lent.terms.truncate(47));
    refusals(|lent| lent.terms.resize(raw::MOST_NUMBERS + 6, 0));
    refusals(|lent| lent.work.truncate(raw::WORK_RECORDS - 1));
    refusals(|lent| lent.work.push(Record::default()));
    refusals(|lent| lent.work.clear());
}

#[test]
fn status() {
    let negated = [
        FREE,
        raw::word(raw::FALSE, 0, 0),
        raw::word(raw::IMPL, 0, 1),
        raw::word(raw::AND, 0, 2),
    ];
    let asked = |given: &[u32], goal, steps| {
        let mut lent = Lent::new(given, 3, 9, JUNK);
        let left = lent.left(given, &[]);
        let Lent { words, terms, work } = &mut lent;
        let answer = raw::status(words, given.len(), goal, terms, work, steps);
        assert_eq!(lent, left);
        answer
    };
    let verdict = |kind| Answer {
        kind,
        ..Answer::default()
    };
    assert_eq!(asked(&[0], 0, 9), verdict(raw::SOLVABLE));
    assert_eq!(asked(&[P0], 0, 9), verdict(raw::UNSOLVABLE));
    assert_eq!(asked(&[FREE], 0, 9), verdict(raw::UNKNOWN));
    assert_eq!(asked(&negated, 3, 8), verdict(raw::UNSOLVABLE));
    assert_eq!(asked(&negated, 3, 7), short(raw::STEPS, 7));
    assert_eq!(asked(&negated, 3, 3), short(raw::STEPS, 3));
}

#[test]
fn status_refused_and_unchanged() {
    let fresh = Lent::new(&SWAP, 3, 9, JUNK);
    let mut lent = fresh.clone();
    let Lent { words, terms, work } = &mut lent;
    let mut asked = |count, goal, steps| raw::status(words, count, goal, terms, work, steps);
    assert_eq!(asked(8, 0, 9), refused(raw::SIZES, 0));
    assert_eq!(asked(4, 0, raw::MOST_STEPS + 1), refused(raw::SIZES, 0));
    assert_eq!(asked(5, 0, 9), refused(raw::BAD_FORMULA, 4));
    assert_eq!(asked(4, 4, 9), refused(raw::BAD_GOAL, 0));
    assert_eq!(lent, fresh);
}

/// A text of SWAP's derivation in so much room; the buffer is looked at as a whole.
fn written(
    count: usize,
    assumptions: usize,
    names: &[u8],
    root: usize,
    room: usize,
) -> (Written, Vec<u8>) {
    let mut text = vec![JUNK; room];
    let nodes = SWAP_NODES.as_flattened();
    let written = raw::text(&SWAP, count, assumptions, names, nodes, 6, root, &mut text);
    (written, text)
}

#[test]
fn text() {
    let text = b"(case x a (inr a) b (inl b))";
    let size = text.len();
    for more in [0, 1, 40] {
        let mut whole = text.to_vec();
        whole.resize(size + more, 0);
        let done = Written {
            size,
            ..Written::default()
        };
        assert_eq!(written(4, 1, b"\x01x", 5, size + more), (done, whole));
    }
    for room in [0, 1, size - 1] {
        let number = raw::NO_ROOM;
        let refusal = Written {
            number,
            ..Written::default()
        };
        assert_eq!(written(4, 1, b"\x01x", 5, room), (refusal, vec![0; room]));
    }
}

#[test]
fn text_refused_and_unchanged() {
    let unchanged = |number, place| {
        (
            Written {
                number,
                place,
                size: 0,
            },
            vec![JUNK; 40],
        )
    };
    assert_eq!(written(5, 1, b"\x01x", 5, 40), unchanged(raw::SIZES, 0));
    assert_eq!(
        written(4, 65, b"\x01x", 5, 40),
        unchanged(raw::BAD_ASSUMPTION, 64)
    );
    assert_eq!(written(4, 2, b"\x01x", 5, 40), unchanged(raw::BAD_NAMES, 1));
    assert_eq!(written(4, 1, b"\x01x", 6, 40), unchanged(raw::BAD_TERM, 6));
    // generated index 0 is spelled like the assumption
    assert_eq!(written(4, 1, b"\x01a", 5, 40), unchanged(raw::BAD_TERM, 1));
    let mut text = [JUNK; 40];
    let nodes = SWAP_NODES.as_flattened();
    let refusal = raw::text(&[P0, 8], 2, 1, b"\x01x", nodes, 6, 5, &mut text);
    assert_eq!((refusal, text.to_vec()), unchanged(raw::BAD_FORMULA, 1));
}

#[test]
fn name() {
    let named = |index, room: usize| {
        let mut name = vec![JUNK; room];
        let Written {
            number,
            place,
            size,
        } = raw::name(index, &mut name);
        assert_eq!(place, 0);
        (number, size, name)
    };
    assert_eq!(named(26, 2), (0, 2, b"ba".to_vec()));
    assert_eq!(named(26, 4), (0, 2, b"ba\0\0".to_vec()));
    assert_eq!(named(26, 1), (raw::NO_ROOM, 0, vec![0]));
    assert_eq!(named(0, 0), (raw::NO_ROOM, 0, vec![]));
    let (number, size, letters) = named(raw::LAST_INDEX, raw::MOST_GENERATED_BYTES);
    assert_eq!((number, size), (0, letters.len()));
    assert_eq!(named(raw::LAST_INDEX, 157), (raw::NO_ROOM, 0, vec![0; 157]));
    for index in [raw::LAST_INDEX + 1, usize::MAX] {
        assert_eq!(named(index, 0), (raw::NAMES, 0, vec![]));
        assert_eq!(named(index, 200), (raw::NAMES, 0, vec![0; 200]));
    }
}

#[test]
fn output() {
    let truth = Case::new(&[], "T").claim().to_house_file();
    let lines: [(&[u8], &[u8]); 2] = [
        (
            &truth,
            b"proved\nsteps 1\nnames 0\nformulas 1\nterms 1\n()\n",
        ),
        (b"", b"refused 14\n"),
    ];
    for (file, printed) in lines {
        let mut out = [JUNK; raw::OUTPUT_BYTES];
        assert_eq!(raw::output(file, &mut out), printed.len());
        assert_eq!(&out[..printed.len()], printed);
        assert!(out[printed.len()..].iter().all(|byte| *byte == 0));
    }
}

#[test]
fn tests_alone() {
    let tested = |number, place| Tested { number, place };
    let words = [P0, raw::NO_WORD, raw::word(raw::AND, 0, 2)];
    assert_eq!(raw::test_words(&words, 1), tested(0, 0));
    assert_eq!(raw::test_words(&words, 2), tested(raw::BAD_FORMULA, 1));
    assert_eq!(raw::test_words(&words[1..], 9), tested(raw::BAD_FORMULA, 0));
    assert_eq!(raw::test_words(&words[..1], usize::MAX), tested(0, 0));
    assert_eq!(
        raw::test_words(&[P0, P1, words[2]], 3),
        tested(raw::BAD_FORMULA, 2)
    );
    assert_eq!(raw::test_words(&[], 0), tested(0, 0));

    assert_eq!(raw::test_names(b"\x01x\x02ab", 2), tested(0, 0));
    assert_eq!(
        raw::test_names(b"\x01x\x02ab", 1),
        tested(raw::BAD_NAMES, 1)
    );
    assert_eq!(
        raw::test_names(b"\x01x\x02ab", 3),
        tested(raw::BAD_NAMES, 2)
    );
    assert_eq!(raw::test_names(b"\x01x\x01x", 2), tested(raw::BAD_NAMES, 1));
    assert_eq!(raw::test_names(b"\xffx", 1), tested(raw::BAD_NAMES, 0));
    assert_eq!(raw::test_names(b"", 0), tested(0, 0));
    assert_eq!(raw::test_names(b"", usize::MAX), tested(raw::BAD_NAMES, 0));
}

#[test]
fn empty_slices() {
    let mut work = vec![Record::default(); raw::WORK_RECORDS];
    let prove = |work: &mut [Record]| raw::prove(&mut [], 0, &[], &[], 0, &mut [], work, 0);
    assert_eq!(prove(&mut []), refused(raw::SIZES, 0));
    assert_eq!(prove(&mut work), refused(raw::BAD_GOAL, 0));
    let status = raw::status(&mut [], 0, 0, &mut [], &mut work, 0);
    assert_eq!(status, refused(raw::BAD_GOAL, 0));
    let text = raw::text(&[], 0, 0, &[], &[], 0, 0, &mut []);
    assert_eq!(
        text,
        Written {
            number: raw::BAD_TERM,
            place: 0,
            size: 0
        }
    );
}

/// What the slices hold behind what is given changes neither the answer nor what is left, unless all was refused.
#[test]
fn junk_is_not_read() {
    let mut random = Random(3);
    let mut kinds = [0; 8];
    for _ in 0..2_000 {
        let case = random.case();
        let (room, nodes) = (random.below(40), random.below(60));
        let (answer, left) = asked_by(&case, room, nodes, JUNK);
        let (again, left_again) = asked_by(&case, room, nodes, !JUNK);
        assert_eq!(answer, again);
        kinds[answer.kind] += 1;
        let given = case.book.words();
        if answer.kind == raw::REFUSED {
            assert_eq!(left, Lent::new(given, room, nodes, JUNK));
            continue;
        }
        assert_eq!(left, left_again);
        assert_eq!(&left.words[..given.len()], given);
        let words = &left.words[..answer.formulas.max(given.len())];
        let numbers = &left.terms[..answer.terms * raw::NODE_NUMBERS];
        assert_eq!(left, left.left(words, numbers));
    }
    assert!(
        kinds[raw::PROVED..=raw::REFUSED]
            .iter()
            .all(|met| *met > 50),
        "{kinds:?}"
    );
}

/// A search for a case's goal, its formulas by their indices, and what it left.
fn asked_by(case: &Case, room: usize, nodes: usize, junk: u8) -> (Answer, Lent) {
    let given = case.book.words();
    let (mut assumed, mut names) = (vec![], vec![]);
    for (name, formula) in &case.assumed {
        assumed.push(formula.index() as u16);
        names.push(name.len() as u8);
        names.extend(name.bytes());
    }
    let mut lent = Lent::new(given, room, nodes, junk);
    let Lent { words, terms, work } = &mut lent;
    let goal = case.goal.index();
    let answer = raw::prove(
        words,
        given.len(),
        &assumed,
        &names,
        goal,
        terms,
        work,
        10_000,
    );
    (answer, lent)
}
