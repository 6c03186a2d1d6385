//! The proved calls as another language calls them, fed as the model is: what the program prints for a house file, beside the search and
//! the writer alone; with --status the status of its goal, the assumptions left out; with --time the nanoseconds of one output, bytes to
//! bytes.
mod feed;
mod timing;

use quaysaffron::raw::{self, Answer, Record, Tested};
use std::io;

const JUNK: u16 = 0xaaaa;

/// What a well-cut file and the program's limits lend to a search; behind what is given, the slices are full of junk.
struct Lent {
    words: Vec<u32>,
    count: usize,
    assumed: Vec<u16>,
    names: Vec<u8>,
    goal: usize,
    terms: Vec<u16>,
    work: Vec<Record>,
}

impl Lent {
    /// Words, assumptions and goals, of which there is one, each after how many there are.
    fn new(file: &[u8]) -> Lent {
        let half = |at: usize| u16::from_le_bytes([file[at], file[at + 1]]);
        let word = |at: usize| u32::from_le_bytes(file[at..at + 4].try_into().expect("a word"));
        let count = half(0) as usize;
        let (mut assumed, mut names, mut at) = (vec![], vec![], 4 + 4 * count);
        for _ in 0..half(2 + 4 * count) {
            let end = at + 3 + file[at + 2] as usize;
            assumed.push(half(at));
            names.extend(&file[at + 2..end]);
            at = end;
        }
        let words = (0..raw::PROGRAM_WORDS).map(|i| {
            if i < count {
                word(2 + 4 * i)
            } else {
                raw::NO_WORD
            }
        });
        let junk = Record {
            formula: JUNK,
            term: JUNK,
        };
        Lent {
            words: words.collect(),
            count,
            assumed,
            names,
            goal: half(at + 2) as usize,
            terms: vec![JUNK; raw::PROGRAM_NODES * raw::NODE_NUMBERS],
            work: vec![junk; raw::WORK_RECORDS],
        }
    }

    /// Whether everything is zero but for so many words and term numbers.
    fn zero_behind(&self, words: usize, numbers: usize) -> bool {
        self.words[words..].iter().all(|word| *word == 0)
            && self.terms[numbers..].iter().all(|number| *number == 0)
            && self.work.iter().all(|record| *record == Record::default())
    }

    /// Whether the tests of words and of names alone refuse what the search refused, if that is theirs; it tests words before names.
    fn tested_as(&self, answer: &Answer) -> bool {
        let words = raw::test_words(&self.words, self.count);
        let names = raw::test_names(&self.names, self.assumed.len());
        let refused = Tested {
            number: answer.number,
            place: answer.place,
        };
        match answer.number {
            raw::BAD_FORMULA => words == refused,
            raw::BAD_NAMES => words == Tested::default() && names == refused,
            raw::SIZES | raw::BAD_ASSUMPTION => true,
            _ => words == Tested::default() && names == Tested::default(),
        }
    }

    /// The lines of what was proved, or of the refusal of its text; behind the text the buffer must be zero.
    fn proved_lines(&self, answer: &Answer) -> String {
        let Answer {
            root,
            steps,
            indices,
            formulas,
            terms,
            ..
        } = *answer;
        let mut text = vec![JUNK as u8; raw::PROGRAM_TEXT_BYTES];
        let assumptions = self.assumed.len();
        let written = raw::text(
            &self.words,
            formulas,
            assumptions,
            &self.names,
            &self.terms,
            terms,
            root,
            &mut text,
        );
        assert!(text[written.size..].iter().all(|byte| *byte == 0));
        if written.number != 0 {
            return format!("refused {}\n", written.number);
        }
        let text = String::from_utf8_lossy(&text[..written.size]);
        format!(
            "proved\nsteps {steps}\nnames {indices}\nformulas {formulas}\nterms {terms}\n{text}\n"
        )
    }
}

/// What the search and the writer say of a well-cut file, in the lines that are printed. What must be zero in the end is, unless the call
/// was refused.
fn searched(file: &[u8]) -> String {
    let mut lent = Lent::new(file);
    let Lent {
        words,
        count,
        assumed,
        names,
        goal,
        terms,
        work,
    } = &mut lent;
    let answer = raw::prove(
        words,
        *count,
        assumed,
        names,
        *goal,
        terms,
        work,
        raw::PROGRAM_STEPS,
    );
    let words = if answer.kind == raw::PROVED {
        answer.formulas
    } else {
        lent.count
    };
    assert!(
        answer.kind == raw::REFUSED || lent.zero_behind(words, raw::NODE_NUMBERS * answer.terms)
    );
    assert!(lent.tested_as(&answer));
    match answer.kind {
        raw::PROVED => lent.proved_lines(&answer),
        raw::UNPROVABLE => format!("unprovable\nsteps {}\n", answer.steps),
        _ => format!("refused {}\n", answer.number),
    }
}

/// The printed bytes, from an array full of junk; behind them every byte must be zero, and the search and the writer alone must say the
/// same, unless the file is no book.
fn printed(file: &[u8]) -> Vec<u8> {
    let mut out = [JUNK as u8; raw::OUTPUT_BYTES];
    let length = raw::output(file, &mut out);
    assert!(out[length..].iter().all(|byte| *byte == 0));
    let lines = &out[..length];
    assert!(lines == b"refused 14\n" || lines == searched(file).as_bytes());
    lines.to_vec()
}

fn time(file: &[u8]) -> Vec<u8> {
    let mut out = [JUNK as u8; raw::OUTPUT_BYTES];
    timing::nanoseconds(|| raw::output(file, &mut out))
}

/// The status of a well-cut file's goal, a shortage with its steps. What must be zero in the end is, unless the call was refused.
fn status(file: &[u8]) -> Vec<u8> {
    let mut lent = Lent::new(file);
    let Lent {
        words,
        count,
        goal,
        terms,
        work,
        ..
    } = &mut lent;
    let answer = raw::status(words, *count, *goal, terms, work, raw::PROGRAM_STEPS);
    assert!(answer.kind == raw::REFUSED || lent.zero_behind(lent.count, 0));
    match answer.kind {
        raw::SOLVABLE => b"solvable\n".to_vec(),
        raw::UNSOLVABLE => b"unsolvable\n".to_vec(),
        raw::UNKNOWN => b"unknown\n".to_vec(),
        raw::SHORT => format!("refused {}\nsteps {}\n", answer.number, answer.steps).into_bytes(),
        _ => format!("refused {}\n", answer.number).into_bytes(),
    }
}

fn main() -> io::Result<()> {
    let mut answer: fn(&[u8]) -> Vec<u8> = printed;
    let feed = feed::command_line(|option, _| match option {
        "--status" => answer = status,
        "--time" => answer = time,
        _ => panic!("no option {option}"),
    });
    feed::on_a_stack(1 << 23, move || feed.answer(0, |_, file| answer(file)))
}
