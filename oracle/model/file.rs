//! File.antt: the house file, and the bytes that the program prints for it.
use crate::call::Outcome::*;
use crate::call::{called, numbers, Claim, Outcome};
use crate::status::{status_lines, status_numbers};
use crate::text::written;
use crate::Options;

pub struct File {
    pub words: Vec<usize>,
    pub indices: Vec<usize>,
    pub text: Vec<u8>,
    pub goals: Vec<usize>,
}

pub fn cut_bytes<'a>(k: usize, bs: &mut &'a [u8]) -> Option<&'a [u8]> {
    let (front, rest) = bs.split_at_checked(k)?;
    *bs = rest;
    Some(front)
}

pub fn cut_number(k: usize, bs: &mut &[u8]) -> Option<usize> {
    let front = cut_bytes(k, bs)?;
    Some(front.iter().rev().fold(0, |n, b| *b as usize + 256 * n))
}

pub fn cut_count(lawful: fn(usize) -> bool, bs: &mut &[u8]) -> Option<usize> {
    cut_number(2, bs).filter(|n| lawful(*n))
}

pub fn cut_section(lawful: fn(usize) -> bool, k: usize, bs: &mut &[u8]) -> Option<Vec<usize>> {
    let n = cut_count(lawful, bs)?;
    (0..n).map(|_| cut_number(k, bs)).collect()
}

pub fn decoded(bs: &[u8]) -> Option<File> {
    if bs.len() > 32768 {
        return None;
    }
    let mut rest = bs;
    let words = cut_section(|n| n <= 4096, 4, &mut rest)?;
    let (mut indices, mut text) = (vec![], vec![]);
    for _ in 0..cut_count(|n| n <= 64, &mut rest)? {
        indices.push(cut_number(2, &mut rest)?);
        let size = cut_number(1, &mut rest)?;
        text.push(size as u8);
        text.extend(cut_bytes(size, &mut rest)?);
    }
    let goals = cut_section(|n| n == 1, 2, &mut rest)?;
    rest.is_empty().then_some(File {
        words,
        indices,
        text,
        goals,
    })
}

pub fn refused_line(n: usize) -> Vec<u8> {
    format!("refused {n}\n").into_bytes()
}

pub fn answer_lines(outcome: Outcome, options: &Options) -> Vec<u8> {
    match outcome {
        Proved(root, s) => match written(&s, root, &options.lent) {
            None => refused_line(12),
            Some(text) => {
                let (n, u, f, t) = (s.steps, s.used, s.words.len(), s.nodes.len());
                let numbers = format!("proved\nsteps {n}\nnames {u}\nformulas {f}\nterms {t}\n");
                [numbers.as_bytes(), &text, b"\n"].concat()
            }
        },
        Unprovable(n, u) if options.more => {
            format!("unprovable\nsteps {n}\nnames {u}\n").into_bytes()
        }
        Unprovable(n, _) => format!("unprovable\nsteps {n}\n").into_bytes(),
        Shortage(lack, n) if options.more => {
            format!("refused {}\nsteps {n}\n", lack as usize).into_bytes()
        }
        Shortage(lack, _) => refused_line(lack as usize),
        Refused(fault, _) => refused_line(fault as usize),
    }
}

pub fn claim_of<'a>(x: &'a File, goal: usize, options: &Options) -> Claim<'a> {
    Claim {
        words: &x.words,
        assumed: &x.indices,
        text: &x.text,
        goal,
        lent: options.lent,
    }
}

pub fn goal_lines(x: &File, goal: usize, options: &Options) -> Vec<u8> {
    answer_lines(called(&claim_of(x, goal, options)), options)
}

/// Adler-32.
fn checksum(text: &[u8]) -> usize {
    let sum = |(a, b), byte: &u8| {
        (
            (a + *byte as usize) % 65521,
            (a + b + *byte as usize) % 65521,
        )
    };
    let (a, b) = text.iter().fold((1, 0), sum);
    b * 65536 + a
}

/// The seven numbers of the call or of the status; then those of the text.
pub fn numbers_line(bs: &[u8], options: &Options) -> Vec<u8> {
    let Some(x) = decoded(bs) else {
        return b"14 0 0 0 0 0 0 0 0 0\n".to_vec();
    };
    let (seven, three) = if options.status {
        (status_numbers(&x, options), [0; 3])
    } else {
        let outcome = called(&claim_of(&x, x.goals[0], options));
        (
            numbers(&outcome, x.words.len()),
            text_numbers(&outcome, options),
        )
    };
    let numbers = [&seven[..], &three[..]].concat();
    let words: Vec<String> = numbers.iter().map(|n| n.to_string()).collect();
    (words.join(" ") + "\n").into_bytes()
}

/// The writer's number, and the length and the checksum of the text.
fn text_numbers(outcome: &Outcome, options: &Options) -> [usize; 3] {
    let Proved(root, s) = outcome else {
        return [0; 3];
    };
    match written(s, *root, &options.lent) {
        Some(text) => [0, text.len(), checksum(&text)],
        None => [12, 0, 0],
    }
}

pub fn printed(bs: &[u8], options: &Options) -> Vec<u8> {
    match decoded(bs) {
        None => refused_line(14),
        Some(x) if options.status => status_lines(&x, options),
        Some(x) => x
            .goals
            .iter()
            .flat_map(|g| goal_lines(&x, *g, options))
            .collect(),
    }
}
