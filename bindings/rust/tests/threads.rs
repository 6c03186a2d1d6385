//! Many claims at once, on threads with no more stack than is asked for.
mod common;

use common::{examples, lines, Case, Random};
use quaysaffron::{output, raw, Limits, Prover};
use std::sync::Barrier;
use std::{fs, thread};

const THREADS: usize = 8;
const CLAIMS: usize = 300;

/// What is said of a list of claims, of their goals alone, and what is printed for files.
fn all_said(cases: &[Case], files: &[Vec<u8>]) -> Vec<String> {
    let mut prover = Prover::with_limits(Limits::MOST);
    let mut said: Vec<String> = files
        .iter()
        .map(|file| String::from_utf8(output(file)).expect("lines"))
        .collect();
    for case in cases {
        let status = prover.status(&case.book, case.goal);
        let answer = prover.prove(&case.claim());
        said.push(format!("{}{status:?}", lines(&answer)));
    }
    said
}

/// Books that go up to level 63: by conditions, by halves of both kinds, by alternatives that are given, and by rule 4, which passes it;
/// and one whose text has a path of 1,024 nodes.
fn deepest() -> Vec<Case> {
    let chain = |link: &str, last: &str| link.repeat(63) + last;
    let nested = chain("> > p1 ", "p0") + &" p0".repeat(63);
    vec![
        Case::new(&[], &chain("> p0 ", "T")),
        Case::new(&[], &chain("& T ", "T")),
        Case::new(&[], &chain("| p0 ", "T")),
        Case::new(&[("x", &chain("| p0 ", "p0"))], "p0"),
        Case::new(&[("x", &nested)], "p2"),
        Case::new(&[("x", &("> T ".repeat(1023) + "p0"))], "p0"),
    ]
}

#[test]
fn threads_say_what_one_says() {
    let mut random = Random(6);
    let mut cases: Vec<Case> = (0..CLAIMS).map(|_| random.case()).collect();
    cases.extend(deepest());
    let files: Vec<Vec<u8>> = examples("house")
        .iter()
        .map(|name| fs::read(name.with_extension("house")).expect("a house file"))
        .collect();
    let alone = all_said(&cases, &files);
    let begin = Barrier::new(THREADS);
    thread::scope(|scope| {
        let run = || {
            begin.wait();
            all_said(&cases, &files)
        };
        let started: Vec<_> = (0..THREADS)
            .map(|_| {
                thread::Builder::new()
                    .stack_size(raw::STACK_BYTES)
                    .spawn_scoped(scope, run)
            })
            .collect();
        for thread in started {
            assert!(thread.expect("a thread").join().expect("its answers") == alone);
        }
    });
}
