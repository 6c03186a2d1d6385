//! Every refusal and shortage, each where it is first met and, where there is a boundary, on its other side too.
mod common;

use common::{formula, tree, Assumed, Case};
use quaysaffron::{raw, Book, Claim, Formula, Limits, Outcome, Prover, Refusal};

fn said(case: &Case, limits: Limits) -> Result<Outcome, Refusal> {
    Prover::with_limits(limits).prove(&case.claim())
}

fn unprovable(steps: usize, names: usize) -> Result<Outcome, Refusal> {
    Ok(Outcome::Unprovable { steps, names })
}

/// A claim's book, built by hand, under one assumption.
fn built(name: &str, build: impl Fn(&mut Book) -> (Formula, Formula)) -> Case {
    let mut book = Book::new();
    let (assumption, goal) = build(&mut book);
    Case {
        book,
        assumed: vec![(name.to_string(), assumption)],
        goal,
    }
}

#[test]
fn sizes() {
    let case = Case::new(&[("x", "p0")], "p0");
    let most = Limits::MOST;
    assert_eq!(said(&case, most), case.claim().prove());
    for formulas in [0, raw::MOST_WORDS + 1, usize::MAX] {
        assert_eq!(
            said(&case, Limits { formulas, ..most }),
            Err(Refusal::Sizes)
        );
    }
    for terms in [raw::MOST_NODES + 1, usize::MAX] {
        assert_eq!(said(&case, Limits { terms, ..most }), Err(Refusal::Sizes));
    }
    for steps in [raw::MOST_STEPS + 1, usize::MAX] {
        let limits = Limits { steps, ..most };
        assert_eq!(said(&case, limits), Err(Refusal::Sizes));
        let status = Prover::with_limits(limits).status(&case.book, case.goal);
        assert_eq!(status, Err(Refusal::Sizes));
    }
}

/// A book just fills what is lent to it, or has a word more.
#[test]
fn sizes_of_a_book() {
    let case = Case::new(&[("x", "p0")], "(& p0 p0)");
    let lent = |formulas| Limits {
        formulas,
        ..Limits::default()
    };
    assert_eq!(said(&case, lent(2)), case.claim().prove());
    assert_eq!(said(&case, lent(1)), Err(Refusal::Sizes));
}

#[test]
fn bad_formula() {
    for symbol in [Book::LAST_SYMBOL + 1, u16::MAX] {
        let mut book = Book::new();
        let goal = book.truth();
        let leaves: [fn(&mut Book, u16) -> Formula; 3] = [Book::atom, Book::for_all, Book::exists];
        for leaf in leaves {
            assert_eq!(leaf(&mut book, symbol).index(), 1);
        }
        let place = 1;
        assert_eq!(
            Claim::new(&book, goal).prove(),
            Err(Refusal::BadFormula { place })
        );
        assert_eq!(
            Prover::new().status(&book, goal),
            Err(Refusal::BadFormula { place })
        );
    }
    let last = Case::new(&[("x", "p16383")], "p16383");
    assert!(matches!(last.claim().prove(), Ok(Outcome::Proved(_))));
}

#[test]
fn bad_assumption() {
    let mut book = Book::new();
    let (goal, foreign) = (book.truth(), Book::new().truth());
    let second = Claim::new(&book, goal)
        .assume("x", goal)
        .assume("y", foreign);
    assert_eq!(second.prove(), Err(Refusal::BadAssumption { place: 1 }));

    let mut many = Claim::new(&book, goal);
    for at in 0..raw::MOST_ASSUMPTIONS {
        many = many.assume(format!("x{at}"), goal);
    }
    assert!(matches!(many.prove(), Ok(Outcome::Proved(_))));
    let too_many = many.assume("y", foreign);
    assert_eq!(too_many.prove(), Err(Refusal::BadAssumption { place: 64 }));
}

#[test]
fn bad_names() {
    let mut book = Book::new();
    let goal = book.truth();
    let named = |name: &[u8]| {
        Claim::new(&book, goal)
            .assume("x", goal)
            .assume(name, goal)
            .prove()
    };
    for name in [&b"A"[..], b"_", b"9z", &[b'a'; 32]] {
        assert!(matches!(named(name), Ok(Outcome::Proved(_))));
    }
    for name in [
        &b""[..],
        b"x",
        b"a b",
        b"\0",
        b"a-",
        "é".as_bytes(),
        &[b'a'; 33],
        &[b'a'; 255],
    ] {
        assert_eq!(named(name), Err(Refusal::BadNames { place: 1 }), "{name:?}");
    }
}

#[test]
fn bad_goal() {
    let mut book = Book::new();
    book.truth();
    let foreign = Book::new().truth();
    assert_eq!(Claim::new(&book, foreign).prove(), Err(Refusal::BadGoal));
    assert_eq!(Prover::new().status(&book, foreign), Err(Refusal::BadGoal));
    let unused = Book::new();
    assert_eq!(Claim::new(&unused, foreign).prove(), Err(Refusal::BadGoal));
}

#[test]
fn steps() {
    let million = |more: Assumed| {
        let mut case = Case::new(more, "F");
        case.goal = tree(&mut case.book, "|", 166_667, case.goal);
        case.claim().prove()
    };
    assert_eq!(million(&[("x", "T")]), unprovable(1_000_000, 0));
    assert_eq!(
        million(&[("x", "T"), ("y", "T")]),
        Err(Refusal::Steps { steps: 1_000_000 })
    );
    let case = Case::new(&[], "(> p0 p0)");
    let none = Limits {
        steps: 0,
        ..Limits::default()
    };
    assert_eq!(said(&case, none), Err(Refusal::Steps { steps: 0 }));
}

#[test]
fn names() {
    let tried = |count| {
        let mut case = Case::new(&[], "(> p0 p1)");
        case.goal = tree(&mut case.book, "|", count, case.goal);
        case.claim().prove()
    };
    assert_eq!(tried(4096), unprovable(32_765, 4096));
    assert_eq!(tried(4097), Err(Refusal::Names { steps: 32_769 }));
}

#[test]
fn formulas() {
    let case = Case::new(&[("x", "(> (& p0 p1) p2)")], "p2");
    let room = |more| Limits {
        formulas: case.book.words().len() + more,
        ..Limits::default()
    };
    assert_eq!(said(&case, room(2)), unprovable(5, 2));
    assert_eq!(said(&case, room(1)), Err(Refusal::Formulas { steps: 2 }));
}

#[test]
fn terms() {
    let case = Case::new(&[("x", "p0")], "p0");
    let room = |terms| Limits {
        terms,
        ..Limits::default()
    };
    assert_eq!(said(&case, room(1)), case.claim().prove());
    assert_eq!(said(&case, room(0)), Err(Refusal::Terms { steps: 0 }));
    let tried = Case::new(&[], "(| (> (> p0 p1) p2) T)");
    assert!(matches!(said(&tried, room(9)), Ok(Outcome::Proved(_))));
    // inside a try it is no failure
    assert_eq!(said(&tried, room(0)), Err(Refusal::Terms { steps: 4 }));
}

#[test]
fn contexts() {
    let wide = |count| {
        let build = |book: &mut Book| {
            let letter = book.atom(0);
            (tree(book, "&", count, letter), book.atom(1))
        };
        built("x", build).claim().prove()
    };
    assert_eq!(wide(256), unprovable(514, 0));
    assert_eq!(wide(257), Err(Refusal::Contexts { steps: 512 }));
}

#[test]
fn levels() {
    let deep = |count| {
        let mut book = Book::new();
        let letter = book.atom(0);
        let goal = book.rule(&vec![letter; count], letter);
        Claim::new(&book, goal).prove()
    };
    let derivation = deep(63)
        .expect("an answer")
        .derivation()
        .expect("a derivation");
    assert_eq!(
        (derivation.steps(), derivation.text().map(|text| text.len())),
        (129, Ok(492))
    );
    assert_eq!(deep(64), Err(Refusal::Levels { steps: 64 }));
}

#[test]
fn no_room_for_a_text() {
    let case = Case::new(&[("x", "(| p0 p1)")], "(| p1 p0)");
    let text = "(case x a (inr a) b (inl b))";
    let room = |text| {
        let limits = Limits {
            text,
            ..Limits::default()
        };
        let derivation = said(&case, limits).expect("an answer").derivation();
        derivation.expect("a derivation").text()
    };
    assert_eq!(room(text.len()).as_deref(), Ok(text));
    assert_eq!(room(usize::MAX).as_deref(), Ok(text));
    assert_eq!(room(text.len() - 1), Err(Refusal::NoRoom));
    assert_eq!(room(0), Err(Refusal::NoRoom));
}

/// 1,023 applications, one in the other, make a path of 1,024 nodes.
#[test]
fn no_room_for_a_path() {
    let applied = |count| {
        let build = |book: &mut Book| {
            let (truth, letter) = (book.truth(), book.atom(0));
            (book.rule(&vec![truth; count], letter), letter)
        };
        let derivation = built("x", build)
            .claim()
            .prove()
            .expect("an answer")
            .derivation();
        derivation.expect("a derivation").text()
    };
    let text = "(app ".repeat(1023) + "x" + &" ())".repeat(1023);
    assert_eq!(applied(1023), Ok(text));
    assert_eq!(applied(1024), Err(Refusal::NoRoom));
}

#[test]
fn bad_term() {
    let words = [raw::word(raw::ATOM, 0, 0)];
    let nodes = [raw::IDENT, 0, 0, 0, 0, 0, raw::PROJECT_FST, 1, 0, 0, 0, 0];
    let mut text = [0; 80];
    let mut told = |nodes: &[u16], root| {
        let written = raw::text(
            &words,
            1,
            1,
            b"\x01x",
            nodes,
            nodes.len() / 6,
            root,
            &mut text,
        );
        (written.number, written.place, written.size)
    };
    assert_eq!(told(&nodes[..6], 0), (0, 0, 1));
    assert_eq!(told(&nodes, 0), (raw::BAD_TERM, 1, 0));
    assert_eq!(told(&nodes[..6], 1), (raw::BAD_TERM, 1, 0));
}

#[test]
fn bad_file() {
    let number = Refusal::BadFile.number();
    let refused = format!("refused {number}\n").into_bytes();
    let mut file = Case::new(&[], "T").claim().to_house_file();
    assert_ne!(quaysaffron::output(&file), refused);
    file.push(0);
    assert_eq!(quaysaffron::output(&file), refused);
    assert_eq!(quaysaffron::output(&[]), refused);
    assert_eq!(number, 14);
}

#[test]
fn the_first_row_is_told() {
    let mut book = Book::new();
    let foreign = Book::new().truth();
    let claim = Claim::new(&book, foreign);
    assert_eq!(claim.prove(), Err(Refusal::BadGoal));
    let claim = claim.assume("", formula(&mut Book::new(), "T"));
    assert_eq!(claim.prove(), Err(Refusal::BadAssumption { place: 0 }));
    let truth = book.truth();
    let claim = Claim::new(&book, foreign).assume("", truth);
    assert_eq!(claim.prove(), Err(Refusal::BadNames { place: 0 }));
    book.atom(u16::MAX);
    let claim = Claim::new(&book, foreign).assume("", foreign);
    assert_eq!(claim.prove(), Err(Refusal::BadFormula { place: 1 }));
    let steps = raw::MOST_STEPS + 1;
    let mut prover = Prover::with_limits(Limits {
        steps,
        ..Limits::default()
    });
    assert_eq!(prover.prove(&claim), Err(Refusal::Sizes));
}

/// Number, place and steps of every row, and that its words begin with its name.
#[test]
fn rows() {
    let (place, steps) = (7, 9);
    let rows = [
        (Refusal::Sizes, None, None),
        (Refusal::BadFormula { place }, Some(7), None),
        (Refusal::BadAssumption { place }, Some(7), None),
        (Refusal::BadNames { place }, Some(7), None),
        (Refusal::BadGoal, None, None),
        (Refusal::Steps { steps }, None, Some(9)),
        (Refusal::Names { steps }, None, Some(9)),
        (Refusal::Formulas { steps }, None, Some(9)),
        (Refusal::Terms { steps }, None, Some(9)),
        (Refusal::Contexts { steps }, None, Some(9)),
        (Refusal::Levels { steps }, None, Some(9)),
        (Refusal::NoRoom, None, None),
        (Refusal::BadTerm { place }, Some(7), None),
        (Refusal::BadFile, None, None),
    ];
    for (at, (row, place, steps)) in rows.into_iter().enumerate() {
        assert_eq!(
            (row.number(), row.place(), row.steps()),
            (at + 1, place, steps)
        );
        assert_eq!(row.is_shortage(), (6..=11).contains(&row.number()));
        let (words, debug) = (row.to_string(), format!("{row:?}"));
        let name = debug.split(' ').next().expect("a name");
        assert!(words.starts_with(&format!("{name}: ")), "{words}");
        assert_eq!(words.ends_with(", at place 7"), place.is_some(), "{words}");
        assert_eq!(
            words.ends_with(", after 9 steps"),
            steps.is_some(),
            "{words}"
        );
    }
}
