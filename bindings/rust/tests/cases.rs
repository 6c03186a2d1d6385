//! The written cases of document 01, "Pennies on both sides", through claims and provers. The counts that it does not state are those of
//! crates/test_cases/stdout.
mod common;

use common::{formula, Assumed, Case, TIPS, TIPS_GOAL};
use quaysaffron::{raw, Book, Limits, Outcome, Prover, Refusal, Status};

const WHOLE: &str = "(> (> (| p0 (> p0 F)) F) F)";
const WHOLE_TEXT: &str = "(fn a (abort (app (as (fn c (app a (inr c))) (> (> p0 F) F)) \
    (fn f (abort (app (as (fn b (app a (inl b))) (> p0 F)) f))))))";
const TIPS_TEXT: &str = "(case someone_closed a (inl (app (app rule_ana a) left_over)) \
    b (case b c (inr (inl (app (app rule_ben c) left_over))) d (inr (inr (app (app rule_cleo d) left_over)))))";
const BOTH_WAYS: &str = "(& p8192 (> p8192 F))";
const EITHER: Assumed = &[("x", "(| p0 p1)")];
const FIRED: Assumed = &[("x", "p0"), ("y", "(> p0 p1)"), ("z", "(> p0 p2)")];

/// Assumptions, goal, text, and the root, steps, names, formulas and terms.
const PROVED: &[(Assumed, &str, &str, [usize; 5])] = &[
    (&[], "T", "()", [0, 1, 0, 1, 1]),
    (&[("x", "F")], "T", "()", [1, 1, 0, 2, 2]),
    (&[], "(> p0 p0)", "(fn a a)", [1, 5, 1, 2, 2]),
    (&[("a", "p0")], "(> p0 p0)", "(fn b b)", [2, 6, 2, 2, 3]),
    (&[("x", "p0"), ("y", "p0")], "p0", "y", [1, 5, 0, 1, 2]),
    (&[("x", "F")], "p0", "(abort x)", [1, 2, 0, 2, 2]),
    (
        EITHER,
        "(| p1 p0)",
        "(case x a (inr a) b (inl b))",
        [5, 17, 2, 4, 6],
    ),
    (&[("x", "U5")], "U5", "x", [0, 4, 0, 1, 1]),
    (FIRED, "p2", "(app z x)", [3, 10, 0, 5, 5]),
    (&[], WHOLE, WHOLE_TEXT, [22, 15, 6, 9, 23]),
    (TIPS, TIPS_GOAL, TIPS_TEXT, [21, 60, 4, 17, 22]),
];

#[test]
fn proved() {
    for (assumed, goal, text, counts) in PROVED {
        let case = Case::new(assumed, goal);
        let said = case.claim().prove().expect("an answer");
        let found = said.derivation().expect("a derivation");
        assert_eq!(found.text().as_deref(), Ok(*text));
        let told = [
            found.root(),
            found.steps(),
            found.names(),
            found.formulas(),
            found.terms(),
        ];
        assert_eq!(told, *counts, "{goal}");
        assert_eq!(found.words().len(), found.formulas());
        assert_eq!(found.numbers().len(), raw::NODE_NUMBERS * found.terms());
        let assumed = case
            .assumed
            .iter()
            .map(|(_, formula)| formula.index() as u16);
        assert_eq!(found.assumed(), assumed.collect::<Vec<u16>>());
        assert_eq!(found.goal(), case.goal.index());
    }
}

#[test]
fn unprovable() {
    let cases: &[(Assumed, &str, usize, usize)] = &[
        (&[], "F", 3, 0),
        (&[], "(| p0 (> p0 F))", 11, 1),
        (&[], "(> (> (> p0 p1) p0) p0)", 11, 4),
        (&[("x", "U5")], "E6", 4, 0),
        (&[("x", "U5")], "p6", 4, 0),
    ];
    for &(assumed, goal, steps, names) in cases {
        let said = Case::new(assumed, goal).claim().prove();
        assert_eq!(said, Ok(Outcome::Unprovable { steps, names }), "{goal}");
    }
}

/// The case of U5 and E5 is refused where both words stand: a symbol has one kind (document 02, request 6).
#[test]
fn mixed_kinds() {
    let cases: &[(Assumed, &str, usize)] = &[
        (&[("x", "U5")], "E5", 1),
        (&[("x", "E5")], "U5", 1),
        (&[("x", "U5")], "p5", 1),
        (&[("x", "p5")], "U5", 1),
        (&[("x", "p16383")], "E16383", 1),
        (&[("x", "(> p0 T)"), ("y", "U1")], "(& U1 (| p1 U0))", 4),
    ];
    for &(assumed, goal, place) in cases {
        let case = Case::new(assumed, goal);
        let refused = Refusal::BadFormula { place };
        assert_eq!(case.claim().prove(), Err(refused), "{goal}");
        let status = Prover::new().status(&case.book, case.goal);
        assert_eq!(status, Err(refused), "{goal}");
    }
}

/// The default limits, but so many steps.
fn steps(steps: usize) -> Limits {
    Limits {
        steps,
        ..Limits::default()
    }
}

/// The default limits, but so many nodes.
fn terms(terms: usize) -> Limits {
    Limits {
        terms,
        ..Limits::default()
    }
}

#[test]
fn both_sides_of_a_limit() {
    let identity = Case::new(&[], "(> p0 p0)");
    let either = Case::new(EITHER, "(| p1 p0)");
    let said = |case: &Case, limits| Prover::with_limits(limits).prove(&case.claim());
    assert_eq!(said(&identity, steps(5)), identity.claim().prove());
    assert_eq!(said(&identity, steps(4)), Err(Refusal::Steps { steps: 4 }));
    assert_eq!(said(&either, terms(6)), either.claim().prove());
    assert_eq!(said(&either, terms(5)), Err(Refusal::Terms { steps: 17 }));
}

#[test]
fn status() {
    let mut prover = Prover::new();
    let cases = [
        ("T", Status::Solvable),
        ("F", Status::Unsolvable),
        ("p0", Status::Unsolvable),
        ("p8191", Status::Unsolvable),
        ("p8192", Status::Unknown),
        ("p16383", Status::Unknown),
        ("U0", Status::Unknown),
        ("E0", Status::Unknown),
        (BOTH_WAYS, Status::Unsolvable),
    ];
    for (goal, status) in cases {
        let case = Case::new(&[], goal);
        assert_eq!(prover.status(&case.book, case.goal), Ok(status), "{goal}");
    }
    let mut book = Book::new();
    let [closed, free] = [1, 0].map(|less| book.atom(Book::FIRST_FREE_SYMBOL - less));
    assert_eq!(prover.status(&book, closed), Ok(Status::Unsolvable));
    assert_eq!(prover.status(&book, free), Ok(Status::Unknown));
}

fn status_under(limits: Limits, goal: &str) -> Result<Status, Refusal> {
    let case = Case::new(&[], goal);
    Prover::with_limits(limits).status(&case.book, case.goal)
}

/// A shortage of either search is told with its own steps: the first takes 4 of both ways and 3 of p8192, the second 8 and 5.
#[test]
fn status_at_a_step_limit() {
    let said = |goal, limit| status_under(steps(limit), goal);
    for steps in [0, 3, 4, 7] {
        assert_eq!(said(BOTH_WAYS, steps), Err(Refusal::Steps { steps }));
    }
    assert_eq!(said(BOTH_WAYS, 8), Ok(Status::Unsolvable));
    for steps in [2, 3, 4] {
        assert_eq!(said("p8192", steps), Err(Refusal::Steps { steps }));
    }
    assert_eq!(said("p8192", 5), Ok(Status::Unknown));
}

/// The second search needs room for two words more, the first for none.
#[test]
fn status_at_a_word_limit() {
    let said = |goal, more| {
        let formulas = Case::new(&[], goal).book.words().len() + more;
        let limits = Limits {
            formulas,
            ..Limits::default()
        };
        status_under(limits, goal)
    };
    for (goal, status) in [(BOTH_WAYS, Status::Unsolvable), ("p8192", Status::Unknown)] {
        for more in [0, 1] {
            assert_eq!(said(goal, more), Err(Refusal::Formulas { steps: 0 }));
        }
        assert_eq!(said(goal, 2), Ok(status));
    }
    assert_eq!(said("p0", 0), Ok(Status::Unsolvable));
}

/// Of these goals only the second search makes nodes.
#[test]
fn status_at_a_node_limit() {
    let said = |goal, nodes| status_under(terms(nodes), goal);
    for (nodes, steps) in [(0, 1), (2, 3), (3, 7), (5, 8)] {
        assert_eq!(said(BOTH_WAYS, nodes), Err(Refusal::Terms { steps }));
    }
    assert_eq!(said(BOTH_WAYS, 6), Ok(Status::Unsolvable));
    assert_eq!(said("p8192", 0), Err(Refusal::Terms { steps: 1 }));
    assert_eq!(said("p8192", 1), Ok(Status::Unknown));
}

#[test]
fn words_of_the_whole_case() {
    let mut book = Book::new();
    let goal = formula(&mut book, WHOLE);
    let imp = |left, right| raw::word(raw::IMPL, left, right);
    let or = raw::word(raw::OR, 0, 2);
    let words = [2, 1, imp(0, 1), or, imp(3, 1), imp(4, 1)];
    assert_eq!((book.words(), goal.index()), (&words[..], 5));
}

#[test]
fn names() {
    let spelled = [
        (0, "a"),
        (25, "z"),
        (26, "ba"),
        (51, "bz"),
        (52, "aca"),
        (78, "aada"),
    ];
    for (index, name) in spelled {
        assert_eq!(quaysaffron::name(index).as_deref(), Ok(name));
    }
    assert_eq!(quaysaffron::name(363), Ok("a".repeat(12) + "nz"));
    assert_eq!(quaysaffron::name(4095).map(|name| name.len()), Ok(158));
    for index in [4096, usize::MAX] {
        assert_eq!(quaysaffron::name(index), Err(Refusal::Names { steps: 0 }));
    }
}
