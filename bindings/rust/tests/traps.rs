//! What looks right and is not: handles of another book, limits and names beyond all measure, books that are too long.
mod common;

use common::{formula, lines, Case, TIPS, TIPS_GOAL};
use quaysaffron::{
    raw, Book, Claim, Derivation, Formula, Limits, Outcome, Prover, Refusal, Status,
};

fn proved(claim: &Claim) -> Derivation {
    claim
        .prove()
        .expect("an answer")
        .derivation()
        .expect("a derivation")
}

#[test]
fn equal_words_are_shared() {
    let mut book = Book::new();
    let text = "(> (& p0 U1) (| (& p0 U1) (> E2 F)))";
    let first = formula(&mut book, text);
    let words = book.words().to_vec();
    assert_eq!(formula(&mut book, text), first);
    assert_eq!(book.words(), words);
    assert_eq!(words.len(), 8);
    let (p0, u1) = (book.atom(0), book.for_all(1));
    assert_ne!(p0, u1);
    assert_ne!(book.and(p0, u1), book.and(u1, p0));
}

/// A book takes them as two leaves, and every call refuses the later one, whatever is built on it.
#[test]
fn a_symbol_under_two_kinds() {
    let kinds: [fn(&mut Book, u16) -> Formula; 3] = [Book::atom, Book::for_all, Book::exists];
    for (first, second) in [(0, 1), (1, 0), (0, 2), (2, 0), (1, 2), (2, 1)] {
        let mut book = Book::new();
        let symbol = Book::LAST_SYMBOL;
        let [one, other] = [first, second].map(|kind| kinds[kind](&mut book, symbol));
        assert_ne!(one, other);
        let refused = Refusal::BadFormula {
            place: other.index(),
        };
        let both = book.and(other, one);
        for goal in [one, other, both] {
            let claim = Claim::new(&book, goal).assume("x", goal);
            assert_eq!(claim.prove(), Err(refused));
            assert_eq!(Prover::new().status(&book, goal), Err(refused));
            assert_eq!(quaysaffron::output(&claim.to_house_file()), b"refused 2\n");
        }
    }
}

#[test]
fn folds() {
    let mut book = Book::new();
    let letters = [0, 1, 2].map(|symbol| book.atom(symbol));
    assert_eq!(book.all(&letters), formula(&mut book, "(& p0 (& p1 p2))"));
    assert_eq!(book.any(&letters), formula(&mut book, "(| p0 (| p1 p2))"));
    assert_eq!(
        book.rule(&letters[..2], letters[2]),
        formula(&mut book, "(> p0 (> p1 p2))")
    );
    assert_eq!(book.all(&letters[..1]), letters[0]);
    assert_eq!(book.any(&letters[..1]), letters[0]);
    assert_eq!(book.rule(&[], letters[0]), letters[0]);
    assert_eq!(book.all(&[]), book.truth());
    assert_eq!(book.any(&[]), book.falsity());
    assert_eq!(book.not(letters[0]), formula(&mut book, "(> p0 F)"));
}

/// The handle's index is one that this book has too.
#[test]
fn a_foreign_handle_is_no_formula() {
    let foreign = Book::new().truth();
    let joins: [fn(&mut Book, Formula, Formula) -> Formula; 3] =
        [Book::and, Book::or, Book::implies];
    for (join, at_left) in joins
        .into_iter()
        .flat_map(|join| [(join, true), (join, false)])
    {
        let mut book = Book::new();
        let truth = book.truth();
        assert_eq!((foreign.index(), foreign == truth), (truth.index(), false));
        let made = if at_left {
            join(&mut book, foreign, truth)
        } else {
            join(&mut book, truth, foreign)
        };
        let place = 1;
        assert_eq!(made.index(), place);
        assert_eq!(
            Claim::new(&book, truth).prove(),
            Err(Refusal::BadFormula { place })
        );
    }
}

/// The book of a handle is gone, and no later one is taken for it.
#[test]
fn a_later_book_does_not_take_up_handles() {
    let handle = Book::new().truth();
    for _ in 0..100 {
        let mut book = Book::new();
        book.truth();
        assert_eq!(Claim::new(&book, handle).prove(), Err(Refusal::BadGoal));
    }
}

#[test]
fn a_book_that_is_too_long() {
    let mut book = Book::new();
    let letters: Vec<Formula> = (0..=Book::LAST_SYMBOL)
        .map(|symbol| book.atom(symbol))
        .collect();
    assert_eq!(book.words().len(), raw::MOST_WORDS);
    let last = letters[raw::MOST_WORDS - 1];
    let mut prover = Prover::with_limits(Limits::MOST);
    let said = prover.prove(&Claim::new(&book, last).assume("x", last));
    assert_eq!(
        said.map(|said| lines(&Ok(said))),
        Ok("proved\nsteps 4\nnames 0\nformulas 16384\nterms 1\nx\n".to_string())
    );
    assert_eq!(
        Prover::new().prove(&Claim::new(&book, last)),
        Err(Refusal::Sizes)
    );

    let mut surplus = book.truth();
    for _ in 0..3 {
        assert_eq!(prover.prove(&Claim::new(&book, last)), Err(Refusal::Sizes));
        assert_eq!(
            prover.prove(&Claim::new(&book, surplus)),
            Err(Refusal::Sizes)
        );
        assert_eq!(prover.status(&book, surplus), Err(Refusal::Sizes));
        surplus = book.and(surplus, last);
        surplus = book.implies(last, surplus);
    }
    assert_eq!(book.words().len(), raw::MOST_WORDS + 1);
    assert_eq!(book.atom(7), letters[7]);
}

/// A length of 257 would be 1 in one byte, and the name x.
#[test]
fn a_long_name_never_wraps() {
    let mut book = Book::new();
    let goal = book.truth();
    for length in [256, 257, 288, 65_536 + 1, 1 << 20] {
        let claim = Claim::new(&book, goal)
            .assume("w", goal)
            .assume("x".repeat(length), goal);
        let claim = claim.assume("y", goal);
        assert_eq!(claim.prove(), Err(Refusal::BadNames { place: 1 }));
        assert_eq!(quaysaffron::output(&claim.to_house_file()), b"refused 4\n");
    }
}

/// No such amount can be had, so a prover that asked for it would stop the program.
#[test]
fn absurd_limits_are_refused() {
    let case = Case::new(TIPS, TIPS_GOAL);
    for much in [1 << 60, usize::MAX] {
        let most = Limits::MOST;
        for limits in [
            Limits {
                formulas: much,
                ..most
            },
            Limits {
                terms: much,
                ..most
            },
            Limits {
                steps: much,
                ..most
            },
            Limits {
                formulas: much,
                terms: much,
                steps: much,
                text: much,
            },
        ] {
            let mut prover = Prover::with_limits(limits);
            assert_eq!(prover.limits(), limits);
            assert_eq!(prover.prove(&case.claim()), Err(Refusal::Sizes));
            assert_eq!(prover.status(&case.book, case.goal), Err(Refusal::Sizes));
        }
        let mut prover = Prover::with_limits(Limits { text: much, ..most });
        assert_eq!(
            lines(&prover.prove(&case.claim())),
            lines(&case.claim().prove())
        );
    }
}

#[test]
fn no_limits_at_all() {
    let none = Limits {
        formulas: 0,
        terms: 0,
        steps: 0,
        text: 0,
    };
    let mut prover = Prover::with_limits(none);
    let case = Case::new(&[], "T");
    assert_eq!(prover.prove(&case.claim()), Err(Refusal::Sizes));
    let empty = Book::new();
    assert_eq!(
        prover.prove(&Claim::new(&empty, case.goal)),
        Err(Refusal::BadGoal)
    );
}

#[test]
fn a_derivation_keeps_all_that_it_needs() {
    let case = Case::new(TIPS, TIPS_GOAL);
    let derivation = proved(&case.claim());
    let text = derivation.text();
    assert_eq!(derivation.words(), case.book.words());
    assert_eq!(&derivation.name_text()[..10], b"\x09left_over");
    drop(case);
    let copy = derivation.clone();
    assert_eq!(copy, derivation);
    assert_eq!(copy.text(), text);
    assert_ne!(derivation, proved(&Case::new(&[], "T").claim()));
}

/// The same words and nodes under other names, or of a longer book, are another derivation; another text limit is none.
#[test]
fn derivations_differ_by_what_is_filed() {
    let named = |name| proved(&Case::new(&[(name, "p0")], "p0").claim());
    assert_eq!(named("x"), named("x"));
    assert_ne!(named("x"), named("y"));
    let mut longer = Case::new(&[("x", "p0")], "p0");
    longer.book.truth();
    assert_ne!(proved(&longer.claim()), named("x"));
    let limits = Limits {
        text: 0,
        ..Limits::default()
    };
    let case = Case::new(&[("x", "p0")], "p0");
    let said = Prover::with_limits(limits).prove(&case.claim());
    assert_eq!(said, Ok(Outcome::Proved(named("x"))));
}

/// One book, one text, other claims.
#[test]
fn derivations_differ_by_their_claims() {
    let mut book = Book::new();
    let [one, other] = [0, 1].map(|symbol| book.atom(symbol));
    let [of_one, of_other] =
        [one, other].map(|leaf| proved(&Claim::new(&book, leaf).assume("x", leaf)));
    assert_eq!(of_one.text(), of_other.text());
    assert_ne!(of_one, of_other);
    assert_eq!((of_other.goal(), of_other.assumed()), (1, &[1][..]));
}

/// A text longer than the program's limit, and shorter than the most.
#[test]
fn a_long_text() {
    let mut book = Book::new();
    let letter = book.atom(0);
    let mut goal = book.implies(letter, letter);
    for _ in 0..10 {
        goal = book.and(goal, goal);
    }
    let claim = Claim::new(&book, goal);
    assert_eq!(proved(&claim).text(), Err(Refusal::NoRoom));
    let said = Prover::with_limits(Limits::MOST).prove(&claim);
    let derivation = said.ok().and_then(Outcome::derivation).expect("it follows");
    let text = derivation.text().expect("room");
    // each name stands twice
    let functions: usize = (0..1 << 10)
        .map(|name| "(fn  )".len() + 2 * (name / 26 + 1))
        .sum();
    assert_eq!(text.len(), functions + ((1 << 10) - 1) * "(pair  )".len());
}

#[test]
fn a_text_in_a_buffer() {
    let derivation = proved(&Case::new(&[("x", "p0")], "(& p0 p0)").claim());
    let mut buffer = [1; 12];
    assert_eq!(derivation.write(&mut buffer), Ok(&b"(pair x x)"[..]));
    assert_eq!(&buffer, b"(pair x x)\0\0");
    assert_eq!(derivation.write(&mut buffer[..9]), Err(Refusal::NoRoom));
    assert_eq!(&buffer, b"\0\0\0\0\0\0\0\0\0)\0\0");
}

#[test]
fn what_may_go_to_other_threads() {
    fn shared<T: Send + Sync + 'static>() {}
    shared::<Book>();
    shared::<Formula>();
    shared::<Claim<'static>>();
    shared::<Prover>();
    shared::<Derivation>();
    shared::<Outcome>();
    shared::<Status>();
    shared::<Refusal>();
    shared::<Limits>();
}
