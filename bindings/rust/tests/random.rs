//! Random books: what a prover says of a claim is what is printed for the claim's house file, and what it said before changes nothing;
//! and words are refused where row 2, worked out once more, refuses them.
mod common;

use common::{lines, Random, LEAVES};
use quaysaffron::{output, raw, Book, Claim, Limits, Outcome, Prover, Refusal, Status};

const BOOKS: usize = 10_000;

/// Kind, left and right of a word.
fn fields(word: u32) -> (usize, usize, usize) {
    let word = word as usize;
    let below = |shift: usize| word % (1 << shift);
    let left = below(raw::RIGHT_SHIFT) >> raw::LEFT_SHIFT;
    (below(raw::LEFT_SHIFT), left, word >> raw::RIGHT_SHIFT)
}

/// Whether a word has the layout that its kind asks for at this index.
fn laid_out(word: u32, at: usize) -> bool {
    let (kind, left, right) = fields(word);
    match kind {
        raw::TRUE | raw::FALSE => left == 0 && right == 0,
        raw::AND | raw::OR | raw::IMPL => left < at && right < at,
        _ => LEAVES.contains(&kind) && right == 0,
    }
}

/// Whether two words are leaves of one symbol and of two kinds.
fn clash(one: u32, other: u32) -> bool {
    let [(kind, symbol, _), (other_kind, other_symbol, _)] = [one, other].map(fields);
    let leaves = LEAVES.contains(&kind) && LEAVES.contains(&other_kind);
    leaves && symbol == other_symbol && kind != other_kind
}

/// Row 2 of the refusals, worked out word by word and pair by pair.
fn bad_word(words: &[u32]) -> Option<usize> {
    let lawful = |at: usize| {
        let word = words[at];
        laid_out(word, at) && !words[..at].iter().any(|lower| clash(*lower, word))
    };
    (0..words.len()).find(|at| !lawful(*at))
}

/// A word with few symbols, each mostly of one kind, and parts that stand below it; now and then one that breaks the layout.
fn word(random: &mut Random, at: usize) -> u32 {
    let symbol = random.below(6);
    let kind = LEAVES[(symbol + usize::from(random.one_in(20))) % LEAVES.len()];
    let [left, right] = [0; 2].map(|_| random.below(at.max(1)));
    match random.below(12) {
        0 => raw::word([raw::TRUE, raw::FALSE][random.below(2)], 0, 0),
        1 if random.one_in(8) => raw::word(kind, symbol, 1),
        2..=7 if at > 0 || random.one_in(8) => raw::word(raw::AND + random.below(3), left, right),
        _ => raw::word(kind, symbol, 0),
    }
}

/// The test of words alone, on words that nothing need use.
#[test]
fn words_are_tested_as_each_pair_says() {
    let mut random = Random(7);
    let [mut passed, mut broken, mut mixed] = [0; 3];
    for _ in 0..BOOKS {
        let count = random.below(30);
        let words: Vec<u32> = (0..count).map(|at| word(&mut random, at)).collect();
        let tested = raw::test_words(&words, count);
        let place = bad_word(&words);
        let number = place.map_or(0, |_| raw::BAD_FORMULA);
        assert_eq!((tested.number, tested.place), (number, place.unwrap_or(0)));
        match place {
            None => passed += 1,
            Some(at) if laid_out(words[at], at) => mixed += 1,
            Some(_) => broken += 1,
        }
    }
    let met = [passed, broken, mixed];
    assert!(met.iter().all(|times| *times > BOOKS / 20), "{met:?}");
}

#[test]
fn a_claim_is_answered_as_its_file_is() {
    let mut random = Random(1);
    let mut prover = Prover::new();
    let [mut proved, mut unprovable, mut refused] = [0; 3];
    for _ in 0..BOOKS {
        let case = random.case();
        let claim = case.claim();
        let said = prover.prove(&claim);
        assert_eq!(lines(&said).as_bytes(), output(&claim.to_house_file()));
        let faulty = match said {
            Err(Refusal::BadFormula { place }) => Some(place),
            _ => None,
        };
        assert_eq!(faulty, bad_word(case.book.words()));
        match said {
            Ok(Outcome::Proved(_)) => proved += 1,
            Ok(Outcome::Unprovable { .. }) => unprovable += 1,
            Err(_) => refused += 1,
        }
    }
    let met = [proved, unprovable, refused];
    assert!(met.iter().all(|times| *times > BOOKS / 20), "{met:?}");
}

/// One prover for all books, with little room, and for each book a new one.
#[test]
fn what_a_prover_said_changes_no_answer() {
    let mut random = Random(2);
    let limits = Limits {
        formulas: 24,
        terms: 20,
        steps: 60,
        text: 40,
    };
    let mut kept = Prover::with_limits(limits);
    let mut met = [0; 16];
    for _ in 0..BOOKS / 5 {
        let case = random.case();
        let said = kept.prove(&case.claim());
        assert_eq!(said, Prover::with_limits(limits).prove(&case.claim()));
        let status = kept.status(&case.book, case.goal);
        assert_eq!(
            status,
            Prover::with_limits(limits).status(&case.book, case.goal)
        );
        let number = said.as_ref().map_or_else(Refusal::number, |_| 0);
        met[number] += 1;
    }
    // sizes, words, assumptions, names, goal, steps, formulas, terms
    assert!(
        [0, 1, 2, 3, 4, 5, 6, 8, 9]
            .iter()
            .all(|number| met[*number] > 0),
        "{met:?}"
    );
}

/// More room changes neither the derivation nor the counts of an answer.
#[test]
fn more_room_changes_no_answer() {
    let mut random = Random(4);
    let mut most = Prover::with_limits(Limits::MOST);
    let mut prover = Prover::new();
    for _ in 0..BOOKS / 10 {
        let case = random.case();
        let said = prover.prove(&case.claim());
        assert_eq!(most.prove(&case.claim()), said);
    }
}

/// Whether a quantified formula or a free symbol occurs in the formula at this index.
fn open(words: &[u32], index: usize) -> bool {
    let (kind, left, right) = fields(words[index]);
    match kind {
        raw::FOR_ALL | raw::EXISTS => true,
        raw::ATOM => left >= Book::FIRST_FREE_SYMBOL.into(),
        raw::AND | raw::OR | raw::IMPL => open(words, left) || open(words, right),
        _ => false,
    }
}

/// A status is what claims of the goal and, where that is open and has no proof, of its negation say; so is a shortage, with its steps.
#[test]
fn a_status_is_what_claims_say() {
    let mut random = Random(5);
    let mut met = [0; 5];
    for _ in 0..BOOKS {
        let mut case = random.case();
        let mut prover = Prover::with_limits(Limits {
            terms: random.below(24),
            steps: 10 + random.below(60),
            ..Limits::default()
        });
        let status = prover.status(&case.book, case.goal);
        let mut proved = |book: &Book, goal| {
            let said = prover.prove(&Claim::new(book, goal));
            said.map(|outcome| outcome.derivation().is_some())
        };
        let first = proved(&case.book, case.goal);
        let asks = first == Ok(false) && open(case.book.words(), case.goal.index());
        let negation = case.book.not(case.goal);
        let (met_as, said) = match first {
            Ok(true) => (0, Ok(Status::Solvable)),
            Ok(false) if !asks => (1, Ok(Status::Unsolvable)),
            Err(refusal) => (2, Err(refusal)),
            Ok(false) => match proved(&case.book, negation) {
                Ok(true) => (1, Ok(Status::Unsolvable)),
                Ok(false) => (3, Ok(Status::Unknown)),
                Err(refusal) => (4, Err(refusal)),
            },
        };
        assert_eq!(status, said);
        met[met_as] += 1;
    }
    assert!(met.iter().all(|times| *times > BOOKS / 100), "{met:?}");
}
