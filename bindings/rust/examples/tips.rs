//! The tip rule of README.md. If a penny is left over, the one who closed gets it; one of the three closed, but nobody knows who. So one
//! of them gets it, whoever closed; that Ana gets it does not follow.
use quaysaffron::{Book, Claim, Outcome, Refusal};

fn settle(claim: &Claim) -> Result<(), Refusal> {
    match claim.prove()? {
        Outcome::Proved(derivation) => println!("proved\n{}", derivation.text()?),
        Outcome::Unprovable { .. } => println!("unprovable"),
    }
    Ok(())
}

fn main() -> Result<(), Refusal> {
    let mut book = Book::new();
    // the prover knows symbols; what each one means is said here
    let odd_penny = book.atom(0);
    let [ana_closed, ben_closed, cleo_closed] = [1, 2, 3].map(|symbol| book.atom(symbol));
    let [ana_gets_it, ben_gets_it, cleo_gets_it] = [4, 5, 6].map(|symbol| book.atom(symbol));

    let someone_closed = book.any(&[ana_closed, ben_closed, cleo_closed]);
    let someone_gets_it = book.any(&[ana_gets_it, ben_gets_it, cleo_gets_it]);
    let rule_ana = book.rule(&[ana_closed, odd_penny], ana_gets_it);
    let rule_ben = book.rule(&[ben_closed, odd_penny], ben_gets_it);
    let rule_cleo = book.rule(&[cleo_closed, odd_penny], cleo_gets_it);

    let that_evening = |goal| {
        Claim::new(&book, goal)
            .assume("left_over", odd_penny)
            .assume("someone_closed", someone_closed)
            .assume("rule_ana", rule_ana)
            .assume("rule_ben", rule_ben)
            .assume("rule_cleo", rule_cleo)
    };
    settle(&that_evening(someone_gets_it))?;
    settle(&that_evening(ana_gets_it))
}
