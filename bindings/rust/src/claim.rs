//! A goal under named assumptions, and its house file.
use crate::{Book, Formula, Outcome, Prover, Refusal};

/// A goal, the assumptions that it is claimed under, and the book that they are of.
///
/// Goal, assumptions and names are tested by the prover, when the claim is: a name has 1 to 32 bytes from A-Z, a-z, 0-9 and _, and none
/// stands twice; there are at most 64. Adding an assumption allocates.
///
/// ```
/// use quaysaffron::{Book, Claim, Outcome, Refusal};
///
/// let mut book = Book::new();
/// let (rain, wet) = (book.atom(0), book.atom(1));
/// let rule = book.implies(rain, wet);
///
/// let claim = Claim::new(&book, wet).assume("rule", rule).assume("it_rains", rain);
/// let Outcome::Proved(derivation) = claim.prove()? else { panic!("it follows") };
/// assert_eq!(derivation.text()?, "(app rule it_rains)");
///
/// let unnamed = claim.assume("no name", rain);
/// assert_eq!(unnamed.prove(), Err(Refusal::BadNames { place: 2 }));
/// # Ok::<(), Refusal>(())
/// ```
#[derive(Clone, Debug)]
#[must_use]
pub struct Claim<'b> {
    pub(crate) book: &'b Book,
    pub(crate) goal: u16,
    pub(crate) assumed: Vec<u16>,
    /// Each name behind a byte with its length.
    pub(crate) names: Vec<u8>,
}

impl<'b> Claim<'b> {
    /// The goal, under no assumption yet.
    pub fn new(book: &'b Book, goal: Formula) -> Claim<'b> {
        Claim {
            book,
            goal: book.index_of(goal),
            assumed: Vec::new(),
            names: Vec::new(),
        }
    }

    /// Assumes a formula under a name. Of a name over 255 bytes the first 255 are kept: a length byte holds no more, and the prover
    /// refuses every name over 32 bytes.
    pub fn assume(mut self, name: impl AsRef<[u8]>, formula: Formula) -> Claim<'b> {
        let name = name.as_ref();
        let length = u8::try_from(name.len()).unwrap_or(u8::MAX);
        self.assumed.push(self.book.index_of(formula));
        self.names.push(length);
        self.names.extend(&name[..length.into()]);
        self
    }

    /// What a [`Prover`] with the program's limits says of the claim; to ask of many claims, keep a prover. `Ok` is an answer and no proof:
    /// it may be [`Unprovable`](Outcome::Unprovable).
    pub fn prove(&self) -> Result<Outcome, Refusal> {
        Prover::new().prove(self)
    }

    /// The bytes of the claim's house file, to be filed or given to `./quay`; [`output`](crate::output) says what that prints.
    ///
    /// A file holds at most 4,096 words, 64 assumptions and 32,768 bytes; what is made of a claim with more is refused with
    /// [`BadFile`](Refusal::BadFile), whatever the prover says of the claim.
    ///
    /// ```
    /// let mut book = quaysaffron::Book::new();
    /// let truth = book.truth();
    /// let file = quaysaffron::Claim::new(&book, truth).to_house_file();
    /// assert_eq!(quaysaffron::output(&file), b"proved\nsteps 1\nnames 0\nformulas 1\nterms 1\n()\n");
    /// ```
    pub fn to_house_file(&self) -> Vec<u8> {
        let words = self.book.words();
        let mut file = count(words.len()).to_vec();
        file.extend(words.iter().flat_map(|word| word.to_le_bytes()));
        file.extend(count(self.assumed.len()));
        let mut names = &self.names[..];
        for index in &self.assumed {
            let (name, rest) = names.split_at(1 + usize::from(names[0]));
            file.extend(index.to_le_bytes());
            file.extend(name);
            names = rest;
        }
        file.extend(count(1));
        file.extend(self.goal.to_le_bytes());
        file
    }
}

/// A count in a house file. One that two bytes do not hold is beyond every file, and so is the most that they hold.
fn count(number: usize) -> [u8; 2] {
    u16::try_from(number).unwrap_or(u16::MAX).to_le_bytes()
}
