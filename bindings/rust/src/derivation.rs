//! A found derivation.
use crate::{raw, Claim, Refusal};

/// A derivation of a claim's goal from its assumptions: all that was found, to be kept or filed.
///
/// It owns the words of the book with those that the search made, which of them are the goal and the assumptions, the assumptions'
/// names and the nodes of the term, and needs neither the book nor the prover any longer. Two are equal when all of that is, and root,
/// steps and names; the text limit is no part of it. docs/AUDITORS.md tells how the text is read. It is not `Display`, since a text may
/// have no room.
#[derive(Clone, Debug)]
pub struct Derivation {
    words: Vec<u32>,
    numbers: Vec<u16>,
    goal: u16,
    assumed: Vec<u16>,
    names: Vec<u8>,
    answer: raw::Answer,
    room: usize,
}

impl Derivation {
    /// Keeps what the search for a claim left in the lent slices.
    pub(crate) fn kept(
        claim: &Claim,
        answer: raw::Answer,
        words: &[u32],
        numbers: &[u16],
        room: usize,
    ) -> Derivation {
        Derivation {
            words: words[..answer.formulas].to_vec(),
            numbers: numbers[..answer.terms * raw::NODE_NUMBERS].to_vec(),
            goal: claim.goal,
            assumed: claim.assumed.clone(),
            names: claim.names.clone(),
            answer,
            room,
        }
    }

    /// The house text; [`NoRoom`](Refusal::NoRoom) where it would pass the text limit of the prover that found it, or 1,024 nodes on a
    /// path. A buffer as long as that limit is allocated for it.
    pub fn text(&self) -> Result<String, Refusal> {
        let mut buffer = vec![0; self.room];
        let text = self.write(&mut buffer)?;
        // it is ASCII, so nothing is lost
        Ok(String::from_utf8_lossy(text).into_owned())
    }

    /// Writes the house text to the front of a buffer of any length, with zeros behind it, and gives the front back. Nothing is
    /// allocated.
    ///
    /// [`NoRoom`](Refusal::NoRoom) where the text would pass the buffer, or 1,024 nodes on a path; then the buffer is zero.
    ///
    /// ```
    /// use quaysaffron::{Book, Claim, Refusal};
    ///
    /// let mut book = Book::new();
    /// let truth = book.truth();
    /// let derivation = Claim::new(&book, truth).prove()?.derivation().expect("it follows");
    /// assert_eq!(derivation.write(&mut [1; 80])?, b"()");
    /// assert_eq!(derivation.write(&mut [1; 1]), Err(Refusal::NoRoom));
    /// # Ok::<(), Refusal>(())
    /// ```
    pub fn write<'t>(&self, buffer: &'t mut [u8]) -> Result<&'t [u8], Refusal> {
        let written = raw::text(
            &self.words,
            self.formulas(),
            self.assumed.len(),
            &self.names,
            &self.numbers,
            self.terms(),
            self.root(),
            buffer,
        );
        match written.number {
            0 => Ok(&buffer[..written.size]),
            number => Err(Refusal::told(number, written.place, 0)),
        }
    }

    /// The steps of the search.
    pub fn steps(&self) -> usize {
        self.answer.steps
    }

    /// The generated names that the search went through, skipped ones included.
    pub fn names(&self) -> usize {
        self.answer.indices
    }

    /// The words in use: those of the book, and those that the search made.
    pub fn formulas(&self) -> usize {
        self.answer.formulas
    }

    /// The nodes in use.
    pub fn terms(&self) -> usize {
        self.answer.terms
    }

    /// The node of the derivation itself.
    pub fn root(&self) -> usize {
        self.answer.root
    }

    /// The words in use, one a formula.
    pub fn words(&self) -> &[u32] {
        &self.words
    }

    /// The nodes in use, [`NODE_NUMBERS`](raw::NODE_NUMBERS) numbers each; docs/REFERENCE.md, section 2, has their layout.
    pub fn numbers(&self) -> &[u16] {
        &self.numbers
    }

    /// The goal that is derived: the index of its word.
    pub fn goal(&self) -> usize {
        self.goal.into()
    }

    /// The assumptions that it is derived from, each the index of its word.
    pub fn assumed(&self) -> &[u16] {
        &self.assumed
    }

    /// The assumptions' names, each behind a byte with its length.
    pub fn name_text(&self) -> &[u8] {
        &self.names
    }

    /// All but the text limit.
    fn filed(&self) -> (&raw::Answer, [&[u16]; 3], &[u32], &[u8]) {
        let Derivation {
            words,
            numbers,
            goal,
            assumed,
            names,
            answer,
            room: _,
        } = self;
        let goal = std::slice::from_ref(goal);
        (answer, [goal, assumed, numbers], words, names)
    }
}

impl PartialEq for Derivation {
    fn eq(&self, other: &Derivation) -> bool {
        self.filed() == other.filed()
    }
}

impl Eq for Derivation {}

#[cfg(test)]
mod tests {
    use super::*;

    /// What is changed of a derivation makes it another one, but for the text limit.
    #[test]
    fn equal_where_all_that_is_filed_is() {
        let filed = Derivation {
            words: vec![2],
            numbers: vec![0; raw::NODE_NUMBERS],
            goal: 0,
            assumed: vec![0],
            names: b"\x01x".to_vec(),
            answer: raw::Answer::default(),
            room: 1,
        };
        let changes: [fn(&mut Derivation); 8] = [
            |changed| changed.words[0] += 1,
            |changed| changed.numbers[1] += 1,
            |changed| changed.goal += 1,
            |changed| changed.assumed[0] += 1,
            |changed| changed.names[1] += 1,
            |changed| changed.answer.root += 1,
            |changed| changed.answer.steps += 1,
            |changed| changed.answer.indices += 1,
        ];
        for change in changes {
            let mut changed = filed.clone();
            change(&mut changed);
            assert_ne!(changed, filed);
        }
        let mut roomier = filed.clone();
        roomier.room += 1;
        assert_eq!(roomier, filed);
    }
}
