//! The seven exported functions, each as a safe function over slices, and the numbers that they take and tell.
//!
//! Each says exactly what the definitions in `crates/theory/specs` say, for every input; docs/REFERENCE.md explains them. A slice may
//! hold anything and have any length: what is wrong is refused by its number. Nothing here allocates, panics or keeps anything between
//! calls, so calls may run at once on many threads. The names are those of `bindings/c/quaysaffron.h` without their prefix.
//!
//! This file uses nothing else of the crate.

// SAFETY of every call below: the functions ask of a pointer that it is non-null and aligned, also where its length is 0, and that it
// points to that many elements for the whole call. A Rust slice's pointer does, that of an empty slice too. What a call may write may
// overlap nothing else that it is lent: an exclusive borrow overlaps no other borrow, and the out-parameters are locals.

/// The most formula words that may be lent.
pub const MOST_WORDS: usize = 16_384;
/// The most term nodes that may be lent.
pub const MOST_NODES: usize = 16_384;
/// The numbers of a term node: its kind and five fields.
pub const NODE_NUMBERS: usize = 6;
/// The most numbers of term nodes that may be lent.
pub const MOST_NUMBERS: usize = 98_304;
/// The records of the work area, neither more nor fewer.
pub const WORK_RECORDS: usize = 16_384;
/// The highest step limit.
pub const MOST_STEPS: usize = 1_000_000;

/// The most assumptions of a claim.
pub const MOST_ASSUMPTIONS: usize = 64;
/// The most bytes of an assumption's name.
pub const MOST_NAME_BYTES: usize = 32;
/// The last symbol that a leaf can have.
pub const LAST_SYMBOL: u16 = 16_383;
/// Symbols from here on carry free parameters; the status alone looks at that.
pub const FIRST_FREE_SYMBOL: u16 = 8_192;

/// The last generated index that a search may use.
pub const LAST_INDEX: usize = 4_095;
/// The most records of a sequent.
pub const MOST_RECORDS: usize = 256;
/// The highest level of a search.
pub const HIGHEST_LEVEL: usize = 63;
/// The most nodes on a path from the root of a text, ascribed formulas included.
pub const MOST_PATH: usize = 1_024;

/// The name number of generated index 0; numbers below it are assumptions.
pub const FIRST_GENERATED: u16 = 64;
/// The letters of the last generated name, the longest.
pub const MOST_GENERATED_BYTES: usize = 158;

/// The most bytes of a house file.
pub const MOST_FILE_BYTES: usize = 32_768;
/// The room for what is printed for a house file.
pub const OUTPUT_BYTES: usize = 32_835;

/// The words that the program `./quay` lends.
pub const PROGRAM_WORDS: usize = 4_096;
/// The nodes that the program lends.
pub const PROGRAM_NODES: usize = 4_096;
/// The program's step limit.
pub const PROGRAM_STEPS: usize = 1_000_000;
/// The bytes that the program lends for a text.
pub const PROGRAM_TEXT_BYTES: usize = 32_768;

/// The kind of a formula: True.
pub const TRUE: usize = 0;
/// The kind of a formula: False.
pub const FALSE: usize = 1;
/// The kind of a formula: a letter. Its symbol stands at left. A symbol has one kind among the given words, used or not: a leaf whose
/// symbol stands at a lower index under another kind is refused with [`BAD_FORMULA`].
pub const ATOM: usize = 2;
/// The kind of a formula: and. Both fields are indices of words before it.
pub const AND: usize = 3;
/// The kind of a formula: or, likewise.
pub const OR: usize = 4;
/// The kind of a formula: if left then right, likewise.
pub const IMPL: usize = 5;
/// The kind of a formula: a statement with "every", a leaf as a letter is.
pub const FOR_ALL: usize = 6;
/// The kind of a formula: a statement with "some", a leaf too.
pub const EXISTS: usize = 7;

/// The kind of a term node with the fields: name.
pub const IDENT: u16 = 0;
/// The kind of a term node with the fields: term, term.
pub const PAIR: u16 = 1;
/// The kind of a term node with the fields: term.
pub const PROJECT_FST: u16 = 2;
/// The kind of a term node with the fields: term.
pub const PROJECT_SND: u16 = 3;
/// The kind of a term node with the fields: name, body.
pub const FUNCTION: u16 = 4;
/// The kind of a term node with the fields: function, argument.
pub const APPLICATION: u16 = 5;
/// The kind of a term node with the fields: term.
pub const OR_LEFT: u16 = 7;
/// The kind of a term node with the fields: term.
pub const OR_RIGHT: u16 = 8;
/// The kind of a term node with the fields: head, name, term, name, term.
pub const CASE: u16 = 9;
/// The kind of a term node with the fields: term.
pub const ABORT: u16 = 10;
/// The kind of a term node with the fields: term, index of a formula.
pub const ASCRIPTION: u16 = 11;
/// The kind of a term node without fields.
pub const UNIT: u16 = 12;

/// The kind of an answer: there is a derivation.
pub const PROVED: usize = 1;
/// The kind of an answer: no term of any size derives the goal.
pub const UNPROVABLE: usize = 2;
/// The kind of an answer: the search, of a status either of the two, would pass a limit, numbers 6 to 11.
pub const SHORT: usize = 3;
/// The kind of an answer: what was lent is not as it must be, numbers 1 to 5.
pub const REFUSED: usize = 4;
/// The kind of a status: the goal is proved.
pub const SOLVABLE: usize = 5;
/// The kind of a status: the goal is refuted, or is closed and not proved.
pub const UNSOLVABLE: usize = 6;
/// The kind of a status: the goal is open, and no term of any size derives it or its negation.
pub const UNKNOWN: usize = 7;

/// Number 1: something lent does not have its size.
pub const SIZES: usize = 1;
/// Number 2: a word breaks the layout, or is a leaf whose symbol stands at a lower index under another kind.
pub const BAD_FORMULA: usize = 2;
/// Number 3: an assumption's formula is not in the book, or there are over 64.
pub const BAD_ASSUMPTION: usize = 3;
/// Number 4: a name is at fault or repeats an earlier one.
pub const BAD_NAMES: usize = 4;
/// Number 5: the goal's formula is not in the book.
pub const BAD_GOAL: usize = 5;
/// Number 6: the search would pass the step limit.
pub const STEPS: usize = 6;
/// Number 7: the search would pass the last generated index; or a name was asked for beyond it.
pub const NAMES: usize = 7;
/// Number 8: the search would pass the lent words.
pub const FORMULAS: usize = 8;
/// Number 9: the search would pass the lent nodes.
pub const TERMS: usize = 9;
/// Number 10: the search would pass the records of a sequent.
pub const CONTEXTS: usize = 10;
/// Number 11: the search would pass the highest level.
pub const LEVELS: usize = 11;
/// Number 12: a text is longer than its buffer, or has a path that is too long.
pub const NO_ROOM: usize = 12;
/// Number 13: a term node breaks the layout, or the root is none of the nodes.
pub const BAD_TERM: usize = 13;
/// Number 14: the bytes are no house file; [`output`] alone, as its line `refused 14`.
pub const BAD_FILE: usize = 14;

/// A thread's whole stack with which every call has slack, in bytes. Measured by `bindings/c/stack.c`, not proved. On a smaller one a
/// call may overrun the stack, which stops the program as it does in Rust.
pub const STACK_BYTES: usize = 1_048_576;

/// A word of no kind, which is refused with [`BAD_FORMULA`] wherever it stands.
pub const NO_WORD: u32 = 15;

/// Where the left field of a word begins, in bits.
pub const LEFT_SHIFT: usize = 4;
/// Where its right field begins.
pub const RIGHT_SHIFT: usize = 18;

/// The word of a formula: kind in the low 4 bits, left in the next 14, right in the top 14. Where one does not fit it is [`NO_WORD`],
/// so that a symbol or an index out of range becomes a refusal, never another formula.
pub const fn word(kind: usize, left: usize, right: usize) -> u32 {
    if kind > EXISTS || left > LAST_SYMBOL as usize || right > LAST_SYMBOL as usize {
        return NO_WORD;
    }
    (kind | left << LEFT_SHIFT | right << RIGHT_SHIFT) as u32
}

/// A record of the work area; what it holds is the search's own affair.
#[derive(Clone, Copy, Debug, Default, PartialEq, Eq, Hash)]
#[repr(C)]
pub struct Record {
    /// A word's index.
    pub formula: u16,
    /// A node's index.
    pub term: u16,
}

/// What a search or a status came to: its kind and seven numbers. Those that a kind does not name are 0.
///
/// | Kind | Numbers |
/// |---|---|
/// | [`PROVED`] | root, steps, indices, formulas, terms |
/// | [`UNPROVABLE`] | steps, indices, formulas (the given count) |
/// | [`SHORT`] | number, steps (for [`STEPS`] the limit) |
/// | [`REFUSED`] | number, place (0 for [`SIZES`] and [`BAD_GOAL`]) |
/// | [`SOLVABLE`], [`UNSOLVABLE`], [`UNKNOWN`] | none |
#[derive(Clone, Copy, Debug, Default, PartialEq, Eq, Hash)]
#[repr(C)]
pub struct Answer {
    /// What kind of answer it is.
    pub kind: usize,
    /// The number of the refusal or shortage.
    pub number: usize,
    /// What is at fault.
    pub place: usize,
    /// The node of the derivation.
    pub root: usize,
    /// The steps that the search entered.
    pub steps: usize,
    /// The generated indices used, skipped ones included.
    pub indices: usize,
    /// The words in use, the given ones included.
    pub formulas: usize,
    /// The nodes in use.
    pub terms: usize,
}

/// What a writer came to.
#[derive(Clone, Copy, Debug, Default, PartialEq, Eq, Hash)]
pub struct Written {
    /// 0, or the number of the refusal.
    pub number: usize,
    /// What is at fault; 0 where there is no refusal.
    pub place: usize,
    /// The bytes of what was written; 0 on a refusal.
    pub size: usize,
}

/// What a test came to.
#[derive(Clone, Copy, Debug, Default, PartialEq, Eq, Hash)]
pub struct Tested {
    /// 0, or the number of the refusal.
    pub number: usize,
    /// What is at fault; 0 where there is no refusal.
    pub place: usize,
}

#[link(name = "quaysaffron_c", kind = "static")]
extern "C" {
    fn quaysaffron_prove(
        words: *mut u32,
        words_length: usize,
        count: usize,
        assumed: *const u16,
        assumed_length: usize,
        names: *const u8,
        names_length: usize,
        goal: usize,
        terms: *mut u16,
        terms_length: usize,
        work: *mut Record,
        work_length: usize,
        steps: usize,
        answer: *mut Answer,
    ) -> usize;
    fn quaysaffron_status(
        words: *mut u32,
        words_length: usize,
        count: usize,
        goal: usize,
        terms: *mut u16,
        terms_length: usize,
        work: *mut Record,
        work_length: usize,
        steps: usize,
        answer: *mut Answer,
    ) -> usize;
    fn quaysaffron_text(
        words: *const u32,
        words_length: usize,
        count: usize,
        assumptions: usize,
        names: *const u8,
        names_length: usize,
        terms: *const u16,
        terms_length: usize,
        nodes: usize,
        root: usize,
        text: *mut u8,
        text_length: usize,
        size: *mut usize,
        place: *mut usize,
    ) -> usize;
    fn quaysaffron_name(index: usize, name: *mut u8, name_length: usize, size: *mut usize)
        -> usize;
    fn quaysaffron_output(
        file: *const u8,
        file_length: usize,
        out: *mut [u8; OUTPUT_BYTES],
    ) -> usize;
    fn quaysaffron_test_words(
        words: *const u32,
        words_length: usize,
        count: usize,
        place: *mut usize,
    ) -> usize;
    fn quaysaffron_test_names(
        names: *const u8,
        names_length: usize,
        assumptions: usize,
        place: *mut usize,
    ) -> usize;
}

/// Calls a function that fills an answer over what a search is lent. What stands between the count and the goal is the call's own.
macro_rules! answered {
    ($call:ident, $words:ident, $count:ident, [$($own:expr),*], $goal:ident, $terms:ident, $work:ident, $steps:ident) => {{
        let mut answer = Answer::default();
        // SAFETY: slices and a local, see above. What is returned stands in the answer too.
        unsafe {
            $call(
                $words.as_mut_ptr(),
                $words.len(),
                $count,
                $($own,)*
                $goal,
                $terms.as_mut_ptr(),
                $terms.len(),
                $work.as_mut_ptr(),
                $work.len(),
                $steps,
                &mut answer,
            );
        }
        answer
    }};
}

/// Searches for a derivation of a goal from named assumptions.
///
/// `words` holds `count` given formulas at its front, then room for those that the search makes. `assumed` and `goal` are indices of
/// given formulas. `names` holds the assumptions' names in their order, each behind a byte with its length. `terms` is room for nodes of
/// [`NODE_NUMBERS`] numbers each, `work` has [`WORK_RECORDS`] records, `steps` is the step limit.
///
/// Afterwards:
///
/// | Kind | `words` | `terms` | `work` |
/// |---|---|---|---|
/// | [`PROVED`] | `formulas` words, the given ones first and unchanged, then zero | `terms` nodes, then zero | zero |
/// | [`UNPROVABLE`], [`SHORT`] | the given ones, unchanged, then zero | zero | zero |
/// | [`REFUSED`] | unchanged | unchanged | unchanged |
// as many as the function takes
#[allow(clippy::too_many_arguments)]
pub fn prove(
    words: &mut [u32],
    count: usize,
    assumed: &[u16],
    names: &[u8],
    goal: usize,
    terms: &mut [u16],
    work: &mut [Record],
    steps: usize,
) -> Answer {
    answered!(
        quaysaffron_prove,
        words,
        count,
        [assumed.as_ptr(), assumed.len(), names.as_ptr(), names.len()],
        goal,
        terms,
        work,
        steps
    )
}

/// The status of a goal without assumptions; lent as to [`prove`], refused with [`SIZES`], [`BAD_FORMULA`] and [`BAD_GOAL`] alone.
///
/// [`SOLVABLE`] if the goal is proved; else [`UNSOLVABLE`] if no ForAll, Exists or free symbol occurs in it, or if its negation, for
/// which 2 words are added, is proved; else [`UNKNOWN`]: both searches ended without a proof. A shortage of either search is [`SHORT`]
/// with that search's own steps, each having the whole step limit; no room for the 2 words is [`FORMULAS`] with 0 steps.
/// Afterwards `words` holds the given ones, unchanged, then zero, and `terms` and `work` are zero; if [`REFUSED`], all are unchanged.
pub fn status(
    words: &mut [u32],
    count: usize,
    goal: usize,
    terms: &mut [u16],
    work: &mut [Record],
    steps: usize,
) -> Answer {
    answered!(
        quaysaffron_status,
        words,
        count,
        [],
        goal,
        terms,
        work,
        steps
    )
}

/// Writes the house text of the term at node `root` to the front of `text`, with zeros behind it.
///
/// `words` and `terms` are as a search left them, `count` and `nodes` its formulas and terms. `assumptions` is how many names `names`
/// holds. The numbers are [`SIZES`], [`BAD_FORMULA`], [`BAD_ASSUMPTION`] (over 64 alone), [`BAD_NAMES`] and [`BAD_TERM`], which leave
/// `text` unchanged, and last [`NO_ROOM`], which leaves it zero.
// as many as the function takes
#[allow(clippy::too_many_arguments)]
pub fn text(
    words: &[u32],
    count: usize,
    assumptions: usize,
    names: &[u8],
    terms: &[u16],
    nodes: usize,
    root: usize,
    text: &mut [u8],
) -> Written {
    let mut written = Written::default();
    // SAFETY: slices and a local's parts, see above.
    written.number = unsafe {
        quaysaffron_text(
            words.as_ptr(),
            words.len(),
            count,
            assumptions,
            names.as_ptr(),
            names.len(),
            terms.as_ptr(),
            terms.len(),
            nodes,
            root,
            text.as_mut_ptr(),
            text.len(),
            &mut written.size,
            &mut written.place,
        )
    };
    written
}

/// Writes the name of a generated index to the front of `name`, with zeros behind it: 0 is `a`, 25 `z`, 26 `ba`.
///
/// The numbers are [`NAMES`] where the index is over [`LAST_INDEX`], else [`NO_ROOM`]; both leave `name` zero. The place is 0.
pub fn name(index: usize, name: &mut [u8]) -> Written {
    let mut written = Written::default();
    // SAFETY: a slice and a local's part, see above.
    written.number =
        unsafe { quaysaffron_name(index, name.as_mut_ptr(), name.len(), &mut written.size) };
    written
}

/// What the program `./quay` prints for the bytes of a house file: how many bytes, at the front of `out`, with zeros behind them.
///
/// There is no number: a refusal is the line `refused N`.
pub fn output(file: &[u8], out: &mut [u8; OUTPUT_BYTES]) -> usize {
    // SAFETY: a slice and an array, see above.
    unsafe { quaysaffron_output(file.as_ptr(), file.len(), out) }
}

/// Tests the first `count` words alone, or all where there are fewer: [`BAD_FORMULA`] at the lowest that breaks the layout or gives a
/// symbol a second kind. Any number of words is tested.
pub fn test_words(words: &[u32], count: usize) -> Tested {
    let mut tested = Tested::default();
    // SAFETY: a slice and a local's part, see above.
    tested.number =
        unsafe { quaysaffron_test_words(words.as_ptr(), words.len(), count, &mut tested.place) };
    tested
}

/// Tests a text that is to hold so many names: [`BAD_NAMES`] at the first that is at fault. Any number of names is tested, in a time
/// that grows with their square.
pub fn test_names(names: &[u8], assumptions: usize) -> Tested {
    let mut tested = Tested::default();
    // SAFETY: a slice and a local's part, see above.
    tested.number = unsafe {
        quaysaffron_test_names(names.as_ptr(), names.len(), assumptions, &mut tested.place)
    };
    tested
}
