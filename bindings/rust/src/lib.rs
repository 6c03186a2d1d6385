//! Quaysaffron settles a claim under a rule book: it answers with a derivation that an auditor can read, or says that there is none, or
//! refuses and names the reason. It is a prover for intuitionistic propositional logic, proved to the byte against its own definition;
//! this crate lends Rust's buffers to the proved functions and is itself tested, not proved.
//!
//! A café's rule book says: *Ana, Ben and Cleo share the day's tips in three equal parts. If a penny is left over, the one who closed
//! gets it.* One evening a penny is left over. The sheet says that one of the three closed, but not who. Is the penny due to one of
//! them?
//!
//! ```
//! use quaysaffron::{Book, Claim, Outcome};
//!
//! let mut book = Book::new();
//! let odd_penny = book.atom(0);
//! let closed = [1, 2, 3].map(|symbol| book.atom(symbol));
//! let gets_it = [4, 5, 6].map(|symbol| book.atom(symbol));
//! let someone_closed = book.any(&closed);
//! let someone_gets_it = book.any(&gets_it);
//! let [ana, ben, cleo] = [0, 1, 2].map(|who| book.rule(&[closed[who], odd_penny], gets_it[who]));
//!
//! let claim = Claim::new(&book, someone_gets_it)
//!     .assume("left_over", odd_penny)
//!     .assume("someone_closed", someone_closed)
//!     .assume("rule_ana", ana)
//!     .assume("rule_ben", ben)
//!     .assume("rule_cleo", cleo);
//! match claim.prove()? {
//!     Outcome::Proved(derivation) => println!("{}", derivation.text()?),
//!     Outcome::Unprovable { .. } => println!("unprovable"),
//! }
//! # let text = claim.prove()?.derivation().expect("it follows").text()?;
//! # assert_eq!(text, "(case someone_closed a (inl (app (app rule_ana a) left_over)) b (case b c (inr (inl (app (app rule_ben c) \
//! #     left_over))) d (inr (inr (app (app rule_cleo d) left_over)))))");
//! # Ok::<(), quaysaffron::Refusal>(())
//! ```
//!
//! It prints in one line
//!
//! ```text
//! (case someone_closed
//!    a (inl (app (app rule_ana a) left_over))
//!    b (case b
//!         c (inr (inl (app (app rule_ben c) left_over)))
//!         d (inr (inr (app (app rule_cleo d) left_over)))))
//! ```
//!
//! that is: if `someone_closed` says Ana (call that `a`), then `rule_ana`, applied to `a` and to `left_over`, gives her the penny; else
//! it is Ben (`c`) or Cleo (`d`), and their rules give it to them. docs/AUDITORS.md reads it node by node.
//!
//! # What there is
//!
//! - A [`Book`] holds formulas, a [`Claim`] is a goal of it with named assumptions, a [`Prover`] answers claims within [`Limits`].
//! - An [`Outcome`] is a [`Derivation`] or that there is none; a [`Status`] is what is said of a goal alone; everything else is a
//!   [`Refusal`], with its number and its place.
//! - [`output`] says what the program prints for a house file, [`name`] how a generated name is spelled.
//! - [`raw`] has the proved functions themselves, over slices.
//!
//! # What it takes
//!
//! Nothing panics, on any input, unless memory runs out. Memory is allocated by a book and a claim as they grow, by a prover when it is
//! made, by a derivation when it is found and written to a `String`, and by [`Claim::to_house_file`], [`output`] and [`name`];
//! [`Derivation::write`] and all of [`raw`] allocate nothing. No lock is taken, and nothing is shared between threads but the counter
//! that tells books apart. A thread that calls needs [`raw::STACK_BYTES`] of stack.
//!
//! The archive that is linked is for x86-64 Linux alone. `bindings/make library` makes it in the repository, where this crate's build
//! finds it; `QUAYSAFFRON_LIB`, set to the absolute path of a folder, names another place.
#![deny(unsafe_code)]
#![deny(missing_docs)]

mod book;
mod claim;
mod derivation;
mod prover;
#[allow(unsafe_code)]
pub mod raw;
mod refusal;

pub use book::{Book, Formula};
pub use claim::Claim;
pub use derivation::Derivation;
pub use prover::{Limits, Outcome, Prover, Status};
pub use refusal::Refusal;

/// The name of a generated index; [`Refusal::Names`] with 0 steps where it is over 4,095.
///
/// ```
/// use quaysaffron::{name, Refusal};
///
/// assert_eq!(name(26)?, "ba");
/// assert_eq!(name(4096), Err(Refusal::Names { steps: 0 }));
/// # Ok::<(), Refusal>(())
/// ```
pub fn name(index: usize) -> Result<String, Refusal> {
    let mut letters = [0; raw::MOST_GENERATED_BYTES];
    let written = raw::name(index, &mut letters);
    match written.number {
        0 => Ok(String::from_utf8_lossy(&letters[..written.size]).into_owned()),
        number => Err(Refusal::told(number, 0, 0)),
    }
}

/// What the program `./quay` prints for the bytes of a house file; a refusal is the line `refused N`.
///
/// ```
/// assert_eq!(quaysaffron::output(b"no house file"), b"refused 14\n");
/// ```
pub fn output(file: &[u8]) -> Vec<u8> {
    let mut out = [0; raw::OUTPUT_BYTES];
    let size = raw::output(file, &mut out);
    out[..size].to_vec()
}
