//! Stand-in for the crate serde: the two derive macros, which derive nothing.
pub use derives::{Deserialize, Serialize};
