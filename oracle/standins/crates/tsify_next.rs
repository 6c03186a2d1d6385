//! Stand-in for the crate tsify-next: the derive macro, which derives nothing.
pub use derives::Tsify;
