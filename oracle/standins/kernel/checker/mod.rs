//! Stand-in for kernel/checker/mod.rs.
pub mod check;
pub mod identifier_context;
