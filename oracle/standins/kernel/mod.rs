//! Stand-in for kernel/mod.rs: the modules that the prover needs.
pub mod checker;
pub mod proof_term;
pub mod prop;
pub mod prove;
