//! Stand-in for kernel/prove/tests.rs: no tests.
