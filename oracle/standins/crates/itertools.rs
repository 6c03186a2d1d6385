//! Stand-in for the crate itertools: the one method that the prover calls.
pub trait Itertools: Iterator {
    fn collect_vec(self) -> Vec<Self::Item>
    where
        Self: Sized,
    {
        self.collect()
    }
}

impl<I: Iterator> Itertools for I {}
