//! A sequential stand-in for rayon: `into_par_iter` is `into_iter`.
//!
//! hierarchy.rs uses it in `freeze_distances` alone, where the order of work has no effect on any value.

pub mod prelude {
    pub trait IntoParallelIterator: IntoIterator + Sized {
        fn into_par_iter(self) -> Self::IntoIter {
            self.into_iter()
        }
    }

    impl<T: IntoIterator> IntoParallelIterator for T {}
}
