//! Crate root for the copied files of `regions/arithmetic`.
#![allow(dead_code)]

pub mod regions {
    //! What the copied files use of their parent.

    pub mod arithmetic;

    /// What an inspection decided; `work` is the meter's and is not used.
    #[derive(Clone, Copy, Debug, Default)]
    pub struct NarrowingStatistics {
        pub work: u64,
        pub propagations: u64,
        pub held: u64,
        pub cut: u64,
    }

    #[derive(Debug, Default)]
    pub struct NarrowingScratch {
        arithmetic: arithmetic::runtime::ArithmeticScratch,
    }
}
