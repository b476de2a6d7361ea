//! Ledgers, which are for proofs alone: none takes a byte, and no step does anything.

pub mod ledger {
    use core::marker::PhantomData;

    /// A ledger's name.
    pub trait Ledger {}

    /// A ledger that nobody has opened.
    pub struct Blank(());

    /// What says a ledger's total.
    pub struct Book<L: Ledger>(PhantomData<L>);

    /// What may add to it.
    pub struct Share<L: Ledger>(PhantomData<L>);

    impl Blank {
        /// A blank of one share.
        #[inline(always)]
        pub fn new(_parts: u64) -> Blank {
            Blank(())
        }

        /// The ledger's book and its share.
        #[inline(always)]
        pub fn open<L: Ledger>(self) -> (Book<L>, Share<L>) {
            (Book(PhantomData), Share(PhantomData))
        }
    }

    impl<L: Ledger> Book<L> {
        /// Adds to the total.
        #[inline(always)]
        pub fn add(&mut self, _share: &mut Share<L>, _count: u64) {}
    }
}
