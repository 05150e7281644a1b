//! A sequential stand-in for the few parts of rayon that the original Rust uses: one thread, one pass in order.
//!
//! The names are rayon's, so that the Rust compiles unchanged. `real_rayon/` builds the same sources with the real one.

pub mod prelude {
    pub use crate::iter::{
        IndexedParallelIterator, IntoParallelIterator, IntoParallelRefIterator, IntoParallelRefMutIterator, ParallelExtend,
        ParallelIterator,
    };
}

pub mod iter {
    /// An iterator of known length that is walked in order.
    pub struct Seq<I>(pub(crate) I);

    pub mod plumbing {
        pub trait Reducer<Result> {
            fn reduce(self, left: Result, right: Result) -> Result;
        }

        pub trait Folder<Item>: Sized {
            type Result;
            fn consume(self, item: Item) -> Self;
            fn complete(self) -> Self::Result;
            fn full(&self) -> bool;
        }

        pub trait Consumer<Item>: Sized {
            type Folder: Folder<Item, Result = Self::Result>;
            type Reducer: Reducer<Self::Result>;
            type Result;
            fn split_at(self, index: usize) -> (Self, Self, Self::Reducer);
            fn into_folder(self) -> Self::Folder;
            fn full(&self) -> bool;
        }

        pub trait UnindexedConsumer<Item>: Consumer<Item> {
            fn split_off_left(&self) -> Self;
            fn to_reducer(&self) -> Self::Reducer;
        }
    }

    pub trait ParallelIterator: Sized {
        type Item;
        type Inner: Iterator<Item = Self::Item>;

        fn into_seq(self) -> Self::Inner;

        fn map<R, F: FnMut(Self::Item) -> R>(self, f: F) -> Seq<std::iter::Map<Self::Inner, F>> {
            Seq(self.into_seq().map(f))
        }

        fn for_each<F: FnMut(Self::Item)>(self, f: F) {
            self.into_seq().for_each(f)
        }

        /// One fold over all, as the only part.
        fn fold<T, Id: Fn() -> T, F: FnMut(T, Self::Item) -> T>(self, identity: Id, f: F) -> Seq<std::iter::Once<T>> {
            Seq(std::iter::once(self.into_seq().fold(identity(), f)))
        }

        fn reduce<Id: Fn() -> Self::Item, F: FnMut(Self::Item, Self::Item) -> Self::Item>(self, identity: Id, f: F) -> Self::Item {
            self.into_seq().fold(identity(), f)
        }

        fn opt_len(&self) -> Option<usize>;

        fn drive_unindexed<C: plumbing::UnindexedConsumer<Self::Item>>(self, consumer: C) -> C::Result {
            use plumbing::Folder;
            let mut folder = consumer.into_folder();
            for item in self.into_seq() {
                folder = folder.consume(item);
            }
            folder.complete()
        }
    }

    impl<I: Iterator> ParallelIterator for Seq<I> {
        type Item = I::Item;
        type Inner = I;

        #[inline]
        fn into_seq(self) -> I {
            self.0
        }

        fn opt_len(&self) -> Option<usize> {
            match self.0.size_hint() {
                (low, Some(high)) if low == high => Some(low),
                _ => None,
            }
        }
    }

    pub trait IndexedParallelIterator: ParallelIterator {
        /// There is one part, however many it has.
        fn with_min_len(self, _min: usize) -> Self {
            self
        }

        fn zip<Z: IntoParallelIterator>(
            self,
            other: Z,
        ) -> Seq<std::iter::Zip<Self::Inner, <Z::Iter as ParallelIterator>::Inner>> {
            Seq(self.into_seq().zip(other.into_par_iter().into_seq()))
        }
    }

    impl<I: Iterator> IndexedParallelIterator for Seq<I> {}

    pub trait IntoParallelIterator {
        type Item;
        type Iter: ParallelIterator<Item = Self::Item>;
        fn into_par_iter(self) -> Self::Iter;
    }

    impl<I: ParallelIterator> IntoParallelIterator for I {
        type Item = I::Item;
        type Iter = Self;

        #[inline]
        fn into_par_iter(self) -> Self {
            self
        }
    }

    pub trait IntoParallelRefIterator<'a> {
        type Item: 'a;
        fn par_iter(&'a self) -> Seq<std::slice::Iter<'a, Self::Item>>;
    }

    impl<'a, T: 'a> IntoParallelRefIterator<'a> for Vec<T> {
        type Item = T;

        #[inline]
        fn par_iter(&'a self) -> Seq<std::slice::Iter<'a, T>> {
            Seq(self.iter())
        }
    }

    pub trait IntoParallelRefMutIterator<'a> {
        type Item: 'a;
        fn par_iter_mut(&'a mut self) -> Seq<std::slice::IterMut<'a, Self::Item>>;
    }

    impl<'a, T: 'a> IntoParallelRefMutIterator<'a> for Vec<T> {
        type Item = T;

        #[inline]
        fn par_iter_mut(&'a mut self) -> Seq<std::slice::IterMut<'a, T>> {
            Seq(self.iter_mut())
        }
    }

    pub trait ParallelExtend<T> {
        fn par_extend<I: IntoParallelIterator<Item = T>>(&mut self, par_iter: I);
    }

    impl<T: Send> ParallelExtend<T> for Vec<T> {
        fn par_extend<I: IntoParallelIterator<Item = T>>(&mut self, par_iter: I) {
            self.extend(par_iter.into_par_iter().into_seq());
        }
    }

    /// Pairs go to both sides, one after another.
    impl<A, B, FromA, FromB> ParallelExtend<(A, B)> for (FromA, FromB)
    where
        A: Send,
        B: Send,
        FromA: ParallelExtend<A>,
        FromB: ParallelExtend<B>,
    {
        #[inline]
        fn par_extend<I: IntoParallelIterator<Item = (A, B)>>(&mut self, par_iter: I) {
            for (a, b) in par_iter.into_par_iter().into_seq() {
                self.0.par_extend(Seq(std::iter::once(a)));
                self.1.par_extend(Seq(std::iter::once(b)));
            }
        }
    }
}
