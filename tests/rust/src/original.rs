//! Drawings replayed on the original.

use crate::{
    call::{Call, P},
    math::Point,
    seen::{Seen, Store},
};

macro_rules! original {
    ($name:ident, $path:ident, $doc:expr) => {
        #[doc = $doc]
        pub mod $name {
            use super::*;
            use crate::$path::{probe, PathBuilder};
            pub use crate::$path::probe::{cubic_at, curvature_of, difference, inv_curvature_of, opens, packed, quad_at, unpacked, Repeated};

            fn at(p: P) -> Point {
                Point::new(p.x, p.y)
            }

            fn replay(calls: &[Call]) -> PathBuilder {
                replay_on(PathBuilder::new(), calls)
            }

            fn replay_on(mut b: PathBuilder, calls: &[Call]) -> PathBuilder {
                for call in calls {
                    match *call {
                        Call::Move(a) => {
                            b.move_to(at(a));
                        }
                        Call::Line(a) => {
                            b.line_to(at(a));
                        }
                        Call::Quad(a, c) => {
                            b.quad_to(at(a), at(c));
                        }
                        Call::Cubic(a, c, d) => {
                            b.cubic_to(at(a), at(c), at(d));
                        }
                        Call::RatQuad(a, c, w) => {
                            b.rat_quad_to(at(a), at(c), w);
                        }
                        Call::RatCubic(a, c, d, v, w) => {
                            b.rat_cubic_to(at(a), at(c), at(d), v, w);
                        }
                        Call::Build => {
                            b.build();
                        }
                    }
                }
                b
            }

            /// The store after these calls on a fresh drawing.
            pub fn store(calls: &[Call]) -> Store {
                probe::store_of(&replay(calls))
            }

            /// The pieces of each cubic of the drawing.
            pub fn pieces(calls: &[Call]) -> Vec<usize> {
                probe::pieces_of(&replay(calls))
            }

            /// The flattened drawing.
            pub fn flatten(calls: &[Call]) -> Seen {
                probe::see(&replay(calls))
            }

            /// The pieces of each cubic of a store made by hand, and its flattening.
            pub fn pieces_of_store(store: &Store) -> Vec<usize> {
                probe::pieces_of_store(store)
            }

            pub fn flatten_store(store: &Store) -> Seen {
                probe::see_store(store)
            }

            /// The store after these calls on a store made by hand.
            pub fn draw_on(store: &Store, calls: &[Call]) -> Store {
                probe::store_of(&replay_on(probe::builder_on(store), calls))
            }
        }
    };
}

original!(screen, path, "The original as it is.");
original!(knife, path_knife, "The original with the knife setting's five changes, which build.rs makes.");
