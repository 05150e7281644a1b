//! An independent model of the port: written from the rules (the store, the numbered answers, primitives, the walk), in plain Rust, with growing lists in
//! place of the port's lent columns, and copied to the lent columns at the end. Where the rules cite the original's formulas, the model has them too.
//!
//! Floats are the machine's: IEEE 754 binary32, `mul_add` and `sqrt` rounded once. The sixth root is by whole numbers.

pub mod cover;
pub mod flatten;
pub mod program;
pub mod root;
pub mod store;

pub use flatten::{flatten, Flattened, Output, QuadTable, Setting, SplineTable, QUAD_ROW};
pub use store::{draw, fresh, Columns, State};
