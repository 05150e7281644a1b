//! The original Rust, compiled unchanged, beside an independent model of the port.

#![allow(dead_code)]

/// What the original takes from the rest of forma.
mod consts {
    pub(crate) const PIXEL_WIDTH: usize = 16;
    pub(crate) const MAX_WIDTH: usize = 1 << 16;
    pub(crate) const MAX_HEIGHT: usize = 1 << 15;
}

mod math {
    mod point {
        include!(concat!(env!("OUT_DIR"), "/point.rs"));
    }
    mod transform {
        include!(concat!(env!("OUT_DIR"), "/transform.rs"));
    }
    pub use point::Point;
    pub use transform::GeomPresTransform;
}

mod utils {
    mod extend {
        include!(concat!(env!("OUT_DIR"), "/extend.rs"));
    }
    pub use extend::{ExtendTuple3, ExtendVec};

    pub trait CanonBits {
        fn to_canon_bits(self) -> u32;
    }

    impl CanonBits for f32 {
        fn to_canon_bits(self) -> u32 {
            if self.is_nan() {
                return f32::NAN.to_bits();
            }

            if self == 0.0 {
                return 0.0f32.to_bits();
            }

            self.to_bits()
        }
    }
}

#[derive(Clone, Copy, Debug, PartialEq, Eq)]
pub struct GeomId(u64);

mod path {
    include!(concat!(env!("OUT_DIR"), "/path.rs"));
}

// the Rust's text sets the cursor at places where the knife's sets it again before it is read
#[allow(unused_assignments)]
mod path_knife {
    include!(concat!(env!("OUT_DIR"), "/path_knife.rs"));
}

pub mod against;
pub mod call;
pub mod contours;
pub mod drawings;
pub mod flat_case;
#[cfg(feature = "library")]
pub mod hostile;
pub mod lists;
pub mod model;
pub mod original;
pub mod rng;
pub mod seen;
pub mod wild;

/// An option of a run: the argument at this place, or the variable, or the default.
pub fn number(at: usize, variable: &str, default: u64) -> u64 {
    std::env::args()
        .nth(at)
        .or_else(|| std::env::var(variable).ok())
        .map(|t| t.parse().unwrap_or_else(|_| panic!("{t} is no number")))
        .unwrap_or(default)
}
