//! The lists that programs of the gate replay where there is no Rust, made from fixed seeds: the same bytes in every run. answers/README.md says how each is
//! laid out.

pub mod drawn;
pub mod listing;
pub mod point;
pub mod store;

use std::fmt::Write;

/// A row of numbers, each eight hex digits.
fn row(text: &mut String, numbers: &[u32]) {
    for (i, n) in numbers.iter().enumerate() {
        write!(text, "{n:08x}{}", if i + 1 == numbers.len() { '\n' } else { ' ' }).unwrap();
    }
}

/// The bits, with 7FC00000 for every NaN.
fn bits(v: f32) -> u32 {
    crate::model::store::canon(v).to_bits()
}

/// Each list and the file below crates/ where it is stored. `flattener` has the first listing, the program's example: the doubled point (docs/PROMISES.md, Examples).
pub fn all() -> Vec<(&'static str, Vec<u8>)> {
    let listing::Listings { given, due } = listing::fixed();
    let (example, shown) = listing::example();
    vec![
        ("flatten_cases/stdin", drawn::fixed().into_bytes()),
        ("point_vectors/stdin", point::fixed().into_bytes()),
        ("store_cases/stdin", store::fixed().into_bytes()),
        ("listing_cases/stdin", given),
        ("listing_cases/stdout", due),
        ("flattener/stdin", example),
        ("flattener/stdout", shown),
    ]
}
