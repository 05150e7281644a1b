//! Coordinates in great number, through whole units: those that can be printed in long lists, the others one at a time, since one of them refuses its list.

use crate::{
    compare::Seen,
    directed::{above, below},
    points::{Points, Writer},
    rng::Rng,
    second::nearest,
};

const LIST: usize = 4096;

/// How many can be printed, and how many cannot.
#[derive(Default)]
pub struct Split {
    pub good: u64,
    pub bad: u64,
}

pub fn each(writer: &dyn Writer, seen: &mut Seen, all: impl Iterator<Item = f32>) -> Result<Split, String> {
    let mut split = Split::default();
    let mut list = Vec::with_capacity(LIST);
    // y has the same numbers in another order
    let compare = |seen: &mut Seen, x: &[f32]| {
        let y: Vec<f32> = x.iter().rev().copied().collect();
        seen.whole(writer, x, &y, (x.len(), x.len() + 1)).map(|_| ())
    };
    for v in all {
        if nearest(v).is_some() {
            list.push(v);
            split.good += 1;
            if list.len() == LIST {
                compare(seen, &list)?;
                list.clear();
            }
        } else {
            split.bad += 1;
            let (x, y) = if split.bad % 2 == 0 { (v, 1.0) } else { (1.0, v) };
            seen.whole(writer, &[x], &[y], (1, 1))?;
        }
    }
    compare(seen, &list)?;
    Ok(split)
}

/// All halves from -32769.5 to 32768.5, the whole numbers between them, and the floats on both sides of each.
pub fn halves() -> impl Iterator<Item = f32> {
    (-2 * 32770..=2 * 32770).flat_map(|k| {
        let v = k as f32 / 2.0;
        if k == 0 {
            [0.0, -0.0, f32::from_bits(1)]
        } else {
            [v, below(v), above(v)]
        }
    })
}

/// The same as texts, a hundred points at a time.
pub fn halves_as_texts(writer: &dyn Writer, seen: &mut Seen) -> Result<u64, String> {
    let all: Vec<f32> = halves().filter(|v| nearest(*v).is_some()).collect();
    for list in all.chunks(100) {
        let points = Points { x: list.to_vec(), y: list.iter().rev().copied().collect(), end: list.iter().map(|v| u8::from(v.to_bits() % 7 == 0)).collect() };
        let room = 3 + 17 * list.len();
        seen.plot(writer, &points, room)?;
    }
    Ok(all.len() as u64)
}

/// Any bits, and numbers of the range with as many fraction bits as they can have.
pub fn random(seed: u64, count: u64) -> impl Iterator<Item = f32> {
    let mut rng = Rng(seed);
    (0..count).map(move |i| {
        let bits = rng.next() as u32;
        match i % 4 {
            0 => f32::from_bits(bits),
            // sizes from 2^-4 to 2^16
            1 => f32::from_bits(bits & 0x807f_ffff | (123 + (rng.below(20) as u32)) << 23),
            2 => rng.between(-32800.0, 32800.0) as f32,
            // just beside halves
            _ => f32::from_bits(((rng.below(65700) as f32 - 32850.0 + 0.5).to_bits() as i64 + rng.below(9) as i64 - 4) as u32),
        }
    })
}

/// Every f32 there is, on as many threads as there are processors.
pub fn every(writer: &dyn Writer) -> Result<(Split, Seen), String> {
    let threads = std::thread::available_parallelism().map_or(1, |n| n.get()) as u64;
    let share = (1u64 << 32).div_ceil(threads);
    let parts: Vec<Result<(Split, Seen), String>> = std::thread::scope(|scope| {
        let started: Vec<_> = (0..threads)
            .map(|t| {
                scope.spawn(move || {
                    let mut seen = Seen::default();
                    let bits = t * share..((t + 1) * share).min(1 << 32);
                    each(writer, &mut seen, bits.map(|b| f32::from_bits(b as u32))).map(|split| (split, seen))
                })
            })
            .collect();
        started.into_iter().map(|t| t.join().expect("a thread ends")).collect()
    });
    let (mut split, mut seen) = (Split::default(), Seen::default());
    for part in parts {
        let (s, n) = part?;
        split.good += s.good;
        split.bad += s.bad;
        seen.add(&n);
    }
    Ok((split, seen))
}
