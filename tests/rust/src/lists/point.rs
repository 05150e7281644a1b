//! Points, curves and commands, for `point_vectors`: inputs of every kind, and what the original gives for them.

use super::{bits, row};
use crate::{
    math::Point,
    original::{knife, screen},
    rng::Rng,
};

/// x, y and weight.
type Weighted = [f32; 3];

/// Any digits, either sign, an exponent from 2^lo to 2^hi.
fn float(rng: &mut Rng, lo: i32, hi: i32) -> f32 {
    let exponent = lo + rng.below((hi - lo + 1) as u64) as i32;
    let bits = ((exponent + 127) as u32) << 23 | (rng.next() as u32 & 0x7F_FFFF);
    f32::from_bits(bits | (rng.next() as u32 & 0x8000_0000))
}

/// A coordinate as drawings have them: sixteenths, or any digits, up to 65,536.
fn coordinate(rng: &mut Rng) -> f32 {
    if rng.below(2) == 0 {
        return (rng.below(2_097_153) as f32 - 1_048_576.0) / 16.0;
    }
    float(rng, -20, 15)
}

fn weight(rng: &mut Rng) -> f32 {
    match rng.below(3) {
        0 => 1.0,
        1 => rng.pick(&[1.0 / 64.0, 0.5, 2.0, 64.0]),
        _ => float(rng, -6, 5).abs(),
    }
}

/// Where a curve is evaluated: its ends, a step of n pieces, anywhere.
fn parameter(rng: &mut Rng) -> f32 {
    match rng.below(4) {
        0 => rng.pick(&[0.0, -0.0, 0.5, 1.0]),
        1 => {
            let n = 1 + rng.below(1024);
            rng.below(n + 1) as f32 * (n as f32).recip()
        }
        _ => (rng.next() >> 40) as f32 / 16_777_216.0,
    }
}

fn point(rng: &mut Rng) -> Weighted {
    let w = weight(rng);
    [coordinate(rng) * w, coordinate(rng) * w, w]
}

// Lengths about 2^-23, squares that vanish, the sizes of drawings, and what is no length.
const SIZES: [u32; 24] = [
    0x0000_0000, 0x0000_0001, 0x0080_0000, 0x1A00_0000, 0x2000_0000, 0x337F_FFFF, 0x3380_0000, 0x33B5_04F3, 0x33B5_04F4, 0x33FF_FFFF, 0x3400_0000,
    0x3400_0001, 0x3480_0000, 0x3A83_126F, 0x3D80_0000, 0x3F7F_FFFF, 0x3F80_0000, 0x4120_0000, 0x4780_0000, 0x4A80_0000, 0x5F00_0000, 0x7F7F_FFFF,
    0x7F80_0000, 0x7FC0_0000,
];

fn angle(text: &mut String, x: f32, y: f32) {
    let d = Point::new(x, y);
    let (known, angle) = match d.angle() {
        Some(angle) => (1, bits(angle)),
        None => (0, 0),
    };
    row(text, &[bits(x), bits(y), bits(d.len()), known, angle]);
}

fn angles(text: &mut String, rng: &mut Rng) {
    for s in SIZES.map(f32::from_bits) {
        for (x, y) in [(s, 0.0), (s, -0.0), (0.0, s), (-0.0, s), (s, s), (s, -s), (s, s / 2.0), (s / 2.0, s)] {
            angle(text, x, y);
            angle(text, -x, -y);
        }
    }
    for i in 0..420 {
        let (lo, hi) = [(-26, -21), (-12, 16), (-40, 40)][i % 3];
        let (x, y) = (float(rng, lo, hi), float(rng, lo, hi));
        angle(text, x, y);
        angle(text, -x, -y);
    }
}

/// Whether a primitive opens a spline by its angle.
type Opens = fn(Option<f32>, Option<f32>) -> bool;

fn change(text: &mut String, opens: Opens, a0: Option<f32>, a1: Option<f32>) {
    let words = |a: Option<f32>| a.map_or([0, 0], |a| [1, bits(a)]);
    let ([k0, b0], [k1, b1]) = (words(a0), words(a1));
    row(text, &[k0, b0, k1, b1, opens(a0, a1) as u32]);
}

fn changes(text: &mut String, rng: &mut Rng, opens: Opens) {
    let mut change = |a0, a1| change(text, opens, a0, a1);
    let pi = std::f32::consts::PI;
    let turns = [0.0, 0.000_999, 0.001, 0.001_001, 1.0, pi / 2.0, pi - 0.001, pi, pi + 0.0005, pi + 0.002, 1.5 * pi, 2.0 * pi - 0.002, 2.0 * pi];
    for from in [-pi, -pi / 2.0, -0.0, 0.0, 0.5, pi / 2.0, pi] {
        for turn in turns {
            change(Some(from), Some(from + turn));
            change(Some(from + turn), Some(from));
        }
        change(Some(from), None);
        change(None, Some(from));
    }
    change(None, None);
    for _ in 0..300 {
        let a0 = (rng.next() >> 40) as f32 / 16_777_216.0 * 2.0 * pi - pi;
        let turn = rng.pick(&turns) + float(rng, -12, -9);
        change(Some(a0), Some(a0 + turn));
    }
}

/// Pairs of angles next to where a difference of directions decides: turns of 0.001, π/2, π and 2π, and 0.001 beside the last two, with two f32 on either
/// side; returns, turns across ±π and any angles; and numbers that are none.
fn angle_pairs(rng: &mut Rng) -> Vec<(f32, f32)> {
    let pi = std::f32::consts::PI;
    let beside = |v: f32, by: i32| f32::from_bits((v.to_bits() as i32 + by) as u32);
    let mut pairs = vec![];
    for turn in [0.001, pi / 2.0, pi - 0.001, pi, pi + 0.001, 1.5 * pi, 2.0 * pi - 0.001, 2.0 * pi] {
        for by in [-2, -1, 0, 1, 2] {
            let t = beside(turn, by);
            pairs.extend([(0.0, t), (-0.0, -t), (pi, pi - t), (-pi, t - pi), (-0.5 * t, 0.5 * t)]);
        }
    }
    pairs.extend([(0.0, 0.0), (0.0, -0.0), (pi, pi), (-pi, pi), (pi, -pi), (beside(pi, -1), -pi), (-beside(pi, -1), pi)]);
    for a in SIZES.map(f32::from_bits) {
        pairs.extend([(a, 1.0), (-1.0, a), (a, -a), (a, a)]);
    }
    for _ in 0..120 {
        let a0 = rng.between(-std::f64::consts::PI, std::f64::consts::PI) as f32;
        let opposite = if a0 > 0.0 { a0 - pi } else { a0 + pi };
        let any = rng.between(-std::f64::consts::PI, std::f64::consts::PI) as f32;
        pairs.extend([(a0, any), (a0, opposite), (opposite, a0 + float(rng, -12, -9)), (pi - float(rng, -14, -10).abs(), float(rng, -14, -10).abs() - pi)]);
    }
    pairs
}

fn differences(text: &mut String, pairs: &[(f32, f32)], difference: fn(f32, f32) -> f32) {
    for (a0, a1) in pairs {
        row(text, &[bits(*a0), bits(*a1), bits(difference(*a0, *a1))]);
    }
}

fn changes_between(text: &mut String, pairs: &[(f32, f32)], opens: Opens) {
    for (a0, a1) in pairs {
        change(text, opens, Some(*a0), Some(*a1));
    }
}

fn numbers(text: &mut String, rng: &mut Rng, f: fn(f32) -> f32) {
    let mut xs = SIZES.map(f32::from_bits).to_vec();
    xs.extend([0.25, 0.39, 0.5, 0.67, 1.34, 2.0, 3.0, 100.0]);
    xs.extend((0..480).map(|i| if i % 4 == 0 { float(rng, -40, 70) } else { float(rng, -12, 12) }));
    for x in xs {
        row(text, &[bits(x), bits(f(x))]);
        row(text, &[bits(-x), bits(f(-x))]);
    }
}

/// The parameter and the points, then what the original gives.
fn evaluated(text: &mut String, t: f32, points: &[Weighted], gives: &[f32]) {
    let words: Vec<u32> = [t].iter().chain(points.iter().flatten()).chain(gives).map(|v| bits(*v)).collect();
    row(text, &words);
}

fn cubics(text: &mut String, rng: &mut Rng) {
    for i in 0..1024 {
        let mut points = [point(rng), point(rng), point(rng), point(rng)];
        if i % 8 == 1 {
            points = [points[0]; 4];
        }
        if i % 8 == 2 {
            points[1] = points[0];
            points[2] = points[3];
        }
        let t = parameter(rng);
        evaluated(text, t, &points, &screen::cubic_at(t, points));
    }
}

fn quads(text: &mut String, rng: &mut Rng) {
    for _ in 0..512 {
        let points = [point(rng), point(rng), point(rng)];
        let t = parameter(rng);
        evaluated(text, t, &points, &screen::quad_at(t, points));
    }
}

/// Each power of two, the first and last words of each case, and the words beside all of these.
fn boundary_words() -> Vec<u32> {
    let mut words = vec![];
    for base in [0u32, 0x7F80_0000, 0x7FC0_0000, 0x8000_0000, 0xFF80_0000, 0xFFC0_0000] {
        words.extend([base, base.wrapping_sub(1), base + 1]);
        for k in 0..32 {
            let w = base ^ (1 << k);
            words.extend([w, w.wrapping_sub(1), w.wrapping_add(1)]);
        }
    }
    words.extend([0x7FBF_FFFF, 0x7FFF_FFFF, 0xFFBF_FFFF, 0xFFFF_FFFF]);
    words.sort();
    words.dedup();
    words
}

fn unpacks(text: &mut String) {
    for word in boundary_words() {
        let [case, value, flag, again] = screen::unpacked(word);
        row(text, &[word, case, value, flag, again]);
    }
}

fn packs(text: &mut String) {
    let limit = 4_194_304u32;
    for i in [0, 1, 2, limit / 2, limit - 2, limit - 1, limit, limit + 1, 2 * limit - 1, 2 * limit, 0x7FFF_FFFF, 0x8000_0000, 0xFFFF_FFFF] {
        for (case, flag) in [(0, 0), (2, 0), (2, 1)] {
            row(text, &[case, i, flag, screen::packed(case, i, flag)]);
        }
    }
    for b in SIZES {
        for step in [f32::from_bits(b), -f32::from_bits(b)] {
            row(text, &[1, bits(step), 0, screen::packed(1, bits(step), 0)]);
        }
    }
}

pub fn fixed() -> String {
    let mut rng = Rng(4);
    let mut text = String::new();
    angles(&mut text, &mut rng);
    let mut again = rng.clone();
    changes(&mut text, &mut rng, screen::opens);
    numbers(&mut text, &mut rng, screen::curvature_of);
    numbers(&mut text, &mut rng, screen::inv_curvature_of);
    cubics(&mut text, &mut rng);
    quads(&mut text, &mut rng);
    unpacks(&mut text);
    packs(&mut text);
    // the knife's changes are of the same angles as the screen's, and of more
    changes(&mut text, &mut again, knife::opens);
    let pairs = angle_pairs(&mut Rng(9));
    changes_between(&mut text, &pairs, knife::opens);
    differences(&mut text, &pairs, screen::difference);
    differences(&mut text, &pairs, knife::difference);
    text
}
