//! Drawings that all calls accept: random ones of several kinds, and directed ones.

use crate::{
    call::{p, Call, P},
    rng::Rng,
    model::flatten::own_curvature,
    seen::Store,
};

pub const KINDS: [&str; 18] = [
    "whole numbers",
    "numbers to 100",
    "huge numbers",
    "tiny numbers",
    "patterns of every size",
    "lines with turns about 0.001",
    "doubled points and short legs",
    "rational curves",
    "rational cubics that fall short",
    "several contours",
    "smooth joints",
    "long drawings",
    "rounded shapes",
    "steps about a tenth of 0.0625",
    "slits and turns across ±π",
    "joints of straight and round",
    "long joined sweeps",
    "nests",
];

/// The last three kinds.
pub const JOINTS: usize = 15;
pub const SWEEPS: usize = 16;
pub const NESTS: usize = 17;

/// A random kind: those with very many points come an eighth as often as the others.
pub fn kind(rng: &mut Rng) -> usize {
    kind_below(rng, KINDS.len())
}

/// One of the first kinds.
pub fn kind_below(rng: &mut Rng, kinds: usize) -> usize {
    loop {
        let k = rng.below(kinds as u64) as usize;
        if !(k == 2 || k == 8 || k == 11) || rng.one_in(8) {
            return k;
        }
    }
}

/// Kind k of KINDS.
pub fn random(rng: &mut Rng, k: usize) -> Vec<Call> {
    match k {
        5 => turns(rng),
        8 => falls_short(rng),
        10 => smooth(rng),
        12 => rounded(rng),
        14 => out_and_back(rng),
        JOINTS => straight_and_round(rng),
        SWEEPS => joined_sweeps(rng),
        NESTS => nest(rng, true),
        _ => mixed(rng, k),
    }
}

fn coordinate(rng: &mut Rng, k: usize) -> f32 {
    match k {
        0 | 9 => rng.below(21) as f32 - if rng.one_in(2) { 0.0 } else { 10.0 },
        2 => match rng.below(8) {
            0 => 65_536.0 * rng.sign(),
            1 => f32::from_bits(65_536f32.to_bits() - 1) * rng.sign(),
            _ => rng.between(-65_536.0, 65_536.0) as f32,
        },
        3 => rng.between(-1.0, 1.0) as f32 * 2f32.powi(-(rng.below(34) as i32)),
        4 => match rng.below(24) {
            0 => 0.0,
            1 => -0.0,
            2 => f32::from_bits(rng.below(0x80_0000) as u32) * rng.sign(),
            _ => loop {
                let v = f32::from_bits(rng.next() as u32);
                if v.abs() <= 65_536.0 {
                    break v;
                }
            },
        },
        11 => match rng.below(4) {
            0 => rng.below(1000) as f32,
            1 => rng.between(-1000.0, 1000.0) as f32,
            2 => rng.below(4000) as f32 / 16.0,
            _ => rng.between(-30.0, 30.0) as f32,
        },
        13 => rng.below(33) as f32 / 160.0,
        _ => rng.between(-100.0, 100.0) as f32,
    }
}

fn weight(rng: &mut Rng) -> f32 {
    match rng.below(8) {
        0 => 1.0,
        1 => 1.0 / 64.0,
        2 => 64.0,
        3 => rng.pick(&[0.5, 2.0, std::f32::consts::FRAC_1_SQRT_2, 3.0, 0.25]),
        4 => f32::from_bits(0x3f80_0000 + rng.below(7) as u32 - 3),
        _ => (2f64.powf(rng.between(-6.0, 6.0)) as f32).clamp(1.0 / 64.0, 64.0),
    }
}

/// A point of this kind, or one that is related to the points before.
fn point(rng: &mut Rng, k: usize, before: &[P]) -> P {
    let last = before[before.len() - 1];
    let near = if k == 6 { 2 } else { 9 };
    if rng.one_in(near) {
        let other = before[rng.below(before.len() as u64) as usize];
        let e = f32::EPSILON;
        let q = match rng.below(10) {
            0..=2 => last,
            3 => other,
            4 => p(last.x + e * rng.between(-2.0, 2.0) as f32, last.y),
            5 => p(last.x, last.y + e * rng.between(-2.0, 2.0) as f32),
            6 => p(last.x + rng.between(-0.07, 0.07) as f32, last.y + rng.between(-0.07, 0.07) as f32),
            7 => p(last.x + 0.0625, last.y),
            8 => p(2.0 * last.x - other.x, 2.0 * last.y - other.y),
            _ => p(0.5 * (last.x + other.x), 0.5 * (last.y + other.y)),
        };
        if q.x.abs() <= 65_536.0 && q.y.abs() <= 65_536.0 {
            return q;
        }
    }
    if k == 6 && rng.one_in(3) {
        // about 2^-23 from the origin or from each other
        return p(rng.between(-3.0, 3.0) as f32 * f32::EPSILON, rng.between(-3.0, 3.0) as f32 * f32::EPSILON);
    }
    p(coordinate(rng, k), coordinate(rng, k))
}

fn mixed(rng: &mut Rng, k: usize) -> Vec<Call> {
    let n = match k {
        11 => 60 + rng.below(140),
        2 => 1 + rng.below(6),
        _ => 1 + rng.below(14),
    };
    let mut before = vec![p(0.0, 0.0)];
    let mut calls = Vec::new();
    for _ in 0..n {
        let pt = |rng: &mut Rng, before: &mut Vec<P>| {
            let q = point(rng, k, before);
            before.push(q);
            q
        };
        let rational = k == 7 || rng.one_in(6);
        let which = match k {
            9 => rng.pick(&[0, 0, 0, 1, 1, 2, 3, 4, 4]),
            7 => rng.pick(&[0, 1, 2, 2, 2, 3, 3, 3]),
            _ => rng.pick(&[0, 1, 1, 1, 1, 2, 2, 2, 2, 3, 3, 3, 4]),
        };
        let call = match which {
            0 => Call::Move(pt(rng, &mut before)),
            1 => Call::Line(pt(rng, &mut before)),
            2 if rational => Call::RatQuad(pt(rng, &mut before), pt(rng, &mut before), weight(rng)),
            2 => Call::Quad(pt(rng, &mut before), pt(rng, &mut before)),
            3 if rational => Call::RatCubic(pt(rng, &mut before), pt(rng, &mut before), pt(rng, &mut before), weight(rng), weight(rng)),
            3 => Call::Cubic(pt(rng, &mut before), pt(rng, &mut before), pt(rng, &mut before)),
            _ => Call::Build,
        };
        calls.push(call);
    }
    if !rng.one_in(5) {
        calls.push(Call::Build);
    }
    calls
}

/// Lines that turn by about 0.001, or not at all, or straight back.
fn turns(rng: &mut Rng) -> Vec<Call> {
    let mut calls = Vec::new();
    let mut at = p(coordinate(rng, 1), coordinate(rng, 1));
    calls.push(Call::Move(at));
    let mut angle = match rng.below(3) {
        0 => std::f64::consts::FRAC_PI_4 * rng.below(8) as f64,
        1 => (rng.below(360) as f64).to_radians(),
        _ => rng.between(0.0, 7.0),
    };
    for _ in 0..3 + rng.below(20) {
        let len = match rng.below(6) {
            0 => 0.0,
            1 => rng.between(0.0, 0.1),
            _ => rng.between(0.1, 60.0),
        };
        at = p((at.x as f64 + len * angle.cos()) as f32, (at.y as f64 + len * angle.sin()) as f32);
        if rng.one_in(4) {
            let over = rng.between(1.0, 20.0);
            let end = p((at.x as f64 + over * angle.cos()) as f32, (at.y as f64 + over * angle.sin()) as f32);
            calls.push(Call::Quad(at, end));
            at = end;
        } else {
            calls.push(Call::Line(at));
        }
        angle += match rng.below(6) {
            0 => 0.0,
            1 => std::f64::consts::PI,
            2 => rng.between(0.0009, 0.0011),
            3 => -rng.between(0.0009, 0.0011),
            4 => rng.between(-0.002, 0.002),
            _ => rng.between(-3.0, 3.0),
        };
    }
    calls.push(Call::Build);
    calls
}

/// Rational cubics with a number of pieces n whose n · (1/n) is below 1, and so fast an end that the gap is about 0.0625.
fn falls_short(rng: &mut Rng) -> Vec<Call> {
    let mut calls = Vec::new();
    let far = |rng: &mut Rng| match rng.below(4) {
        0 => p(65_536.0 * rng.sign(), 65_536.0 * rng.sign()),
        1 => p(65_536.0 * rng.sign(), 0.0),
        2 => p(rng.below(65_537) as f32 * rng.sign(), 0.0),
        _ => p(rng.between(-65_536.0, 65_536.0) as f32, rng.between(-65_536.0, 65_536.0) as f32),
    };
    if rng.one_in(2) {
        calls.push(Call::Move(far(rng)));
    }
    let mut from = p(0.0, 0.0);
    for _ in 0..1 + rng.below(3) {
        let (mut a, mut b, mut c) = (far(rng), far(rng), far(rng));
        let mut w: [f32; 2] = [rng.pick(&[1.0, 2.0, 3.0, 4.0, 8.0, 16.0]), rng.pick(&[1.0, 2.0, 3.0, 4.0, 5.0, 6.0, 8.0, 12.0, 16.0, 64.0])];
        // half of them are tried until their pieces fall short
        for _ in 0..60 {
            let (dx, dy) = (3.0 * b.x - from.x - 2.0 * a.x, 3.0 * b.y - from.y - 2.0 * a.y);
            let n = ((((dx * dx + dy * dy) / 1.6875) as f64).powf(1.0 / 6.0) as f32 * w[0].max(w[1]).max(1.0)).ceil().max(1.0);
            if n * (1.0 / n) < 1.0 && n <= 1024.0 {
                break;
            }
            (a, b, c) = (far(rng), far(rng), far(rng));
            w = [rng.pick(&[1.0, 2.0, 4.0]), rng.pick(&[1.0, 2.0, 3.0, 4.0, 5.0, 6.0, 8.0])];
        }
        calls.push(if w == [1.0, 1.0] { Call::Cubic(a, b, c) } else { Call::RatCubic(a, b, c, w[0], w[1]) });
        if rng.one_in(2) {
            let along = p(c.x + (c.x - b.x) * 0.01, c.y + (c.y - b.y) * 0.01);
            if along.x.abs() <= 65_536.0 && along.y.abs() <= 65_536.0 {
                calls.push(Call::Line(along));
                c = along;
            }
        }
        from = c;
    }
    calls.push(Call::Build);
    calls
}

/// Curves each of which goes on in the direction of the one before, so that a spline holds many quads.
fn smooth(rng: &mut Rng) -> Vec<Call> {
    let mut calls = Vec::new();
    let mut at = p(coordinate(rng, 1), coordinate(rng, 1));
    calls.push(Call::Move(at));
    let mut angle = rng.between(0.0, 7.0);
    let scale = rng.pick(&[0.2, 1.0, 5.0, 30.0, 300.0]);
    for _ in 0..2 + rng.below(14) {
        let l = scale * rng.between(0.2, 1.0);
        let bend = if rng.one_in(3) { 0.0 } else { rng.between(-1.5, 1.5) };
        match rng.below(6) {
            0 => {
                at = go(at, angle, l);
                calls.push(Call::Line(at));
            }
            1..=3 => {
                let a = go(at, angle, l);
                angle += bend;
                let b = go(a, angle, l);
                calls.push(if rng.one_in(5) { Call::RatQuad(a, b, weight(rng)) } else { Call::Quad(a, b) });
                at = b;
            }
            _ => {
                let a = go(at, angle, l);
                angle += bend;
                let b = go(a, angle, l);
                angle += rng.between(-1.0, 1.0);
                let c = go(b, angle, l);
                calls.push(if rng.one_in(5) { Call::RatCubic(a, b, c, weight(rng), weight(rng)) } else { Call::Cubic(a, b, c) });
                at = c;
            }
        }
    }
    calls.push(Call::Build);
    calls
}

/// Rounded rectangles and circles, by quads, rational quads and cubics.
fn rounded(rng: &mut Rng) -> Vec<Call> {
    let mut calls = Vec::new();
    for _ in 0..1 + rng.below(3) {
        let (x, y) = (rng.below(200) as f32, rng.below(200) as f32);
        let r = rng.pick(&[0.25, 1.0, 2.5, 10.0, 33.3, 120.0]);
        let side = if rng.one_in(3) { 0.0 } else { rng.below(100) as f32 };
        let turn = if rng.one_in(2) { 0.0 } else { rng.between(0.0, 7.0) };
        let kappa = 0.552_284_8;
        let how = rng.below(3);
        let at = |u: f32, v: f32| {
            let (s, c) = turn.sin_cos();
            p((x as f64 + u as f64 * c - v as f64 * s) as f32, (y as f64 + u as f64 * s + v as f64 * c) as f32)
        };
        calls.push(Call::Move(at(r, 0.0)));
        let corners = [(side, 0.0, 1.0, 0.0), (side, side, 0.0, 1.0), (0.0, side, -1.0, 0.0), (0.0, 0.0, 0.0, -1.0)];
        for (i, (cx, cy, ux, uy)) in corners.into_iter().enumerate() {
            // to the corner's start along u, then a quarter to v
            let (vx, vy): (f32, f32) = (-uy, ux);
            let (sx, sy) = (r + cx, r + cy);
            let start = (sx - vx * r, sy - vy * r);
            let end = (sx + ux * r, sy + uy * r);
            let corner = (sx + (ux - vx) * r, sy + (uy - vy) * r);
            if side > 0.0 || i == 0 {
                calls.push(Call::Line(at(start.0, start.1)));
            }
            match how {
                0 => calls.push(Call::Quad(at(corner.0, corner.1), at(end.0, end.1))),
                1 => calls.push(Call::RatQuad(at(corner.0, corner.1), at(end.0, end.1), std::f32::consts::FRAC_1_SQRT_2)),
                _ => {
                    let a = (start.0 + ux * r * kappa, start.1 + uy * r * kappa);
                    let b = (end.0 - vx * r * kappa, end.1 - vy * r * kappa);
                    calls.push(Call::Cubic(at(a.0, a.1), at(b.0, b.1), at(end.0, end.1)));
                }
            }
        }
        if rng.one_in(3) {
            calls.push(Call::Build);
        }
    }
    calls.push(Call::Build);
    calls
}

/// Lines and straight curves that often come back the way they went, or nearly so, or go on across ±π.
fn out_and_back(rng: &mut Rng) -> Vec<Call> {
    use std::f64::consts::{FRAC_PI_4, PI};
    let mut at = if rng.one_in(2) { p(0.0, 0.0) } else { p(coordinate(rng, 1), coordinate(rng, 1)) };
    let mut calls = vec![Call::Move(at)];
    let mut trail = vec![at];
    let mut angle = if rng.one_in(2) { FRAC_PI_4 * rng.below(8) as f64 } else { rng.between(0.0, 7.0) };
    let part = |a: P, b: P, t: f32| p(a.x + t * (b.x - a.x), a.y + t * (b.y - a.y));
    for _ in 0..2 + rng.below(14) {
        let from = trail[trail.len().saturating_sub(2)];
        let next = match rng.below(10) {
            0..=2 => from,
            3 => part(at, from, rng.between(0.0, 1.0) as f32),
            4 => at,
            _ => {
                angle = match rng.below(8) {
                    0 | 1 => angle + PI + rng.between(-0.0015, 0.0015),
                    2 => angle + rng.between(-0.0015, 0.0015),
                    3 | 4 => PI + rng.between(-0.0008, 0.0008),
                    5 => FRAC_PI_4 * rng.below(8) as f64,
                    _ => rng.between(0.0, 7.0),
                };
                let len = rng.between(0.1, 60.0);
                p((at.x as f64 + len * angle.cos()) as f32, (at.y as f64 + len * angle.sin()) as f32)
            }
        };
        calls.push(match rng.below(6) {
            0 => Call::Quad(part(at, next, 0.5), next),
            1 => Call::Cubic(part(at, next, 0.3), part(at, next, 0.7), next),
            2 if rng.one_in(4) => Call::Move(next),
            _ => Call::Line(next),
        });
        trail.push(next);
        at = next;
    }
    if !rng.one_in(5) {
        calls.push(Call::Build);
    }
    calls
}

/// Lines, quads and cubics that mostly go on in the direction before them, so that only their kinds part them: with lines without length, quads that are lines,
/// straight or dropped, and cubics so small that some of their pieces are lines.
fn straight_and_round(rng: &mut Rng) -> Vec<Call> {
    use std::f64::consts::FRAC_PI_4;
    let mut at = if rng.one_in(2) { p(0.0, 0.0) } else { p(coordinate(rng, 1), coordinate(rng, 1)) };
    let mut calls = vec![Call::Move(at)];
    let mut angle = if rng.one_in(2) { FRAC_PI_4 * rng.below(8) as f64 } else { rng.between(0.0, 7.0) };
    let scale = rng.pick(&[0.05, 1.0, 10.0, 300.0]);
    for _ in 0..2 + rng.below(16) {
        angle += match rng.below(12) {
            0 => rng.between(-0.0015, 0.0015),
            1 => rng.between(-3.2, 3.2),
            _ => 0.0,
        };
        let l = scale * rng.between(0.1, 1.0);
        let next = go(at, angle, l);
        let bend = rng.between(-1.5, 1.5);
        match rng.below(16) {
            0..=3 => {
                calls.push(Call::Line(next));
                at = next;
            }
            // without length, or about 2^-23 long
            4 => calls.push(Call::Line(at)),
            5 => {
                at = p(at.x + f32::EPSILON * rng.between(-1.5, 1.5) as f32, at.y);
                calls.push(Call::Line(at));
            }
            6..=8 => {
                angle += bend;
                at = go(next, angle, l);
                calls.push(if rng.one_in(5) { Call::RatQuad(next, at, weight(rng)) } else { Call::Quad(next, at) });
            }
            9 => {
                at = go(next, angle, l * rng.between(0.2, 2.0));
                calls.push(Call::Quad(next, at));
            }
            10 => {
                calls.push(if rng.one_in(2) { Call::Quad(at, next) } else { Call::Quad(next, next) });
                at = next;
            }
            11 => calls.push(if rng.one_in(3) { Call::RatQuad(at, at, weight(rng)) } else { Call::Quad(at, at) }),
            12 => {
                let a = next;
                let b = go(a, angle + bend, l);
                angle += 2.0 * bend;
                at = go(b, angle, l);
                calls.push(if rng.one_in(5) { Call::RatCubic(a, b, at, weight(rng), weight(rng)) } else { Call::Cubic(a, b, at) });
            }
            13 => {
                let tiny = |rng: &mut Rng| go(at, angle + if rng.one_in(2) { 0.0 } else { bend }, 0.01 * l * rng.unit());
                let (a, b, c) = (tiny(rng), tiny(rng), tiny(rng));
                calls.push(Call::RatCubic(a, b, c, rng.pick(&[1.0, 8.0, 64.0]), rng.pick(&[1.0, 16.0, 64.0])));
                at = c;
            }
            14 if rng.one_in(3) => {
                // to where it is, or elsewhere
                at = if rng.one_in(2) { at } else { go(next, angle, l) };
                calls.push(Call::Move(at));
            }
            14 if rng.one_in(3) => {
                calls.push(Call::Build);
                at = calls.iter().rev().find_map(|c| if let Call::Move(a) = c { Some(*a) } else { None }).unwrap();
            }
            _ => {
                calls.push(Call::Line(next));
                at = next;
            }
        }
    }
    if !rng.one_in(5) {
        calls.push(Call::Build);
    }
    calls
}

/// `len` from a point on.
fn go(at: P, angle: f64, len: f64) -> P {
    p((at.x as f64 + len * angle.cos()) as f32, (at.y as f64 + len * angle.sin()) as f32)
}

/// A quad that goes on from `at` in this direction, then turns, and is just so curved that a whole sum grows by 1 with it: its own curvature is above 1, and the rest
/// is lost in rounding. Where none is found there is none.
fn by_one(rng: &mut Rng, sum: f32, at: P, angle: f64, turn: f64) -> Option<(P, P)> {
    let quad = |len: f64, wobble: f64| {
        let control = go(at, angle, len);
        (control, go(control, angle + turn, len * (1.0 + wobble)))
    };
    let own = |(a, b): (P, P)| own_curvature(at, a, b);
    // a curvature grows with the root of the lengths
    let len = (own(quad(1.0, 0.0)) as f64).powi(-2);
    if !(0.01..1000.0).contains(&len) {
        return None;
    }
    let tries = (0..400).map(|_| quad(len * (1.0 + rng.between(-1e-6, 2e-6)), rng.between(-1e-6, 1e-6)));
    tries.into_iter().find(|q| own(*q) > 1.0 && sum + own(*q) == sum + 1.0)
}

/// Straight quads in a row.
fn straights(at: &mut P, angle: f64, len: f64, n: u64) -> Vec<Call> {
    let mut next = || {
        let middle = go(*at, angle, len);
        *at = go(middle, angle, len);
        Call::Quad(middle, *at)
    };
    (0..n).map(|_| next()).collect()
}

/// Sweeps of straight quads that run into one another, each with a whole sum, and mostly a last quad or two by which that grows by 1. The next sweep begins with a
/// turn, after a line, a line without length or a Move, or smoothly after a line.
fn joined_sweeps(rng: &mut Rng) -> Vec<Call> {
    let mut at = if rng.one_in(2) { p(0.0, 0.0) } else { p(coordinate(rng, 1), coordinate(rng, 1)) };
    let mut calls = vec![Call::Move(at)];
    let mut angle = rng.between(0.0, 7.0);
    for _ in 0..2 + rng.below(5) {
        let n = if rng.one_in(24) { 100 + rng.below(300) } else { 1 + rng.below(8) };
        let len = rng.between(0.05, 2.0);
        calls.extend(straights(&mut at, angle, len, n));
        for i in 0..rng.below(3) {
            let turn = rng.between(0.2, 1.2) * rng.sign() as f64;
            let Some((a, b)) = by_one(rng, (2 * n + i) as f32, at, angle, turn) else { break };
            calls.push(Call::Quad(a, b));
            (at, angle) = (b, angle + turn);
        }
        match rng.below(8) {
            0 => {
                at = go(at, angle, len);
                calls.push(Call::Line(at));
            }
            1 => {
                angle += rng.between(0.5, 5.5);
                at = go(at, angle, len);
                calls.push(Call::Line(at));
            }
            2 => calls.push(Call::Line(at)),
            3 => {
                at = if rng.one_in(2) { at } else { go(at, angle, 3.0) };
                calls.push(Call::Move(at));
            }
            _ => angle += rng.between(0.5, 5.5),
        }
    }
    if !rng.one_in(5) {
        calls.push(Call::Build);
    }
    calls
}

/// What has no angle where it starts and ends: lines and quads without length, or about 2^-23 long.
fn without_angle(rng: &mut Rng, at: &mut P) -> Vec<Call> {
    let mut near = |at: P| p(at.x + f32::EPSILON * rng.between(-1.2, 1.2) as f32, at.y);
    let (a, b) = (near(*at), near(*at));
    let from = *at;
    match rng.below(12) {
        0..=2 => vec![Call::Line(from)],
        3 => vec![Call::Line(from), Call::Line(from)],
        4 => vec![Call::Quad(from, from)],
        5 => vec![Call::Line(from), Call::Quad(from, from)],
        6 => vec![Call::RatQuad(from, from, weight(rng)), Call::Cubic(from, from, from), Call::Line(from)],
        7 => {
            *at = a;
            vec![Call::Line(a)]
        }
        8 => {
            *at = b;
            vec![Call::Quad(a, b)]
        }
        _ => vec![],
    }
}

/// Where a contour goes from `at` in this direction: nowhere, or by a few lines, quads or cubics, or a sweep. Gives the last direction.
fn piece(rng: &mut Rng, at: &mut P, angle: f64, calls: &mut Vec<Call>) -> f64 {
    let mut angle = angle;
    let len = rng.pick(&[0.1, 1.0, 10.0]) * rng.between(0.2, 1.0);
    match rng.below(8) {
        0 => return angle,
        1 => {
            let n = 1 + rng.below(4);
            calls.extend(straights(at, angle, len, n));
            if let Some((a, b)) = by_one(rng, 2.0 * n as f32, *at, angle, 0.7) {
                calls.push(Call::Quad(a, b));
                (*at, angle) = (b, angle + 0.7);
            }
            return angle;
        }
        _ => {}
    }
    for _ in 0..1 + rng.below(4) {
        let a = go(*at, angle, len);
        let turn = rng.between(-2.0, 2.0);
        let b = go(a, angle + turn, len);
        match rng.below(8) {
            0 => calls.push(Call::Quad(a, b)),
            1 => calls.push(Call::RatQuad(a, b, weight(rng))),
            2 => calls.push(Call::Cubic(a, b, go(b, angle + turn, len))),
            _ => calls.push(Call::Line(a)),
        }
        (*at, angle) = match calls[calls.len() - 1] {
            Call::Line(_) => (a, angle),
            Call::Cubic(.., c) => (c, angle + turn),
            _ => (b, angle + turn),
        };
        if rng.one_in(2) {
            angle += turn;
        }
    }
    angle
}

/// Many contours, of which a good part begins with what has no angle and then goes on as the one before ended, or nearly so, or back. `closes` says whether each is
/// closed by a line, whose direction then is the last.
fn nest(rng: &mut Rng, closes: bool) -> Vec<Call> {
    use std::f64::consts::{FRAC_PI_2, PI};
    let mut calls = Vec::new();
    let mut last = FRAC_PI_2 * rng.below(4) as f64;
    for _ in 0..if rng.one_in(20) { 20 + rng.below(60) } else { 2 + rng.below(5) } {
        let start = if rng.one_in(3) { p(0.0, 0.0) } else { p(coordinate(rng, 0), coordinate(rng, 0)) };
        let mut at = start;
        calls.push(Call::Move(at));
        for _ in 0..rng.below(3) {
            calls.extend(without_angle(rng, &mut at));
        }
        let angle = match rng.below(5) {
            0 => last,
            1 => last + PI,
            2 => last + rng.between(-0.002, 0.002),
            3 => FRAC_PI_2 * rng.below(4) as f64,
            _ => rng.between(0.0, 7.0),
        };
        let out = piece(rng, &mut at, angle, &mut calls);
        last = if closes && at != start { ((start.y - at.y) as f64).atan2((start.x - at.x) as f64) } else { out };
    }
    if !rng.one_in(5) {
        calls.push(Call::Build);
    }
    calls
}

/// The store of a nest made by hand: no contour is closed, and some Moves have nothing after them.
pub fn nest_by_hand(rng: &mut Rng) -> Store {
    let mut s = Store::default();
    let calls = nest(rng, false);
    for call in calls.iter().filter(|call| **call != Call::Build) {
        for _ in 0..if matches!(call, Call::Move(_)) && rng.one_in(6) { 2 } else { 1 } {
            append(&mut s, call);
        }
    }
    s.opening = rng.below(s.x.len() as u64) as usize;
    s
}

/// A call's points and command, as they are stored.
fn append(s: &mut Store, call: &Call) {
    let weights = match *call {
        Call::RatQuad(_, _, w) => vec![w, 1.0],
        Call::RatCubic(.., v, w) => vec![v, w, 1.0],
        _ => vec![1.0; call.points().len()],
    };
    for (q, w) in call.points().iter().zip(&weights) {
        s.x.push(q.x * w);
        s.y.push(q.y * w);
    }
    s.commands.push(if let Call::Move(_) = call { 0 } else { weights.len() as u8 });
    s.weight.extend(weights);
}

/// Straight quads of length 1 in a row: the sum 65,536 is accepted, one quad more gives answer 8. Too long for the fixed lists.
pub fn long_rows() -> Vec<Vec<Call>> {
    let row = |n: u16| (0..n).map(|i| Call::Quad(p(i as f32 + 0.5, 0.0), p(i as f32 + 1.0, 0.0))).collect();
    vec![row(32_768), row(32_769)]
}

/// A drawing as it is, and built.
fn add_both(out: &mut Vec<Vec<Call>>, calls: Vec<Call>) {
    let built = [&calls[..], &[Call::Build]].concat();
    out.push(calls);
    out.push(built);
}

/// Drawings made for one rule each, the slits, the joints of straight and round, the sweeps, and the nests.
pub fn directed() -> Vec<Vec<Call>> {
    let mut out = by_rule();
    out.extend(slits());
    out.extend(joints());
    out.extend(sweeps());
    out.extend(nests());
    out
}

/// Drawings made for one rule each.
pub fn by_rule() -> Vec<Vec<Call>> {
    use Call::*;
    let mut out: Vec<Vec<Call>> = Vec::new();
    let mut add = |calls: Vec<Call>| add_both(&mut out, calls);

    // P1 to P8
    add(vec![]);
    add(vec![Line(p(10.0, 0.0)), Line(p(10.0, 10.0)), Line(p(0.0, 10.0))]);
    add(vec![Move(p(0.0, 0.0)), Line(p(10.0, 0.0)), Line(p(10.0, 0.0)), Line(p(10.0, 10.0))]);
    add(vec![Line(p(10.0, 0.0)), Line(p(4.0, 0.0))]);
    add(vec![Quad(p(5.0, 0.0), p(10.0, 0.0))]);
    add(vec![Quad(p(0.0, 0.0), p(0.0, 0.0))]);
    add(vec![Move(p(1.0, 1.0)), Move(p(2.0, 2.0))]);

    // chords at all angles, those of forty-five degrees among them: lines, quarter rounds by quads and by cubics
    for degrees in 0..360 {
        let a = (degrees as f64).to_radians();
        for r in [0.05, 1.0, 10.0, 1000.0] {
            let on = |u: f64, v: f64| p((u * a.cos() - v * a.sin()) as f32, (u * a.sin() + v * a.cos()) as f32);
            add(vec![Line(on(r, 0.0)), Line(on(2.0 * r, 0.0)), Line(on(r, r))]);
            add(vec![Quad(on(r, 0.0), on(r, r))]);
            let k = 0.552_284_75 * r;
            add(vec![Cubic(on(k, 0.0), on(r, r - k), on(r, r))]);
        }
    }
    // exact diagonals
    for (sx, sy) in [(1.0f32, 1.0f32), (1.0, -1.0), (-1.0, 1.0), (-1.0, -1.0)] {
        for r in [1.0f32, 0.1, 3.7, 255.0, 65_536.0] {
            for e in [0i32, 1, -1] {
                let r2 = f32::from_bits((r.to_bits() as i32 + e) as u32).min(65_536.0);
                add(vec![Line(p(sx * r, sy * r2)), Line(p(0.0, 0.0))]);
                add(vec![Quad(p(sx * r, 0.0), p(sx * r, sy * r2))]);
                add(vec![Cubic(p(sx * r * 0.552_28, 0.0), p(sx * r, sy * r2 * 0.447_72), p(sx * r, sy * r2))]);
            }
        }
    }
    // doubled points, short legs about 2^-23, and reversals
    let e = f32::EPSILON;
    for d in [0.0, e * 0.5, f32::from_bits(e.to_bits() - 1), e, f32::from_bits(e.to_bits() + 1), 2.0 * e] {
        for (x, y) in [(d, 0.0), (0.0, d), (-d, 0.0), (0.0, -d), (d, d), (-0.0, d)] {
            add(vec![Line(p(x, y)), Line(p(10.0, 0.0))]);
            add(vec![Quad(p(x, y), p(10.0, 0.0)), Line(p(10.0, 10.0))]);
            add(vec![Quad(p(10.0, 0.0), p(10.0 + x, y)), Line(p(10.0, 10.0))]);
            add(vec![Quad(p(10.0, 0.0), p(x, y)), Line(p(10.0, 10.0))]);
            add(vec![Quad(p(x, y), p(x + x, y + y)), Line(p(10.0, 10.0))]);
            add(vec![Line(p(10.0, 0.0)), Quad(p(10.0 + x, y), p(10.0, 10.0))]);
            add(vec![Cubic(p(x, y), p(x, y), p(x, y))]);
            add(vec![Cubic(p(x, y), p(10.0, 0.0), p(10.0, 10.0)), Line(p(0.0, 5.0))]);
            add(vec![Line(p(5.0, 5.0)), Move(p(x, y)), Line(p(1.0, 0.0))]);
            add(vec![Line(p(1.0, 0.0)), Quad(p(1.0, 0.0), p(1.0, 0.0)), Line(p(1.0, 1.0))]);
        }
    }
    // a waiting mark that a dropped quad leaves waiting
    add(vec![Line(p(4.0, 0.0)), Move(p(7.0, 7.0)), Quad(p(7.0, 7.0), p(7.0, 7.0)), Line(p(9.0, 7.0)), Line(p(9.0, 9.0))]);
    // turns about 0.001
    for i in -40..=40 {
        let a = 0.001 * (1.0 + i as f64 * 1e-3);
        for base in [0.0, 0.785_398_163_397, 1.0, 1.570_796_326_8, 3.1, -2.5] {
            let (s, c) = (base as f64).sin_cos();
            let (s2, c2) = (base + a).sin_cos();
            add(vec![Line(p((100.0 * c) as f32, (100.0 * s) as f32)), Line(p((100.0 * c + 90.0 * c2) as f32, (100.0 * s + 90.0 * s2) as f32))]);
        }
    }
    // whole sums: straight quads in a row
    for n in 1..12 {
        add((1..=n).map(|i| Quad(p(10.0 * i as f32 - 5.0, 0.0), p(10.0 * i as f32, 0.0))).collect());
        add((1..=n).map(|i| if i % 2 == 0 { Line(p(10.0 * i as f32, 0.0)) } else { Quad(p(10.0 * i as f32 - 5.0, 0.0), p(10.0 * i as f32, 0.0)) }).collect());
    }
    // the cubics of docs/DIFFERENCES.md
    for c in DIFFERENT {
        add(vec![Cubic(p(c[0], c[1]), p(c[2], c[3]), p(c[4], c[5]))]);
    }
    add(vec![rational_difference()]);
    // cubics of every number of pieces, those that fall short among them
    for n in 1..=76 {
        let x = (1.6875f64 * (n as f64 - 0.5).powi(6)).sqrt() / 3.0;
        if x <= 65_536.0 {
            add(vec![Cubic(p(0.0, 0.0), p(x as f32, 0.0), p(x as f32, 7.0)), Line(p(1.0, 8.0))]);
            add(vec![Cubic(p(0.0, 0.0), p(0.0, x as f32), p(-65_536.0, 0.0)), Line(p(1.0, 8.0))]);
        }
    }
    for n in [41u32, 47, 55, 61, 82, 83, 94, 97, 107, 109, 110, 115, 121, 122] {
        for w in [1.0f32, 2.0, 4.0, 8.0, 16.0, 64.0] {
            let r = (n as f64 - 0.5) / w as f64;
            let x = (1.6875f64 * r.powi(6)).sqrt() / 3.0;
            if x <= 65_536.0 {
                for end in [-65_536.0f32, -21_845.0, 0.0, 1000.0, 65_536.0] {
                    add(vec![RatCubic(p(0.0, 0.0), p(x as f32, 0.0), p(end, 0.0), 1.0, w), Line(p(0.0, 9.0))]);
                    add(vec![RatCubic(p(0.0, 0.0), p(x as f32, 0.0), p(0.0, end), w, w), Line(p(9.0, 9.0))]);
                }
            }
        }
    }
    // weights and coordinates at their limits
    for w in [1.0 / 64.0, f32::from_bits(0x3c80_0001), 1.0, f32::from_bits(0x3f80_0001), f32::from_bits(0x3f7f_ffff), f32::from_bits(0x427f_ffff), 64.0] {
        for s in [1.0f32, 0.001, 65_536.0, 1e-30] {
            add(vec![RatQuad(p(s, 0.0), p(s, s), w)]);
            add(vec![RatQuad(p(s, -s), p(-s, s), w), RatQuad(p(0.0, s), p(s, s), w)]);
            add(vec![RatCubic(p(s, 0.0), p(s, s), p(0.0, s), w, 1.0)]);
            add(vec![RatCubic(p(s, 0.0), p(0.0, s), p(s, s), 1.0, w)]);
        }
    }
    // P12 by drawings: a last sum that a rounding makes one more than the sum before, so that the last quad gets no step and the next spline's steps stray
    for calls in stray() {
        add(calls);
    }
    // drawing on after a build, and moves everywhere
    add(vec![Line(p(3.0, 0.0)), Build, Build, Line(p(3.0, 4.0)), Build, Move(p(1.0, 1.0)), Build, Line(p(2.0, 1.0)), Move(p(0.0, 0.0)), Move(p(5.0, 5.0))]);
    add(vec![Line(p(3.0, 0.0)), Line(p(0.0, -0.0)), Move(p(1.0, 1.0)), Line(p(2.0, 2.0)), Line(p(1.0, 1.0)), Move(p(3.0, 3.0)), Quad(p(4.0, 3.0), p(4.0, 4.0))]);
    out
}

/// Slits, which go out and come back, and turns across ±π: what the knife compares around the full turn.
/// The first are the examples Slit and Wrap, and P5 and P6 again.
pub fn slits() -> Vec<Vec<Call>> {
    use Call::*;
    let mut out: Vec<Vec<Call>> = Vec::new();
    let mut add = |calls: Vec<Call>| add_both(&mut out, calls);
    add([(10.0, 0.0), (10.0, 5.0), (5.0, 5.0), (10.0, 5.0), (10.0, 10.0), (0.0, 10.0)].map(|(x, y)| Line(p(x, y))).to_vec());
    add(vec![Line(p(-10.0, f32::from_bits(0x3a80_0000))), Line(p(-20.0, 0.0))]);
    add(vec![Line(p(10.0, 0.0)), Line(p(4.0, 0.0))]);
    add(vec![Quad(p(5.0, 0.0), p(10.0, 0.0))]);

    let slanted = [(3.0f32, 4.0f32), (-7.0, 2.0), (0.3, -0.9), (-0.001, -1.0), (-1.0, 0.0001), (-1.0, -0.0001)];
    let straight = [(1.0f32, 0.0f32), (0.0, 1.0), (-1.0, 0.0), (0.0, -1.0), (1.0, 1.0), (-1.0, 1.0), (1.0, -1.0), (-1.0, -1.0)];
    for (x, y) in straight.into_iter().chain(slanted) {
        for r in [0.1f32, 1.0, 10.0, 777.7, 3500.0] {
            let on = |t: f32, u: f32| p(r * (t * x - u * y), r * (t * y + u * x));
            let at = |t: f32| on(t, 0.0);
            // all the way back, part of it, and beyond
            for back in [0.0, 0.4, 0.99, -0.7] {
                add(vec![Line(at(1.0)), Line(at(back))]);
                add(vec![Line(at(1.0)), Line(at(back)), Line(on(back, 1.0))]);
            }
            add(vec![Line(at(1.0)), Line(at(0.25)), Line(at(0.75)), Line(at(0.5))]);
            // a doubled point at the far end: lines, quads that are dropped or are lines, and a leg without an angle
            add(vec![Line(at(1.0)), Line(at(1.0)), Line(at(0.0))]);
            add(vec![Line(at(1.0)), Line(at(1.0)), Line(at(1.0)), Line(at(0.5)), Line(at(0.25))]);
            add(vec![Line(at(1.0)), Quad(at(1.0), at(1.0)), Line(at(0.5))]);
            add(vec![Line(at(1.0)), Quad(at(1.0), at(0.5))]);
            add(vec![Line(at(1.0)), Quad(at(0.5), at(0.5))]);
            add(vec![Line(at(1.0)), Line(at(1.0 + f32::EPSILON)), Line(at(0.5))]);
            // out and back by curves
            add(vec![Quad(at(0.5), at(1.0)), Quad(at(0.5), at(0.0))]);
            add(vec![Line(at(1.0)), Quad(at(0.75), at(0.5)), Line(at(0.25))]);
            add(vec![Quad(at(0.5), at(1.0)), Line(at(0.5))]);
            add(vec![RatQuad(at(0.5), at(1.0), 2.0), RatQuad(at(0.5), at(0.0), 0.5)]);
            add(vec![Cubic(at(0.3), at(0.7), at(1.0)), Cubic(at(0.7), at(0.3), at(0.0))]);
            add(vec![Cubic(at(0.3), at(0.7), at(1.0)), Line(at(0.5))]);
            add(vec![Line(at(1.0)), Cubic(at(0.7), at(0.3), at(0.0))]);
            // curves that fold back along their own line, the cubics by several pieces
            add(vec![Quad(at(1.0), at(0.0)), Line(at(2.0))]);
            add(vec![Quad(at(1.0), at(0.3)), Quad(at(-0.5), at(0.2))]);
            add(vec![Cubic(at(2.0), at(-1.0), at(0.5))]);
            add(vec![Cubic(at(1.0), at(1.0), at(0.0)), Cubic(at(1.0), at(-1.0), at(0.0))]);
            add(vec![RatCubic(at(2.0), at(-1.0), at(0.5), 3.0, 0.5), Line(at(1.0))]);
            // rounds that are left the way they came, and entered the way the line went
            add(vec![Quad(at(1.0), on(1.0, 1.0)), Line(at(1.0))]);
            add(vec![Line(at(1.0)), Quad(at(0.0), on(0.0, 1.0))]);
            add(vec![Cubic(at(0.5), on(1.0, 0.5), on(1.0, 1.0)), Cubic(on(1.0, 0.5), at(0.5), at(0.0))]);
            // a slit in an outline: from a side, from a corner, with a doubled end, and in a contour of its own
            let side = [Line(at(2.0)), Line(on(2.0, 1.0))];
            let rest = [Line(on(2.0, 2.0)), Line(on(0.0, 2.0))];
            for slit in [&[on(1.0, 1.0), on(2.0, 1.0)][..], &[on(1.0, 0.5), on(1.0, 0.5), on(2.0, 1.0)], &[on(1.0, 1.0), on(1.5, 1.0), on(2.0, 1.0)]] {
                let slit: Vec<Call> = slit.iter().map(|q| Line(*q)).collect();
                add([&side[..], &slit, &rest].concat());
                add([&side[..1], &slit, &rest].concat());
                add([&side[..], &rest, &[Move(on(0.5, 0.5)), Line(on(1.5, 0.5)), Line(on(0.5, 0.5))]].concat());
            }
        }
    }

    let go = |q: P, r: f64, a: f64| p((q.x as f64 + r * a.cos()) as f32, (q.y as f64 + r * a.sin()) as f32);
    let pi = std::f64::consts::PI;
    let o = p(0.0, 0.0);
    for i in -40..=40 {
        let off = 0.001 * (1.0 + i as f64 * 1e-3);
        // returns that are off by about 0.001, to either side
        for base in [0.0, pi / 4.0, 1.0, pi / 2.0, 3.1, pi, -2.5] {
            for off in [off, -off] {
                let far = go(o, 100.0, base);
                add(vec![Line(far), Line(go(far, 90.0, base + pi + off))]);
            }
        }
        // turns of about 0.001 across ±π, up and down
        for part in [0.0, 0.1, 0.5, 1.0] {
            for sign in [1.0, -1.0] {
                let mid = go(o, 100.0, sign * (pi - part * off));
                let end = go(mid, 90.0, -sign * (pi - (1.0 - part) * off));
                add(vec![Line(mid), Line(end)]);
                add(vec![Quad(go(o, 50.0, sign * (pi - part * off)), mid), Line(end)]);
            }
        }
    }
    // turns, across ±π too, and returns so close to 0.001 that the last digits count: π - |π - turn| has too few
    for i in -60..=60 {
        let y = (0.1 * (1.0 + i as f64 * 1e-5)) as f32;
        for y in [y, -y] {
            add(vec![Line(p(100.0, 0.0)), Line(p(200.0, y))]);
            add(vec![Line(p(100.0, y)), Line(p(200.0, y))]);
            add(vec![Line(p(-100.0, 0.0)), Line(p(-200.0, y))]);
            add(vec![Line(p(100.0, 0.0)), Line(p(0.0, y))]);
            add(vec![Line(p(y, 100.0)), Quad(p(y, 150.0), p(y, 200.0))]);
        }
    }
    // smaller and larger turns across ±π; from π to -π a turn is 2π exactly
    for y in [1e-30f32, 1e-10, 1e-6, 1e-4, 0.001, 0.0049, 0.0051, 0.01, 0.1, 1.0, 9.0] {
        for y in [y, -y] {
            add(vec![Line(p(-10.0, y)), Line(p(-20.0, 0.0))]);
            add(vec![Line(p(-10.0, y)), Line(p(-10.0, y)), Line(p(-20.0, 0.0))]);
            add(vec![Line(p(-10.0, 0.0)), Line(p(-20.0, -y)), Line(p(-30.0, 0.0))]);
            add(vec![Quad(p(-5.0, 0.5 * y), p(-10.0, y)), Quad(p(-15.0, 0.5 * y), p(-20.0, 0.0))]);
            add(vec![Cubic(p(-5.0, 0.0), p(-10.0, y), p(-20.0, y)), Cubic(p(-30.0, y), p(-35.0, 0.0), p(-40.0, 0.0))]);
        }
    }
    out
}

/// Joints of straight and round: lines that run smoothly into quads and back, and all that counts as one or the other. The first are the examples.
pub fn joints() -> Vec<Vec<Call>> {
    use Call::*;
    let mut out: Vec<Vec<Call>> = Vec::new();
    let mut add = |calls: Vec<Call>| add_both(&mut out, calls);
    add(vec![Line(p(4.0, 0.0)), Quad(p(5.0, 0.0), p(5.0, 1.0))]);
    add(vec![Line(p(10.0, 0.0)), Quad(p(12.0, 0.0), p(12.0, 2.0)), Quad(p(12.0, 4.0), p(10.0, 4.0)), Line(p(0.0, 4.0))]);
    // out and back along a line: of its four pieces the two that meet at the far end are lines
    add(vec![Cubic(p(50.0, 0.0), p(50.0, 0.0), p(0.0, 0.0))]);
    // what goes on straight from 10 to 20, between a line or a quad before and a line or a quad after
    let x = |t: f32| p(t, 0.0);
    let between: [&[Call]; 14] = [
        &[Line(x(20.0))],
        &[Quad(x(15.0), x(20.0))],
        &[Line(x(10.0)), Line(x(20.0))],
        &[Line(x(10.0)), Quad(x(15.0), x(20.0))],
        &[Line(x(20.0)), Line(x(20.0))],
        &[Quad(x(15.0), x(20.0)), Line(x(20.0))],
        &[Quad(x(10.0), x(10.0)), Line(x(20.0))],
        &[Quad(x(10.0), x(10.0)), Quad(x(15.0), x(20.0))],
        &[Line(x(20.0)), Quad(x(20.0), x(20.0))],
        &[Quad(x(15.0), x(20.0)), Quad(x(20.0), x(20.0)), Quad(x(20.0), x(20.0))],
        &[Quad(x(10.0), x(20.0))],
        &[Quad(x(20.0), x(20.0))],
        &[Cubic(x(13.0), x(17.0), x(20.0))],
        &[RatQuad(x(10.0), x(20.0), 2.0), Move(x(20.0))],
    ];
    for middle in between {
        for before in [&[Line(x(10.0))][..], &[Quad(x(5.0), x(10.0))]] {
            for after in [&[Line(x(30.0))][..], &[Quad(x(25.0), x(30.0))], &[Quad(x(30.0), p(30.0, 10.0)), Line(p(30.0, 20.0))]] {
                add([before, middle, after].concat());
            }
        }
    }

    let slanted = [(3.0f32, 4.0f32), (-7.0, 2.0), (0.3, -0.9), (-1.0, 0.0001)];
    let straight = [(1.0f32, 0.0f32), (0.0, 1.0), (-1.0, 0.0), (0.0, -1.0), (1.0, 1.0), (-1.0, 1.0)];
    for (x, y) in straight.into_iter().chain(slanted) {
        for r in [0.1f32, 1.0, 10.0, 777.7] {
            let on = |t: f32, u: f32| p(r * (t * x - u * y), r * (t * y + u * x));
            let at = |t: f32| on(t, 0.0);
            // straight into round, and back
            add(vec![Line(at(1.0)), Quad(at(2.0), on(2.0, 1.0))]);
            add(vec![Quad(at(1.0), on(1.0, 1.0)), Line(on(1.0, 2.0))]);
            add(vec![Line(at(1.0)), Quad(at(2.0), on(2.0, 1.0)), Line(on(2.0, 2.0)), Quad(on(2.0, 3.0), on(1.0, 3.0)), Line(on(0.0, 3.0))]);
            add(vec![Quad(at(1.0), on(1.0, 1.0)), Line(on(1.0, 2.0)), Quad(on(1.0, 3.0), on(2.0, 3.0))]);
            add(vec![Line(at(1.0)), Cubic(at(1.6), on(2.0, 0.4), on(2.0, 1.0)), Line(on(2.0, 2.0))]);
            add(vec![Line(at(1.0)), RatQuad(at(2.0), on(2.0, 1.0), std::f32::consts::FRAC_1_SQRT_2), Line(on(2.0, 2.0))]);
            // belt ends and stadiums, by quads, rational quads and cubics
            let half = |how: u32, t: f32, u: f32, s: f32| {
                let (k, w) = (0.552_284_75f32, std::f32::consts::FRAC_1_SQRT_2);
                match how {
                    0 => vec![Quad(on(t + s, u), on(t + s, u + s)), Quad(on(t + s, u + 2.0 * s), on(t, u + 2.0 * s))],
                    1 => vec![RatQuad(on(t + s, u), on(t + s, u + s), w), RatQuad(on(t + s, u + 2.0 * s), on(t, u + 2.0 * s), w)],
                    _ => vec![
                        Cubic(on(t + k * s, u), on(t + s, u + s - k * s), on(t + s, u + s)),
                        Cubic(on(t + s, u + s + k * s), on(t + k * s, u + 2.0 * s), on(t, u + 2.0 * s)),
                    ],
                }
            };
            for how in 0..3 {
                add([vec![Line(at(5.0))], half(how, 5.0, 0.0, 1.0), vec![Line(on(0.0, 2.0))]].concat());
                add([vec![Line(at(5.0))], half(how, 5.0, 0.0, 1.0), vec![Line(on(0.0, 2.0))], half(how, 0.0, 2.0, -1.0)].concat());
                // with a doubled point at each joint
                add([vec![Line(at(5.0)), Line(at(5.0))], half(how, 5.0, 0.0, 1.0), vec![Line(on(5.0, 2.0)), Line(on(0.0, 2.0))]].concat());
                add([vec![Line(at(5.0)), Quad(at(5.0), at(5.0))], half(how, 5.0, 0.0, 1.0), vec![Quad(on(5.0, 2.0), on(5.0, 2.0)), Line(on(0.0, 2.0))]].concat());
            }
            // cubics out and back along a line, some of 2, 4, 6 and 8 pieces, of which the middle ones are lines
            for far in [5.0, 50.0, 250.0, 600.0] {
                let (a, b) = (at(far / r), at(-1.0));
                add(vec![Cubic(a, a, at(0.0))]);
                add(vec![Move(b), Line(at(0.0)), Cubic(a, a, at(0.0)), Line(b)]);
                add(vec![Move(b), Quad(at(-0.5), at(0.0)), Cubic(a, a, at(0.0)), Quad(at(-0.5), b), Cubic(b, b, b)]);
            }
            // after a Move the mark opens, whatever the last spline was of
            for (a, b) in [(Line(at(1.0)), Quad(at(0.5), at(1.0))), (Quad(at(0.5), at(1.0)), Line(at(1.0)))] {
                for next in [[Line(at(2.0)), Line(at(3.0))], [Quad(at(1.5), at(2.0)), Quad(at(2.5), at(3.0))], [Line(at(2.0)), Quad(at(2.5), at(3.0))]] {
                    add(vec![a, Move(at(1.0)), next[0], next[1]]);
                    add(vec![b, Move(at(1.0)), Move(at(1.0)), Quad(at(1.0), at(1.0)), next[0], next[1]]);
                    add(vec![a, Build, Move(at(1.0)), Line(at(1.0)), next[0], next[1], b]);
                }
            }
            // lines about 2^-23 long after a quad, and quads one of whose legs is as short
            for e in [0.5, 1.0, 1.5] {
                let q = |t: f32| p(at(t).x + e * f32::EPSILON, at(t).y);
                add(vec![Quad(at(-0.5), at(0.0)), Line(q(0.0)), Line(at(1.0))]);
                add(vec![Line(at(-1.0)), Line(at(0.0)), Quad(q(0.0), at(1.0)), Quad(at(1.5), at(2.0))]);
            }
        }
    }
    // a few of the small cubics of which some pieces are lines, near 0 and far from it, with a line or a quad on either side
    let mut rng = Rng(2);
    for from in [p(0.0, 0.0), p(1.0, 1.0), p(1000.0, 3.0), p(50_000.0, -40_000.0)] {
        for _ in 0..60 {
            let size = 2f32.powi(-(rng.below(14) as i32)) * 0.1;
            let near = |rng: &mut Rng| p(from.x + size * rng.below(9) as f32, from.y + if rng.one_in(2) { 0.0 } else { size * rng.below(9) as f32 });
            let (a, b, c) = (near(&mut rng), near(&mut rng), near(&mut rng));
            let cubic = RatCubic(if rng.one_in(3) { from } else { a }, if rng.one_in(3) { a } else { b }, c, rng.pick(&[1.0, 64.0]), rng.pick(&[8.0, 64.0]));
            let before = p(from.x - 2.0, from.y);
            let after = p(c.x + 2.0, c.y);
            add(vec![Move(before), Line(from), cubic, Line(after)]);
            add(vec![Move(before), Quad(p(from.x - 1.0, from.y), from), cubic, Quad(p(c.x + 1.0, c.y), after)]);
        }
    }
    out
}

/// Moves and quads mirrored and turned by quarters, which rounds nothing.
fn mirrored(calls: &[Call]) -> Vec<Vec<Call>> {
    let ways = [(-1.0, 1.0, false), (1.0, -1.0, false), (-1.0, -1.0, false), (1.0, 1.0, true), (-1.0, 1.0, true), (1.0, -1.0, true)];
    let other = |(x, y, swapped): (f32, f32, bool)| {
        let to = |q: P| if swapped { p(x * q.y, y * q.x) } else { p(x * q.x, y * q.y) };
        let turn = |c: &Call| match *c {
            Call::Move(a) => Call::Move(to(a)),
            Call::Quad(a, b) => Call::Quad(to(a), to(b)),
            other => other,
        };
        calls.iter().map(turn).collect()
    };
    ways.into_iter().map(other).collect()
}

fn at(x: u32, y: u32) -> P {
    p(f32::from_bits(x), f32::from_bits(y))
}

/// Where the sweep of `sweeps` begins, its two quads, and where it ends.
fn two_quads() -> (P, [Call; 2], P) {
    let end = at(0x4003_c400, 0x3f62_6000);
    (at(0xbf80_0000, 0), [Call::Quad(at(0xbf00_0000, 0), p(0.0, 0.0)), Call::Quad(at(0x3e84_4000, 0), end)], end)
}

/// Sweeps whose sum grows from 2 to 3 with the last quad, which then gets no step, and what comes after them. The first is the example, the second begins another
/// contour where that goes on.
pub fn sweeps() -> Vec<Vec<Call>> {
    use Call::*;
    let mut out: Vec<Vec<Call>> = Vec::new();
    let mut add = |calls: Vec<Call>| add_both(&mut out, calls);
    // sums 2 and 3
    let (start, sweep, end) = two_quads();
    let turned = Quad(at(0x4003_c400, 0x3ff1_3000), at(0x4003_c400, 0x4038_9800));
    let after = |next: &[Call]| [&[Move(start)], &sweep[..], next].concat();
    add(after(&[turned]));
    add(after(&[Move(p(10.0, 0.0)), Quad(p(11.0, 0.0), p(12.0, 0.0))]));
    // lines in between, with and without length, which have no quad; and a dropped quad
    let far = p(end.x, 9.0);
    add(after(&[Line(far), Quad(p(5.0, 9.0), p(8.0, 9.0)), Quad(p(9.0, 9.0), p(9.0, 5.0))]));
    add(after(&[Line(far), Line(p(0.0, 9.0)), Quad(p(0.0, 5.0), p(0.0, 4.0))]));
    add(after(&[Line(end), turned, Line(p(end.x, 8.0)), Quad(p(end.x, 9.0), p(end.x, 10.0))]));
    add(after(&[Quad(end, end), turned]));
    // a line first: on the screen it shares the spline
    add([&[Move(p(-9.0, 0.0)), Line(start)], &sweep[..], &[turned]].concat());
    add([&[Line(start), Move(start)], &sweep[..], &[turned, Build]].concat());
    // a second such sweep, a row of straight ones and a round after it
    let back = |c: &Call| match *c {
        Quad(a, b) => Quad(p(end.x - 1.0 - a.x, end.y - a.y), p(end.x - 1.0 - b.x, end.y - b.y)),
        other => other,
    };
    add(after(&[&sweep.map(|c| back(&c))[..], &[turned]].concat()));
    let row = |n: u32| (0..n).map(|i| Quad(p(end.x, end.y + i as f32 + 0.5), p(end.x, end.y + i as f32 + 1.0))).collect::<Vec<_>>();
    for n in [2, 3, 7] {
        add(after(&[&row(n)[..], &[Quad(p(end.x, 20.0), p(20.0, 20.0)), Cubic(p(25.0, 20.0), p(30.0, 25.0), p(30.0, 40.0))]].concat()));
    }
    mirrored(&after(&[turned])).into_iter().for_each(&mut add);
    let mut rng = Rng(6);
    for _ in 0..100 {
        add(joined_sweeps(&mut rng));
    }
    out
}

/// Nests, where a contour begins with what has no angle, so that an angle of the contour before could part what follows. The first is the example.
pub fn nests() -> Vec<Vec<Call>> {
    use Call::*;
    let mut out: Vec<Vec<Call>> = Vec::new();
    let mut add = |calls: Vec<Call>| add_both(&mut out, calls);
    add(vec![Line(p(10.0, 0.0)), Line(p(10.0, 10.0)), Move(p(20.0, 0.0)), Line(p(20.0, 0.0)), Line(p(30.0, 0.0)), Line(p(30.0, 10.0))]);
    // the first contour ends along x: the second goes on so, then the third goes elsewhere
    let along = [Line(p(-10.0, 5.0)), Line(p(-10.0, 0.0)), Line(p(0.0, 0.0))];
    let (o, m) = (p(0.0, 0.0), p(20.0, 0.0));
    add([&along[..], &[Move(m), Line(m), Line(p(30.0, 0.0)), Move(m), Line(m), Line(p(20.0, 10.0)), Line(p(30.0, 10.0))]].concat());
    // contours without a spline, and with one that has no length, in between
    add([&along[..], &[Move(p(5.0, 5.0)), Quad(p(5.0, 5.0), p(5.0, 5.0)), Move(m), Line(m), Line(p(20.0, 10.0))]].concat());
    add([&along[..], &[Move(p(5.0, 5.0)), Line(p(5.0, 5.0)), Move(m), Quad(m, m), Line(m), Quad(m, m), Line(p(20.0, 10.0)), Move(p(5.0, 5.0))]].concat());

    // sweeps whose last quad gets no step: on the screen the steps of later contours stray
    let (start, sweep, end) = two_quads();
    let swept = [&[Move(start)], &sweep[..]].concat();
    let straight = |x: f32| vec![Move(p(x, 0.0)), Quad(p(x + 1.0, 0.0), p(x + 2.0, 0.0)), Quad(p(x + 3.0, 0.0), p(x + 4.0, 0.0))];
    add([&swept[..], &swept, &straight(10.0)].concat());
    add([straight(10.0), swept.clone(), vec![Move(end), Line(end), Line(o)], straight(20.0), swept.clone()].concat());
    add([&swept[..], &[Move(end), Quad(end, end)], &straight(10.0), &[Line(m), Quad(p(25.0, 0.0), p(25.0, 5.0))]].concat());

    // how the contour before ends, each at the origin; what has no angle; and where the next goes
    let befores: [&[Call]; 7] = [
        &[Line(p(10.0, 0.0)), Line(p(10.0, 10.0))],
        &along,
        &[Line(p(10.0, 0.0)), Line(o)],
        &[Line(p(-10.0, 0.0)), Line(o), Line(o)],
        &[Line(p(0.0, -10.0)), Line(o), Quad(o, o)],
        &[Quad(p(5.0, 0.0), p(10.0, 0.0)), Quad(p(0.0, 10.0), o)],
        &[Cubic(p(20.0, 30.0), p(-20.0, 0.0), o)],
    ];
    let angleless: [&[Call]; 8] = [
        &[],
        &[Line(m)],
        &[Line(m), Line(m)],
        &[Quad(m, m)],
        &[Quad(m, m), Line(m)],
        &[Line(m), Quad(m, m)],
        &[Cubic(m, m, m), RatQuad(m, m, 2.0), Line(m), RatQuad(m, m, 0.5)],
        &[Line(m), Build, Line(m)],
    ];
    for before in befores {
        for none in angleless {
            for (x, y) in [(1.0, 0.0), (0.0, 1.0), (-1.0, 0.0), (-1.0, -1.0), (1.0, 0.0009), (1.0, 0.0011)] {
                let on = |t: f32, u: f32| p(m.x + 10.0 * (t * x - u * y), m.y + 10.0 * (t * y + u * x));
                let begun = [before, &[Move(m)], none].concat();
                add([&begun[..], &[Line(on(1.0, 0.0)), Line(on(1.0, 1.0))]].concat());
                add([&begun[..], &[Quad(on(0.5, 0.0), on(1.0, 0.0)), Line(on(1.0, 1.0))]].concat());
            }
            add([before, &[Move(m)], none, &[Move(p(7.0, 7.0)), Line(p(7.0, 7.0)), Line(p(9.0, 7.0))]].concat());
        }
    }
    // lines about 2^-23 long, and quads that are such lines
    let e = f32::EPSILON;
    for (a, b) in [(0.5, 0.0), (0.9, 0.0), (1.0, 0.0), (-0.75, 0.5), (0.75, -0.5), (0.0, 0.9)] {
        for (x, y) in [(1.0, 0.0), (0.0, 1.0), (-1.0, 0.0)] {
            let tiny = |t: f32| p(e * t * x, e * t * y);
            for next in [p(10.0, 0.0), p(0.0, 10.0), p(-10.0, 0.0)] {
                let begun = [Move(p(-30.0, 0.0)), Line(p(-20.0, 0.0)), Line(p(-20.0, 9.0)), Move(o)];
                add([&begun[..], &[Line(tiny(a)), Line(next), Line(p(10.0, 10.0))]].concat());
                add([&begun[..], &[Quad(tiny(a), tiny(b)), Line(next), Line(p(10.0, 10.0))]].concat());
            }
        }
    }
    // many small contours, each with a doubled point first
    for n in [10, 100] {
        let corner = |i: u32| p((i % 10) as f32 * 3.0, (i / 10) as f32 * 3.0);
        let square = |i: u32| {
            let a = corner(i);
            vec![Move(a), Line(a), Line(p(a.x + 1.0, a.y)), Line(p(a.x + 1.0, a.y + 1.0)), Quad(p(a.x, a.y + 1.0), a)]
        };
        add((0..n).flat_map(square).collect());
    }
    out
}

/// A straight quad (sum 2), then one whose own curvature is 1 + 2^-23, so that the sum is 3; a turn, and a straight quad.
fn stray() -> Vec<Vec<Call>> {
    let mut out = Vec::new();
    let mut rng = Rng(12);
    for angle in [0.3f64, 0.7, 1.1, 1.5, -0.4, -0.9] {
        let quad = |s: f64, wobble: f64| {
            let a = p((10.0 + s) as f32, 0.0);
            (a, p((10.0 + s + s * angle.cos()) as f32, (s * angle.sin() * (1.0 + wobble)) as f32))
        };
        let own = |a: P, b: P| own_curvature(p(10.0, 0.0), a, b);
        let (mut low, mut high) = (0.001, 100.0);
        for _ in 0..60 {
            let mid = 0.5 * (low + high);
            let (a, b) = quad(mid, 0.0);
            if own(a, b) < 1.0 {
                low = mid;
            } else {
                high = mid;
            }
        }
        // a curvature of exactly 1 is still taken as straight, the next f32 is not
        let mut found = [false; 3];
        for _ in 0..40_000 {
            let (a, b) = quad(high * (1.0 + rng.between(-2e-7, 4e-7)), rng.between(-4e-7, 4e-7));
            for (i, pattern) in [0x3f7f_ffff, 0x3f80_0000, 0x3f80_0001].into_iter().enumerate() {
                if own(a, b).to_bits() == pattern && !found[i] {
                    found[i] = true;
                    out.push(vec![Call::Move(p(10.0, 0.0)), Call::Quad(a, b), Call::Line(p(3.0, 99.0))]);
                }
            }
            if own(a, b).to_bits() == 0x3f80_0001 {
                for turn in [p(b.x, b.y + 40.0), p(b.x - 30.0, b.y - 20.0)] {
                    let mid = p(0.5 * (b.x + turn.x), 0.5 * (b.y + turn.y));
                    out.push(vec![Call::Quad(p(5.0, 0.0), p(10.0, 0.0)), Call::Quad(a, b), Call::Quad(mid, turn), Call::Line(p(0.0, 99.0))]);
                    out.push(vec![Call::Quad(p(5.0, 0.0), p(10.0, 0.0)), Call::Quad(a, b), Call::Line(turn), Call::Quad(p(turn.x, 77.0), p(-5.0, 3.0))]);
                    // after the turn straight quads in a row (sums 2, 4, 6), or curved ones: the cursor, which lags, goes on once for each step
                    for n in 2..5 {
                        let mut calls = vec![Call::Quad(p(5.0, 0.0), p(10.0, 0.0)), Call::Quad(a, b)];
                        let (dx, dy) = (turn.x - b.x, turn.y - b.y);
                        for i in 0..n {
                            let at = |t: f32| p(b.x + dx * (i as f32 + t), b.y + dy * (i as f32 + t));
                            calls.push(Call::Quad(at(0.5), at(1.0)));
                        }
                        let end = p(b.x + dx * n as f32, b.y + dy * n as f32);
                        calls.push(Call::Quad(p(end.x + dx, end.y + dy), p(end.x + 31.0, end.y - 7.0)));
                        out.push(calls);
                    }
                }
                if found[1] {
                    break;
                }
            }
        }
    }
    out
}

/// Cubics from the origin that the exact root and `powf` cut differently: two controls and the end.
pub const DIFFERENT: [[f32; 6]; 3] =
    [[0.0, 1.0, 700.0, 265.0, 0.0, 0.0], [2.0, 0.0, 975.0, 681.0, 0.0, 0.0], [0.0, 2.0, 1043.0, 1025.0, 0.0, 0.0]];

/// A rational one of which only the second control's x is not 0.
pub fn rational_difference() -> Call {
    Call::RatCubic(p(0.0, 0.0), p(f32::from_bits(0x35dd_b3dd), 0.0), p(0.0, 0.0), 64.0, 64.0)
}

/// A store made by hand that flattening accepts: weights at every point, coordinates to 4,194,304, any open point.
pub fn by_hand(rng: &mut Rng) -> Store {
    let mut s = Store { commands: vec![0], ..Store::default() };
    for _ in 0..rng.below(12) {
        s.commands.push(rng.pick(&[0, 1, 1, 2, 2, 2, 3, 3]));
    }
    let k = rng.pick(&[0, 1, 1, 2, 4, 6, 14, 15]);
    let same_weight = rng.one_in(3) || k >= 14;
    // divided by the least weight, the largest coordinates give sums beyond 65,536
    let w0 = if k >= 14 { 1.0 / 64.0 } else { weight(rng) };
    let n: usize = s.commands.iter().map(|&c| (c as usize).max(1)).sum();
    let mut before = vec![p(0.0, 0.0)];
    for _ in 0..n {
        let q = match k {
            14 => p(rng.between(-4_194_304.0, 4_194_304.0) as f32, rng.between(-4_194_304.0, 4_194_304.0) as f32),
            15 => p(4_194_304.0 * rng.sign(), rng.below(4_194_305) as f32 * rng.sign()),
            _ => point(rng, k, &before),
        };
        before.push(q);
        let w = if same_weight { w0 } else { weight(rng) };
        s.x.push(q.x);
        s.y.push(q.y);
        s.weight.push(w);
    }
    s.opening = rng.below(n as u64) as usize;
    s
}
