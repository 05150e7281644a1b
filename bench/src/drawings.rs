//! The drawings that are measured: nests as customers send them, many contours of moderate size, of one kind of primitive each.

use against_rust::{
    call::{p, Call, P},
    rng::Rng,
};

#[derive(Clone, Copy, Debug, PartialEq)]
pub enum Kind {
    Lines,
    Quads,
    Cubics,
    RationalQuads,
    RationalCubics,
    StraightCubics,
}

impl Kind {
    /// The three that the request names.
    pub const PLAIN: [Kind; 3] = [Kind::Lines, Kind::Quads, Kind::Cubics];
    pub const ALL: [Kind; 6] = [Kind::Lines, Kind::Quads, Kind::Cubics, Kind::RationalQuads, Kind::RationalCubics, Kind::StraightCubics];

    pub fn name(self) -> &'static str {
        match self {
            Kind::Lines => "lines",
            Kind::Quads => "quads",
            Kind::Cubics => "cubics",
            Kind::RationalQuads => "rational-quads",
            Kind::RationalCubics => "rational-cubics",
            Kind::StraightCubics => "straight-cubics",
        }
    }
}

/// How many primitives a contour has.
const CONTOUR: usize = 24;

/// As many primitives of a kind, in contours that wobble around a circle. The seed is fixed: these are the same drawings in every run.
pub fn drawing(kind: Kind, primitives: usize) -> Vec<Call> {
    let (mut rng, mut weights) = (Rng(12), Rng(13));
    let mut calls = Vec::new();
    for first in (0..primitives).step_by(CONTOUR) {
        let (cx, cy) = (rng.between(0.0, 4000.0), rng.between(0.0, 4000.0));
        let r = rng.between(20.0, 200.0);
        let at = |a: f64, r: f64| p((cx + r * a.cos()) as f32, (cy + r * a.sin()) as f32);
        let mut from = at(0.0, r);
        calls.push(Call::Move(from));
        for i in 0..CONTOUR.min(primitives - first) {
            let a = |t: f64| (i as f64 + t) / CONTOUR as f64 * std::f64::consts::TAU;
            let mut wobble = || r * rng.between(0.9, 1.1);
            let mut weight = || weights.between(0.5, 2.0) as f32;
            let (call, to) = match kind {
                Kind::Lines => {
                    let to = at(a(1.0), wobble());
                    (Call::Line(to), to)
                }
                Kind::Quads | Kind::RationalQuads => {
                    let (by, to) = (at(a(0.5), wobble()), at(a(1.0), wobble()));
                    (if kind == Kind::Quads { Call::Quad(by, to) } else { Call::RatQuad(by, to, weight()) }, to)
                }
                Kind::Cubics | Kind::RationalCubics => {
                    let (by, then, to) = (at(a(0.33), wobble()), at(a(0.66), wobble()), at(a(1.0), wobble()));
                    (if kind == Kind::Cubics { Call::Cubic(by, then, to) } else { Call::RatCubic(by, then, to, weight(), weight()) }, to)
                }
                Kind::StraightCubics => {
                    let to = at(a(1.0), wobble());
                    (Call::Cubic(along(from, to, 1.0 / 3.0), along(from, to, 2.0 / 3.0), to), to)
                }
            };
            calls.push(call);
            from = to;
        }
    }
    calls.push(Call::Build);
    calls
}

/// The point of a straight line, as a drawing program that knows only cubics writes it.
fn along(from: P, to: P, t: f64) -> P {
    let between = |a: f32, b: f32| (a as f64 + t * (b as f64 - a as f64)) as f32;
    p(between(from.x, to.x), between(from.y, to.y))
}

#[cfg(test)]
mod tests {
    use super::*;

    #[test]
    fn a_drawing_has_as_many_primitives_as_asked() {
        for kind in Kind::ALL {
            for n in [1, 24, 25, 100] {
                let calls = drawing(kind, n);
                let moves = calls.iter().filter(|c| matches!(c, Call::Move(_))).count();
                assert_eq!((moves, calls.len()), (n.div_ceil(CONTOUR), n + moves + 1));
            }
        }
    }
}
