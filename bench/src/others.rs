//! kurbo and lyon_geom on the same curves, at the accuracy of the original, a sixteenth of a pixel. They round differently and write no words, so their points are
//! not compared with ours.

use crate::{
    clock::{seconds, Spread},
    near::farthest,
    Plan,
};
use against_rust::call::{Call, P};
use kurbo::{BezPath, PathEl};
use lyon_geom::{euclid::default::Point2D, CubicBezierSegment, QuadraticBezierSegment};
use std::hint::black_box;

const TOLERANCE: f32 = 1.0 / 16.0;

pub struct Other {
    pub name: &'static str,
    pub points: usize,
    /// of one flattening
    pub seconds: f64,
    pub farthest: f64,
}

fn kurbo_path(calls: &[Call]) -> BezPath {
    let at = |p: &P| (p.x as f64, p.y as f64);
    let mut path = BezPath::new();
    for call in calls {
        match call {
            Call::Move(p) => path.move_to(at(p)),
            Call::Line(p) => path.line_to(at(p)),
            Call::Quad(p, q) => path.quad_to(at(p), at(q)),
            Call::Cubic(p, q, r) => path.curve_to(at(p), at(q), at(r)),
            _ => path.push(PathEl::ClosePath),
        }
    }
    path
}

fn by_kurbo(path: &BezPath, mut take: impl FnMut([f64; 2], bool)) {
    path.flatten(TOLERANCE as f64, |to| match to {
        PathEl::MoveTo(p) => take([p.x, p.y], true),
        PathEl::LineTo(p) => take([p.x, p.y], false),
        _ => {}
    });
}

enum Curve {
    Move(Point2D<f32>),
    Line(Point2D<f32>),
    Quad(QuadraticBezierSegment<f32>),
    Cubic(CubicBezierSegment<f32>),
}

fn lyon_curves(calls: &[Call]) -> Vec<Curve> {
    let at = |p: &P| Point2D::new(p.x, p.y);
    let mut from = Point2D::new(0.0, 0.0);
    let mut curves = Vec::new();
    for call in calls {
        let (curve, to) = match call {
            Call::Move(p) => (Curve::Move(at(p)), at(p)),
            Call::Line(p) => (Curve::Line(at(p)), at(p)),
            Call::Quad(p, q) => (Curve::Quad(QuadraticBezierSegment { from, ctrl: at(p), to: at(q) }), at(q)),
            Call::Cubic(p, q, r) => (Curve::Cubic(CubicBezierSegment { from, ctrl1: at(p), ctrl2: at(q), to: at(r) }), at(r)),
            _ => continue,
        };
        curves.push(curve);
        from = to;
    }
    curves
}

fn by_lyon(curves: &[Curve], mut take: impl FnMut([f64; 2], bool)) {
    let mut on = |to: Point2D<f32>, first| take([to.x as f64, to.y as f64], first);
    for curve in curves {
        match curve {
            Curve::Move(to) => on(*to, true),
            Curve::Line(to) => on(*to, false),
            Curve::Quad(quad) => quad.for_each_flattened(TOLERANCE, &mut |to| on(to, false)),
            Curve::Cubic(cubic) => cubic.for_each_flattened(TOLERANCE, &mut |to| on(to, false)),
        }
    }
}

type Take<'a> = &'a mut dyn FnMut([f64; 2], bool);

fn measured(plan: &Plan, name: &'static str, calls: &[Call], gather: impl Fn(Take), run: impl Fn() -> usize) -> Other {
    let mut contours: Vec<Vec<[f64; 2]>> = Vec::new();
    gather(&mut |to, first| {
        if first {
            contours.push(Vec::new());
        }
        contours.last_mut().expect("a Move comes first").push(to);
    });
    let points = run();
    let times = Spread::of((0..plan.pairs).map(|_| seconds(plan.repeats(points), &run)).collect());
    Other { name, points, seconds: times.median(), farthest: farthest(calls, &contours, plan.contours) }
}

/// Points are handed on and not stored, as both libraries do it.
pub fn others(plan: &Plan, calls: &[Call]) -> [Other; 2] {
    fn counted(f: impl FnOnce(&mut usize)) -> usize {
        let mut points = 0;
        f(&mut points);
        points
    }
    let (path, curves) = (kurbo_path(calls), lyon_curves(calls));
    let kurbo = || {
        counted(|n| {
            by_kurbo(&path, |to, _| {
                black_box(to);
                *n += 1;
            })
        })
    };
    let lyon = || {
        counted(|n| {
            by_lyon(&curves, |to, _| {
                black_box(to);
                *n += 1;
            })
        })
    };
    [measured(plan, "kurbo", calls, |take| by_kurbo(&path, take), kurbo), measured(plan, "lyon_geom", calls, |take| by_lyon(&curves, take), lyon)]
}
