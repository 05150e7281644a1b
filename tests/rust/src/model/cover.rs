//! How often each rule decided something, so that a run can say what it has tried.

use std::cell::RefCell;

pub const NAMES: [&str; 48] = [
    "splines opened by a contour mark",
    "splines opened by an angle",
    "splines opened by a gap",
    "  of them with a gap of exactly 0.0625",
    "primitives joined to a spline",
    "lines without an angle",
    "  of them where the knife keeps an angle",
    "quads dropped",
    "quads that are lines",
    "quads with a curvature of their own",
    "quads taken as straight",
    "  of them where the curvature is not finite",
    "cubics",
    "  of them rational",
    "  of them whose last piece falls short",
    "Starts after a gap",
    "joints of exactly 0.0625, without a Start",
    "steps",
    "  of them, on the screen, on a quad of another spline",
    "  of them with t clamped to 0",
    "  of them with t clamped to 1",
    "  of them with t = -0",
    "splines of two or more quads",
    "  of them with a quad that gets no step",
    "splines with a whole sum above 0",
    "reversals that the screen takes as no change",
    "NaN or infinity in a table or an output",
    "reversals that the knife keeps and the screen does not",
    "turns of the knife where 2π less the turn is the smaller one",
    "  of them no change",
    "turns that are a change for the screen and none for the knife",
    "splines of the knife opened by the other kind alone",
    "  of them by a line after a quad",
    "  of them by a quad after a line",
    "  of them by a line without an angle",
    "  of them between two pieces of a cubic",
    "  of them after a dropped quad",
    "primitives of the knife joined to a spline after a dropped quad",
    "quads joined to a spline that has quads",
    "splines of the screen that begin with a line and get quads",
    "splines of lines between splines of quads",
    "splines of the knife that begin at another quad than the one before left off at",
    "  of them after a spline of lines",
    "points of the knife that are others by that",
    "Moves of the knife that forget an angle",
    "lines of the knife joined to a spline from which the forgotten angle would part them",
    "  of them after a dropped quad",
    "lines of the knife joined to a spline from which the forgotten angle would not part them",
];

pub const MARK: usize = 0;
pub const TURN: usize = 1;
pub const GAP: usize = 2;
pub const GAP_EXACT: usize = 3;
pub const JOINED: usize = 4;
pub const NO_ANGLE: usize = 5;
pub const KEPT: usize = 6;
pub const DROPPED: usize = 7;
pub const AS_LINE: usize = 8;
pub const CURVED: usize = 9;
pub const STRAIGHT: usize = 10;
pub const INFINITE: usize = 11;
pub const CUBIC: usize = 12;
pub const RATIONAL: usize = 13;
pub const SHORT: usize = 14;
pub const START_GAP: usize = 15;
pub const NO_START: usize = 16;
pub const STEP: usize = 17;
pub const STRAY: usize = 18;
pub const CLAMP0: usize = 19;
pub const CLAMP1: usize = 20;
pub const MINUS0: usize = 21;
pub const SEVERAL: usize = 22;
pub const STEPLESS: usize = 23;
pub const WHOLE: usize = 24;
pub const REVERSAL: usize = 25;
pub const NOT_FINITE: usize = 26;
pub const SLIT: usize = 27;
pub const AROUND: usize = 28;
pub const ACROSS: usize = 29;
pub const SCREEN_ONLY: usize = 30;
pub const KIND: usize = 31;
pub const LINE_AFTER_QUAD: usize = 32;
pub const QUAD_AFTER_LINE: usize = 33;
pub const KIND_NO_ANGLE: usize = 34;
pub const KIND_IN_CUBIC: usize = 35;
pub const KIND_DROPPED: usize = 36;
pub const JOINED_DROPPED: usize = 37;
pub const MORE_QUADS: usize = 38;
pub const LINE_THEN_QUADS: usize = 39;
pub const LINES_BETWEEN: usize = 40;
pub const BEGINS: usize = 41;
pub const BEGINS_AFTER_LINES: usize = 42;
pub const POINT_MOVED: usize = 43;
pub const FORGETS: usize = 44;
pub const NOT_PARTED: usize = 45;
pub const NOT_PARTED_DROPPED: usize = 46;
pub const STALE_ALIKE: usize = 47;

/// What no drawing does.
pub const NEVER: [usize; 2] = [NOT_FINITE, SCREEN_ONLY];

thread_local!(static COUNTS: RefCell<[u64; NAMES.len()]> = const { RefCell::new([0; NAMES.len()]) });

pub fn count(i: usize) {
    COUNTS.with(|c| c.borrow_mut()[i] += 1);
}

/// Flattenings beside the one that is counted, which count nothing.
pub fn uncounted<T>(f: impl FnOnce() -> T) -> T {
    let before = counts();
    let result = f();
    COUNTS.with(|c| *c.borrow_mut() = before);
    result
}

pub fn counts() -> [u64; NAMES.len()] {
    COUNTS.with(|c| *c.borrow())
}
