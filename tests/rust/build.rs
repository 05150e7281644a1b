//! Copies the original Rust to OUT_DIR, unchanged, and adds to `path.rs` a child module that reaches its private items.
//! Parts of that module are cut out of the Rust's own text, so that nothing is imitated: the loop of `PathData::segments` over the
//! commands, how `push_cubic` counts its pieces, and how two angles are compared. `path_knife.rs` is the same text with five things changed: one statement of
//! `push_line`, the difference of two angles, that a line and a quad never share a spline, where the cursor begins a spline, and that `push_contour` forgets the
//! last angle.

use std::{env, fs, path::PathBuf};

/// The text between two marks, each of which occurs once after `from`.
fn between<'a>(text: &'a str, from: &str, start: &str, end: &str) -> &'a str {
    let base = text.find(from).unwrap_or_else(|| panic!("path.rs has no `{from}`"));
    let text = &text[base..];
    let a = text.find(start).unwrap_or_else(|| panic!("path.rs has no `{start}`")) + start.len();
    let b = text[a..].find(end).unwrap_or_else(|| panic!("path.rs has no `{end}`")) + a;
    &text[a..b]
}

/// A text of the Rust's in which `old` stands once, between `from` and `to`, with `new` in its place.
fn changed(text: &str, from: &str, to: &str, old: &str, new: &str) -> String {
    assert_eq!(text.matches(old).count(), 1, "path.rs must have this once, after `{from}`:\n{old}");
    assert!(between(text, from, "{", to).contains(old), "not between `{from}` and `{to}`:\n{old}");
    text.replace(old, new)
}

/// How the Rust works out the difference of two angles: a reversal is folded to 0.
const FOLDED: &str = "
                let mut diff = (a1 - a0).abs();

                if diff > f32::consts::PI {
                    diff -= f32::consts::PI;
                }

                if diff > f32::consts::FRAC_PI_2 {
                    diff = f32::consts::PI - diff;
                }

                diff
";

/// The knife's, around the full turn.
const FULL: &str = "
                let turn = (a1 - a0).abs();
                let rest = f32::from_bits(0x40C9_0FDB) - turn;

                if rest < turn {
                    rest
                } else {
                    turn
                }
";

/// `last_spline_or_insert_with` is told whether a quad or a line calls it, and asks for a new spline where the last one is of the other kind: a spline's curvature
/// is 0 exactly while it has no quad. Each change has where it begins and ends, the Rust's text and the knife's.
const KINDS: [[&str; 4]; 4] = [
    [
        "impl Primitives {",
        "where",
        "
        point: Point,
        f: F,
",
        "
        point: Point,
        round: bool,
        f: F,
",
    ],
    [
        "fn last_spline_or_insert_with<F>",
        "pub fn push_contour(",
        "spline.new_spline_needed(angle_changed, point)",
        "spline.new_spline_needed(angle_changed || round != (spline.curvature != 0.0), point)",
    ],
    [
        "pub fn push_line(",
        "pub fn push_quad(",
        "self.last_spline_or_insert_with(angle, p0, |contour| Spline {",
        "self.last_spline_or_insert_with(angle, p0, false, |contour| Spline {",
    ],
    [
        "pub fn push_quad(",
        "pub fn push_cubic(",
        "self.last_spline_or_insert_with(in_angle, p0, |contour| Spline {",
        "self.last_spline_or_insert_with(in_angle, p0, true, |contour| Spline {",
    ],
];

/// `populate_buffers` goes on from spline to spline with one cursor, `i`.
const GOES_ON: &str = "
        for (spline_i, spline) in self.splines.iter().enumerate() {
            let subdivisions = spline.curvature.ceil() as usize;
";

/// The knife's begins each spline at the spline's first quad. No record of that is needed: each quad has its spline's number, and these never fall.
const BEGINS: &str = "
        for (spline_i, spline) in self.splines.iter().enumerate() {
            i = self.partial_curvatures.partition_point(|quad| (quad.0 as usize) < spline_i);
            let subdivisions = spline.curvature.ceil() as usize;
";

/// `push_contour` sets the mark that a Move leaves.
const MARKS: &str = "
        self.contour = Some(contour);
";

/// The knife's forgets the last angle too, so that no contour knows the one before.
const FORGETS: &str = "
        self.contour = Some(contour);
        self.last_angle = None;
";

fn main() {
    let here = PathBuf::from(env::var("CARGO_MANIFEST_DIR").unwrap());
    // real_rayon/ is a folder deeper
    let tests = if here.join("src/probe.txt").exists() { here } else { here.parent().unwrap().to_path_buf() };
    let source = match env::var_os("KERMEZHUL_RUST_SOURCE") {
        Some(dir) => PathBuf::from(dir),
        None => tests.join("../../../shared/docs/src"),
    }
    .join("forma/src");
    println!("cargo:rerun-if-env-changed=KERMEZHUL_RUST_SOURCE");
    println!("cargo:rerun-if-changed={}", tests.join("src/probe.txt").display());
    println!("cargo:rerun-if-changed={}", tests.join("build.rs").display());

    let out = PathBuf::from(env::var("OUT_DIR").unwrap());
    let read = |name: &str| {
        let file = source.join(name);
        println!("cargo:rerun-if-changed={}", file.display());
        fs::read_to_string(&file).unwrap_or_else(|e| panic!("{}: {e} (KERMEZHUL_RUST_SOURCE names the folder of the original's sources)", file.display()))
    };
    for (name, to) in [("math/point.rs", "point.rs"), ("math/transform.rs", "transform.rs"), ("utils/extend.rs", "extend.rs")] {
        fs::write(out.join(to), read(name)).unwrap();
    }

    let path = read("path.rs");
    let probe = fs::read_to_string(tests.join("src/probe.txt")).unwrap();
    // `line` is what a line tells `last_spline_or_insert_with` of itself
    let with_probe = |text: &str, line: &str| {
        let commands = between(text, "pub fn segments(&mut self)", "if self.segments.is_none() {", "self.segments = Some(");
        let pieces = between(text, "pub fn push_cubic(", "{", "let incr = ");
        let difference = between(text, "fn diff(a0: f32, a1: f32) -> f32", "{", "\n            }");
        let probe = probe.replace("/*COMMANDS*/", commands).replace("/*PIECES*/", pieces).replace("/*DIFFERENCE*/", difference).replace("/*LINE*/", line);
        format!("{text}\n{probe}")
    };
    fs::write(out.join("path.rs"), with_probe(&path, "")).unwrap();

    let knife = changed(&path, "pub fn push_line(", "pub fn push_quad(", "self.last_angle = angle;", "self.last_angle = angle.or(self.last_angle);");
    let knife = changed(&knife, "fn diff(a0: f32, a1: f32) -> f32", "let angle_changed = ", FOLDED, FULL);
    let knife = KINDS.iter().fold(knife, |text, [from, to, old, new]| changed(&text, from, to, old, new));
    let knife = changed(&knife, "pub fn populate_buffers(", "pub fn eval_quad(", GOES_ON, BEGINS);
    let knife = changed(&knife, "pub fn push_contour(", "pub fn push_line(", MARKS, FORGETS);
    fs::write(out.join("path_knife.rs"), with_probe(&knife, "false,")).unwrap();
}
