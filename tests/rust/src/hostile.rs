//! The library itself against the model: every answer, count and lent entry, on good calls and on bad ones.

use crate::{
    call::{written, Call},
    flat_case::Flat,
    model::{self, Columns, Flattened, Output, QuadTable, Setting, SplineTable, State, QUAD_ROW},
};
use kermezhul as lib;

pub fn to_library(call: &Call) -> lib::Call {
    match *call {
        Call::Move(a) => lib::Call::Move(a.x, a.y),
        Call::Line(a) => lib::Call::Line(a.x, a.y),
        Call::Quad(a, b) => lib::Call::Quad([a.x, a.y, b.x, b.y]),
        Call::Cubic(a, b, c) => lib::Call::Cubic([a.x, a.y, b.x, b.y, c.x, c.y]),
        Call::RatQuad(a, b, w) => lib::Call::RatQuad([a.x, a.y, b.x, b.y], w),
        Call::RatCubic(a, b, c, v, w) => lib::Call::RatCubic([a.x, a.y, b.x, b.y, c.x, c.y], v, w),
        Call::Build => lib::Call::Build,
    }
}

fn state(st: lib::State) -> State {
    State { points: st.points, commands: st.commands, opening: st.opening }
}

fn lent(c: &mut Columns) -> lib::Columns<'_> {
    lib::Columns { x: &mut c.x, y: &mut c.y, weight: &mut c.weight, commands: &mut c.commands }
}

/// Compares all bits; NaNs count as one.
pub fn same_floats(name: &str, ours: &[f32], model: &[f32]) -> Result<(), String> {
    for (i, (a, b)) in crate::against::bits(ours).zip(crate::against::bits(model)).enumerate() {
        if a != b {
            return Err(format!("{name}[{i}]: {a:08x}, the model has {b:08x}"));
        }
    }
    Ok(())
}

fn same_columns(ours: &Columns, model: &Columns) -> Result<(), String> {
    same_floats("x", &ours.x, &model.x)?;
    same_floats("y", &ours.y, &model.y)?;
    same_floats("weight", &ours.weight, &model.weight)?;
    if ours.commands != model.commands {
        return Err(format!("commands {:?}, the model has {:?}", ours.commands, model.commands));
    }
    Ok(())
}

/// The same call by the library and the model, on equal columns. Gives the answer, or what differs.
pub fn call_both(call: Option<&Call>, st: State, ours: &mut Columns, theirs: &mut Columns) -> Result<(u8, State), String> {
    let (a, b) = match call {
        None => (lent(ours).fresh(), model::fresh(theirs)),
        Some(call) => {
            let before = lib::State { points: st.points, commands: st.commands, opening: st.opening };
            (lent(ours).draw(before, to_library(call)), model::draw(call, st, theirs))
        }
    };
    let told = |e: String| format!("{e}\n  after {} on {st:?}", call.map_or("  fresh".to_string(), |c| written(&[*c])));
    if (a.0, state(a.1)) != (b.0 as u32, b.1) {
        return Err(told(format!("answer {} and {:?}, the model has {} and {:?}", a.0, a.1, b.0, b.1)));
    }
    same_columns(ours, theirs).map_err(told)?;
    Ok(b)
}

/// A drawing, call by call. Refused calls are made too, and change nothing.
pub fn replay_both(calls: &[Call], room: usize) -> Result<(State, Columns), String> {
    let mut ours = Columns { x: vec![7.0; room], y: vec![7.0; room], weight: vec![7.0; room], commands: vec![9; room] };
    let mut theirs = ours.clone();
    let (_, mut st) = call_both(None, State::default(), &mut ours, &mut theirs)?;
    for call in calls {
        st = call_both(Some(call), st, &mut ours, &mut theirs)?.1;
    }
    Ok((st, ours))
}

/// What differs between a leaf and the machine's own operation, or the model's.
pub fn leaves_on(a: f32, b: f32, c: f32) -> Result<(), String> {
    use lib::leaves;
    let canon = |v: f32| if v.is_nan() { 0x7fc0_0000 } else { v.to_bits() };
    let same = |name: &str, ours: f32, theirs: f32| {
        if canon(ours) == canon(theirs) {
            Ok(())
        } else {
            Err(format!("{name} of {:08x} {:08x} {:08x}: {:08x}, expected {:08x}", a.to_bits(), b.to_bits(), c.to_bits(), canon(ours), canon(theirs)))
        }
    };
    same("fma", leaves::fma(a, b, c), a.mul_add(b, c))?;
    same("sqrt", leaves::sqrt(a), a.sqrt())?;
    same("ceil", leaves::ceil(a), a.ceil())?;
    let less = |a: f32, b: f32| a < b || (a == b && a.is_sign_negative() && !b.is_sign_negative());
    let min = if a.is_nan() || less(b, a) { b } else { a };
    let max = if a.is_nan() || less(a, b) { b } else { a };
    same("min", leaves::min(a, b), min)?;
    same("max", leaves::max(a, b), max)?;
    if b <= c {
        same("clamp", leaves::clamp(a, b, c), a.clamp(b, c))?;
    }
    if let Some(r) = model::root::sixth_root(a) {
        same("sixth_root", leaves::sixth_root(a), r)?;
        if b > 0.0 && c > 0.0 && b <= 64.0 && c <= 64.0 {
            let n = model::flatten::exact_pieces(a, b.max(c).max(1.0));
            let ours = leaves::pieces(a, b, c) as u64;
            if ours != n && !(n > 1024 && ours > 1024) {
                return Err(format!("pieces of {:08x} {:08x} {:08x}: {ours}, expected {n}", a.to_bits(), b.to_bits(), c.to_bits()));
            }
        }
    } else if leaves::pieces(a, 1.0, 1.0) <= 1024 {
        return Err(format!("pieces of {:08x} are {}", a.to_bits(), leaves::pieces(a, 1.0, 1.0)));
    }
    Ok(())
}

/// The library's flattening.
pub fn flatten(setting: Setting, st: State, c: &Columns, q: &mut QuadTable, s: &mut SplineTable, o: &mut Output) -> Flattened {
    let st = lib::State { points: st.points, commands: st.commands, opening: st.opening };
    let drawn = lib::Drawn { x: &c.x, y: &c.y, weight: &c.weight, commands: &c.commands };
    let mut quads = lib::Quads { rows: &mut q.rows, partial_splines: &mut q.partial_splines };
    let mut splines = lib::Splines {
        curvature: &mut s.curvature,
        p0x: &mut s.p0x,
        p0y: &mut s.p0y,
        p2x: &mut s.p2x,
        p2y: &mut s.p2y,
        contour: &mut s.contour,
        first_quad: &mut s.first_quad,
        quad_count: &mut s.quad_count,
    };
    let mut output = lib::Output { words: &mut o.words, x: &mut o.x, y: &mut o.y, end: &mut o.end };
    let setting = match setting {
        Setting::Screen => lib::Setting::Screen,
        Setting::Knife => lib::Setting::Knife,
    };
    let r = lib::flatten(setting, st, drawn, &mut quads, &mut splines, &mut output);
    Flattened { answer: r.answer as u8, splines: r.splines, quads: r.quads, points: r.points }
}

/// The same on all that is lent.
pub fn by_library(f: &mut Flat) -> Flattened {
    flatten(f.setting, f.st, &f.columns, &mut f.quads, &mut f.splines, &mut f.output)
}

/// What is past the counts is as it was lent, bit for bit, an incomplete row of quads too.
fn kept(lent: &Flat, left: &Flat, f: Flattened) -> Result<(), String> {
    fn past<T: PartialEq>(name: &str, lent: &[T], left: &[T], count: usize) -> Result<(), String> {
        match (count..lent.len()).find(|i| lent[*i] != left[*i]) {
            Some(i) => Err(format!("{name}[{i}] is past the count, {count}, and was written")),
            None => Ok(()),
        }
    }
    let bits = |column: &[f32]| column.iter().map(|v| v.to_bits()).collect::<Vec<u32>>();
    let (q, r) = (&lent.quads, &left.quads);
    let (s, t) = (&lent.splines, &left.splines);
    let (o, p) = (&lent.output, &left.output);
    for (name, a, b, count) in [
        ("quad_rows", &q.rows, &r.rows, QUAD_ROW * f.quads),
        ("curvature", &s.curvature, &t.curvature, f.splines),
        ("p0x", &s.p0x, &t.p0x, f.splines),
        ("p0y", &s.p0y, &t.p0y, f.splines),
        ("p2x", &s.p2x, &t.p2x, f.splines),
        ("p2y", &s.p2y, &t.p2y, f.splines),
        ("output x", &o.x, &p.x, f.points),
        ("output y", &o.y, &p.y, f.points),
    ] {
        past(name, &bits(a), &bits(b), count)?;
    }
    past("partial_splines", &q.partial_splines, &r.partial_splines, f.quads)?;
    past("contour", &s.contour, &t.contour, f.splines)?;
    past("first_quad", &s.first_quad, &t.first_quad, f.splines)?;
    past("quad_count", &s.quad_count, &t.quad_count, f.splines)?;
    past("words", &o.words, &p.words, f.points)?;
    past("end", &o.end, &p.end, f.points)
}

/// The same flattening by both, on equal buffers. Gives the answer, or what differs.
pub fn flatten_both(lent: &Flat) -> Result<Flattened, String> {
    let (mut ours, mut theirs) = (lent.clone(), lent.clone());
    let (a, b) = (by_library(&mut ours), theirs.by_model());
    let told = |e: String| format!("{e}\n  flattening {:?} on {:?}, {:?}", lent.setting, lent.st, lent.columns);
    if a != b {
        return Err(told(format!("{a:?}, the model has {b:?}")));
    }
    let (q, r) = (&ours.quads, &theirs.quads);
    let (s, t) = (&ours.splines, &theirs.splines);
    let (o, p) = (&ours.output, &theirs.output);
    for (name, x, y) in [
        ("quad_rows", &q.rows, &r.rows),
        ("curvature", &s.curvature, &t.curvature),
        ("p0x", &s.p0x, &t.p0x),
        ("p0y", &s.p0y, &t.p0y),
        ("p2x", &s.p2x, &t.p2x),
        ("p2y", &s.p2y, &t.p2y),
        ("output x", &o.x, &p.x),
        ("output y", &o.y, &p.y),
    ] {
        same_floats(name, x, y).map_err(told)?;
    }
    if q.partial_splines != r.partial_splines || s.contour != t.contour || o.words != p.words || o.end != p.end {
        return Err(told("partial_splines, contour, words or end differ from the model's".to_string()));
    }
    if s.first_quad != t.first_quad || s.quad_count != t.quad_count {
        return Err(told("first_quad or quad_count differ from the model's".to_string()));
    }
    kept(lent, &ours, a).map_err(told)?;
    Ok(a)
}
