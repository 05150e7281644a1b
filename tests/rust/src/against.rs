//! The model against the original: store, every table column, words and points, bit for bit.

use crate::{
    call::{written, Call},
    contours::{self, Whole},
    model::{
        self, cover,
        flatten::{errors_of, exact_pieces, flatten_with, powf_pieces},
        Columns, Flattened, Output, QuadTable, Setting, SplineTable, State, QUAD_ROW,
    },
    original::{knife, screen},
    seen::{Seen, Store},
};

/// Work columns, lent again and again.
pub struct Room {
    pub quads: QuadTable,
    pub splines: SplineTable,
    pub output: Output,
}

impl Room {
    pub fn new(quads: usize, splines: usize, points: usize) -> Room {
        Room { quads: QuadTable::with_room(quads), splines: SplineTable::with_room(splines), output: Output::with_room(points) }
    }
}

#[derive(Clone, Debug, Default)]
pub struct Counts {
    pub drawings: u64,
    pub by_hand: u64,
    /// compared whole in the screen setting, and in the knife setting
    pub screen: u64,
    pub knife: u64,
    /// drawings in which some cubic is cut differently; compared with the original's numbers of pieces
    pub differing_drawings: u64,
    pub cubics: u64,
    pub differing_cubics: u64,
    pub more: u64,
    pub fewer: u64,
    /// flattenings refused by the port alone, by answer
    pub refused: [u64; 12],
    pub calls: u64,
    pub points: u64,
    pub screen_points: u64,
    pub settings_differ: u64,
    pub mismatches: u64,
    /// the whole against its contours, by the model
    pub contours: contours::Counts,
}

pub fn bits(column: &[f32]) -> impl Iterator<Item = u32> + '_ {
    column.iter().map(|v| if v.is_nan() { 0x7fc0_0000 } else { v.to_bits() })
}

fn floats(name: &str, ours: &[f32], theirs: &[f32]) -> Result<(), String> {
    if ours.len() != theirs.len() {
        return Err(format!("{name}: {} entries, the original has {}", ours.len(), theirs.len()));
    }
    for (i, (a, b)) in bits(ours).zip(bits(theirs)).enumerate() {
        if a != b {
            return Err(format!("{name}[{i}]: {a:08x}, the original has {b:08x}"));
        }
    }
    Ok(())
}

fn whole<T: PartialEq + std::fmt::Debug>(name: &str, ours: &[T], theirs: &[T]) -> Result<(), String> {
    if ours.len() != theirs.len() {
        return Err(format!("{name}: {} entries, the original has {}", ours.len(), theirs.len()));
    }
    for i in 0..ours.len() {
        if ours[i] != theirs[i] {
            return Err(format!("{name}[{i}]: {:x?}, the original has {:x?}", ours[i], theirs[i]));
        }
    }
    Ok(())
}

/// The first count entries of each column are the original's store.
pub fn same_store(st: State, c: &Columns, store: &Store) -> Result<(), String> {
    floats("store x", &c.x[..st.points], &store.x)?;
    floats("store y", &c.y[..st.points], &store.y)?;
    floats("store weight", &c.weight[..st.points], &store.weight)?;
    whole("store commands", &c.commands[..st.commands], &store.commands)?;
    if st.opening != store.opening {
        return Err(format!("open index {}, the original has {}", st.opening, store.opening));
    }
    Ok(())
}

/// All that a flattening gives on 0.
pub fn same_flattening(f: Flattened, room: &Room, seen: &Seen) -> Result<(), String> {
    let (q, s, o, t) = (&room.quads, &room.splines, &room.output, &seen.tables);
    if (f.splines, f.quads, f.points) != (t.curvature.len(), t.partial_splines.len(), seen.words.len()) {
        return Err(format!("{f:?}, the original has {} splines, {} quads, {} points", t.curvature.len(), t.partial_splines.len(), seen.words.len()));
    }
    let (n, k, m) = (f.quads, f.splines, f.points);
    floats("quad_rows", &q.rows[..QUAD_ROW * n], &t.rows)?;
    whole("partial_splines", &q.partial_splines[..n], &t.partial_splines)?;
    floats("curvature", &s.curvature[..k], &t.curvature)?;
    floats("p0x", &s.p0x[..k], &t.p0x)?;
    floats("p0y", &s.p0y[..k], &t.p0y)?;
    floats("p2x", &s.p2x[..k], &t.p2x)?;
    floats("p2y", &s.p2y[..k], &t.p2y)?;
    whole("contour", &s.contour[..k], &t.contour)?;
    whole("first_quad", &s.first_quad[..k], &t.first_quad)?;
    whole("quad_count", &s.quad_count[..k], &t.quad_count)?;
    whole("words", &o.words[..m], &seen.words)?;
    floats("output x", &o.x[..m], &seen.x)?;
    floats("output y", &o.y[..m], &seen.y)?;
    whole("output end", &o.end[..m], &seen.end)
}

/// The model's columns after these calls, all of which must be accepted.
pub fn drawn(calls: &[Call]) -> Result<(State, Columns), String> {
    let points = 2 + 4 * calls.len();
    let mut c = Columns { x: vec![0.0; points], y: vec![0.0; points], weight: vec![0.0; points], commands: vec![9; 2 + 2 * calls.len()] };
    let (answer, mut st) = model::fresh(&mut c);
    if answer != 0 {
        return Err(format!("fresh answers {answer}"));
    }
    for (i, call) in calls.iter().enumerate() {
        let (answer, next) = model::draw(call, st, &mut c);
        if answer != 0 {
            return Err(format!("call {i} answers {answer}"));
        }
        st = next;
    }
    Ok((st, c))
}

/// One store, in both settings. `pieces` are the original's.
fn compare_flattenings(
    st: State,
    c: &Columns,
    pieces: &[usize],
    see: [&dyn Fn() -> Seen; 2],
    room: &mut Room,
    n: &mut Counts,
) -> Result<(), String> {
    let errors = errors_of(st, c);
    if errors.len() != pieces.len() {
        return Err(format!("{} cubics, the original has {}", errors.len(), pieces.len()));
    }
    n.cubics += errors.len() as u64;
    let mut differ = false;
    for ((q, mult), b) in errors.iter().zip(pieces) {
        let a = &exact_pieces(*q, *mult);
        if *a != *b as u64 {
            // they may differ by one, and only where the true number is next to a whole one
            let near = (*q as f64).powf(1.0 / 6.0) * *mult as f64;
            if a.abs_diff(*b as u64) != 1 || (near - near.round()).abs() > near * 1e-6 {
                return Err(format!("{a} pieces of q = {q:?}, the original has {b}"));
            }
            differ = true;
            n.differing_cubics += 1;
            if *a > *b as u64 {
                n.more += 1;
            } else {
                n.fewer += 1;
            }
        }
    }
    if differ {
        n.differing_drawings += 1;
    }
    let with = if differ { powf_pieces } else { exact_pieces };
    let by = |setting: Setting, st: State, c: &Columns, room: &mut Room| flatten_with(with, setting, st, c, &mut room.quads, &mut room.splines, &mut room.output);
    let mut words = Vec::new();
    for (i, setting) in [Setting::Screen, Setting::Knife].into_iter().enumerate() {
        let whole = Whole { setting, st, columns: c };
        let f = by(setting, st, c, room);
        if f.answer != 0 {
            n.refused[f.answer as usize] += 1;
            cover::uncounted(|| n.contours.refused(&by, whole, f.answer, room))?;
            continue;
        }
        let seen = see[i]();
        same_flattening(f, room, &seen).map_err(|e| format!("{setting:?}: {e}"))?;
        cover::uncounted(|| n.contours.accepted(&by, whole, f, room))?;
        n.points += f.points as u64;
        if setting == Setting::Screen {
            n.screen_points += f.points as u64;
        }
        if !differ {
            match setting {
                Setting::Screen => n.screen += 1,
                Setting::Knife => n.knife += 1,
            }
        }
        if i == 1 && words != seen.words {
            n.settings_differ += 1;
        }
        words = seen.words;
    }
    Ok(())
}

/// A drawing by calls: the store, then both settings.
pub fn compare_drawing(calls: &[Call], prefixes: bool, room: &mut Room, n: &mut Counts) -> Result<(), String> {
    n.drawings += 1;
    n.calls += calls.len() as u64;
    let result = (|| {
        let (st, c) = drawn(calls)?;
        same_store(st, &c, &screen::store(calls))?;
        if prefixes {
            for k in 0..calls.len() {
                let (st, c) = drawn(&calls[..k])?;
                same_store(st, &c, &screen::store(&calls[..k])).map_err(|e| format!("after {k} calls: {e}"))?;
            }
        }
        let pieces = screen::pieces(calls);
        compare_flattenings(st, &c, &pieces, [&|| screen::flatten(calls), &|| knife::flatten(calls)], room, n)
    })();
    result.map_err(|e| {
        n.mismatches += 1;
        format!("{e}\n{}", written(calls))
    })
}

/// A store made by hand: flattened in both settings, then drawn on.
pub fn compare_store(store: &Store, calls: &[Call], room: &mut Room, n: &mut Counts) -> Result<(), String> {
    n.by_hand += 1;
    let result = (|| {
        let points = store.x.len();
        let st = State { points, commands: store.commands.len(), opening: store.opening };
        let with_room = |v: &[f32]| [v, &vec![0.0; 4 * calls.len()]].concat();
        let mut c = Columns {
            x: with_room(&store.x),
            y: with_room(&store.y),
            weight: with_room(&store.weight),
            commands: [&store.commands[..], &vec![0; 2 * calls.len()]].concat(),
        };
        let pieces = screen::pieces_of_store(store);
        compare_flattenings(st, &c, &pieces, [&|| screen::flatten_store(store), &|| knife::flatten_store(store)], room, n)?;
        let mut st = st;
        for (i, call) in calls.iter().enumerate() {
            let (answer, next) = model::draw(call, st, &mut c);
            if answer != 0 {
                return Err(format!("call {i} answers {answer}"));
            }
            st = next;
        }
        same_store(st, &c, &screen::draw_on(store, calls)).map_err(|e| format!("{e}\n{}", written(calls)))
    })();
    result.map_err(|e| {
        n.mismatches += 1;
        format!("{e}\n{store:?}")
    })
}
