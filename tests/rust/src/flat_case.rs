//! Flattenings with any store and any lent lengths, for comparing all that a call leaves.

use crate::{
    against::drawn,
    call::{p, Call},
    drawings::{by_hand, kind, random},
    model::{self, Columns, Flattened, Output, QuadTable, Setting, SplineTable, State, QUAD_ROW},
    rng::Rng,
    wild::any_store,
};

/// All that is lent to one flattening.
#[derive(Clone, Debug)]
pub struct Flat {
    pub setting: Setting,
    pub st: State,
    pub columns: Columns,
    pub quads: QuadTable,
    pub splines: SplineTable,
    pub output: Output,
}

impl Flat {
    /// What the model answers, and leaves in the tables and outputs.
    pub fn by_model(&mut self) -> Flattened {
        model::flatten(self.setting, self.st, &self.columns, &mut self.quads, &mut self.splines, &mut self.output)
    }
}

/// How the quad tables of some flattenings were lent, and what filled them.
#[derive(Clone, Debug, Default, PartialEq)]
pub struct Lent {
    /// an incomplete row at the end
    pub incomplete: u64,
    pub more_rows: u64,
    pub fewer_rows: u64,
    /// answer 6 for want of a row, of a row where an incomplete one is left, and of a spline number
    pub no_row: u64,
    pub incomplete_row: u64,
    pub no_spline: u64,
}

impl Lent {
    pub fn add(&mut self, q: &QuadTable, answer: u8) {
        let (rows, splines) = (q.rows.len() / QUAD_ROW, q.partial_splines.len());
        let incomplete = q.rows.len() % QUAD_ROW > 0;
        let full = answer == 6;
        for (count, met) in [
            (&mut self.incomplete, incomplete),
            (&mut self.more_rows, rows > splines),
            (&mut self.fewer_rows, rows < splines),
            (&mut self.no_row, full && rows < splines && !incomplete),
            (&mut self.incomplete_row, full && rows < splines && incomplete),
            (&mut self.no_spline, full && rows > splines),
        ] {
            *count += met as u64;
        }
    }
}

/// A length close to what is needed: enough, one too short, or 0.
fn length(rng: &mut Rng, needed: usize, all: usize) -> usize {
    match rng.below(200) {
        0 => needed.saturating_sub(1),
        1 => 0,
        2 => rng.below(needed as u64 + 1) as usize,
        _ => all,
    }
}

/// Sums that a walk could take for its own, or any bits.
fn floats(rng: &mut Rng, len: usize) -> Vec<f32> {
    (0..len).map(|_| f32::from_bits(if rng.one_in(2) { 0x4000_0000 + rng.below(0x100_0000) as u32 } else { rng.next() as u32 })).collect()
}

/// A quad's number that a walk could take for its own, or any.
fn any_number(rng: &mut Rng) -> usize {
    if rng.one_in(2) {
        rng.below(8) as usize
    } else {
        rng.next() as usize
    }
}

/// A drawing whose points and words fit in `most`, or a store of any kind, lent with any lengths.
pub fn any_flat(rng: &mut Rng, most: usize) -> Flat {
    let (mut st, mut columns) = match rng.below(8) {
        0 => any_store(rng),
        1 => {
            let s = by_hand(rng);
            let st = State { points: s.x.len(), commands: s.commands.len(), opening: s.opening };
            (st, Columns { x: s.x, y: s.y, weight: s.weight, commands: s.commands })
        }
        _ => loop {
            let k = kind(rng);
            let calls = random(rng, k);
            if let Ok((st, c)) = drawn(&calls) {
                if st.points <= most {
                    break (st, c);
                }
            }
        },
    };
    // sometimes one thing is wrong
    if rng.one_in(10) && !columns.x.is_empty() && !columns.commands.is_empty() && columns.y.len() == columns.x.len() && columns.weight.len() == columns.x.len() {
        let i = rng.below(columns.x.len() as u64) as usize;
        let bad = rng.pick(&[f32::NAN, f32::INFINITY, 4_194_304.5, 65.0, 0.0, 4_194_304.0, 64.0, 1.0 / 64.0, -4_194_304.0, -1.0]);
        match rng.below(8) {
            0 => columns.x[i] = bad,
            1 => columns.y[i] = bad,
            2 => columns.weight[i] = bad,
            3 => st.points = st.points.wrapping_add(rng.below(3) as usize).wrapping_sub(1),
            4 => st.commands = st.commands.wrapping_add(rng.below(3) as usize).wrapping_sub(1),
            5 => {
                let i = rng.below(columns.commands.len() as u64) as usize;
                columns.commands[i] = rng.below(6) as u8;
            }
            6 => st.opening = rng.below((st.points as u64).saturating_add(2)) as usize,
            _ => {
                columns.weight.pop();
            }
        }
    }
    let setting = if rng.one_in(2) { Setting::Screen } else { Setting::Knife };
    // what it needs
    let mut room = (QuadTable::with_room(2048), SplineTable::with_room(2048), Output::with_room(1 << 14));
    let need = model::flatten(setting, st, &columns, &mut room.0, &mut room.1, &mut room.2);
    let words = if need.answer == 0 { need.points } else { 16 };
    let more = |rng: &mut Rng, n: usize| n + if rng.one_in(3) { 0 } else { rng.below(4) as usize };
    // mostly enough, sometimes one whole table too short
    let short = |rng: &mut Rng, n: usize| if rng.one_in(8) { rng.below(n as u64 + 1) as usize } else { more(rng, n) };
    let (ns, nw) = (short(rng, need.splines), short(rng, words));
    let one = |rng: &mut Rng, needed: usize, all: usize| {
        let len = length(rng, needed, all);
        floats(rng, len)
    };
    // either column of the quad table may be the shorter one, and the rows mostly end in an incomplete one
    let numbers = QUAD_ROW * short(rng, need.quads) + rng.below(QUAD_ROW as u64) as usize;
    let owners = short(rng, need.quads);
    let quads = QuadTable {
        rows: one(rng, QUAD_ROW * need.quads, numbers),
        partial_splines: (0..length(rng, need.quads, owners)).map(|_| rng.next() as u32).collect(),
    };
    let splines = SplineTable {
        curvature: one(rng, need.splines, ns),
        p0x: one(rng, need.splines, ns),
        p0y: one(rng, need.splines, ns),
        p2x: one(rng, need.splines, ns),
        p2y: one(rng, need.splines, ns),
        contour: (0..length(rng, need.splines, ns)).map(|_| rng.next() as u8).collect(),
        first_quad: (0..length(rng, need.splines, ns)).map(|_| any_number(rng)).collect(),
        quad_count: (0..length(rng, need.splines, ns)).map(|_| any_number(rng) as u32).collect(),
    };
    let output = Output {
        words: (0..length(rng, words, nw)).map(|_| rng.next() as u32).collect(),
        x: one(rng, words, nw),
        y: one(rng, words, nw),
        end: (0..length(rng, words, nw)).map(|_| rng.next() as u8).collect(),
    };
    Flat { setting, st, columns, quads, splines, output }
}

/// A drawing of three quads whose table is lent with every length up to a row and a spline number more than it needs.
pub fn every_length() -> Vec<Flat> {
    let quads = [[p(5.0, 0.0), p(10.0, 0.0)], [p(20.0, 0.0), p(20.0, 10.0)], [p(20.0, 20.0), p(10.0, 30.0)]];
    let (st, columns) = drawn(&quads.map(|[a, b]| Call::Quad(a, b))).expect("it is drawn");
    let mut rng = Rng(11);
    let mut out = Vec::new();
    for (setting, owners) in [Setting::Screen, Setting::Knife].into_iter().flat_map(|s| (0..=4).map(move |n| (s, n))) {
        for numbers in 0..=4 * QUAD_ROW {
            let quads = QuadTable { rows: floats(&mut rng, numbers), partial_splines: (0..owners).map(|_| rng.next() as u32).collect() };
            out.push(Flat { setting, st, columns: columns.clone(), quads, splines: SplineTable::with_room(3), output: Output::with_room(64) });
        }
    }
    out
}

/// Three splines whose table is lent with one column in turn of every length up to one more than they need.
pub fn every_spline_length() -> Vec<Flat> {
    let calls = [Call::Quad(p(5.0, 0.0), p(10.0, 0.0)), Call::Line(p(10.0, 5.0)), Call::Quad(p(5.0, 5.0), p(5.0, 9.0))];
    let (st, columns) = drawn(&calls).expect("it is drawn");
    let mut out = Vec::new();
    for (setting, column) in [Setting::Screen, Setting::Knife].into_iter().flat_map(|s| (0..8).map(move |c| (s, c))) {
        for n in 0..=4 {
            let mut splines = SplineTable::with_room(4);
            match column {
                0 => splines.curvature.truncate(n),
                1 => splines.p0x.truncate(n),
                2 => splines.p0y.truncate(n),
                3 => splines.p2x.truncate(n),
                4 => splines.p2y.truncate(n),
                5 => splines.contour.truncate(n),
                6 => splines.first_quad.truncate(n),
                _ => splines.quad_count.truncate(n),
            }
            out.push(Flat { setting, st, columns: columns.clone(), quads: QuadTable::with_room(2), splines, output: Output::with_room(64) });
        }
    }
    out
}

#[cfg(test)]
mod tests {
    use super::*;

    #[test]
    fn all_ways_to_lend_the_quad_table_are_met() {
        let mut rng = Rng(1);
        let mut lent = Lent::default();
        for _ in 0..2000 {
            let mut flat = any_flat(&mut rng, 100);
            let answer = flat.by_model().answer;
            lent.add(&flat.quads, answer);
        }
        let Lent { incomplete, more_rows, fewer_rows, no_row, incomplete_row, no_spline } = lent;
        assert!([incomplete, more_rows, fewer_rows, no_row, incomplete_row, no_spline].iter().all(|n| *n > 0), "{lent:?}");
    }

    #[test]
    fn three_quads_need_three_rows_and_three_spline_numbers() {
        for mut flat in every_length() {
            let room = flat.quads.capacity();
            let f = flat.by_model();
            assert_eq!((f.answer, f.quads), if room < 3 { (6, room) } else { (0, 3) });
        }
    }

    #[test]
    fn three_splines_need_three_entries_of_each_column() {
        for (i, mut flat) in every_spline_length().into_iter().enumerate() {
            let room = i % 5;
            let f = flat.by_model();
            assert_eq!((f.answer, f.splines), if room < 3 { (7, room) } else { (0, 3) });
        }
    }
}
