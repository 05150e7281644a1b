//! One drawing, flattened by the original Rust and by the library, again and again: the Rust allocates what it needs, the library is lent as much as it needs.
//! Neither's buffers are cleared between two flattenings.

use against_rust::{
    against::{same_flattening, Room},
    call::Call,
    hostile,
    model::{Columns, Flattened, Setting, State},
    original::screen,
    seen::Seen,
};

pub struct Sides {
    rust: screen::Repeated,
    st: State,
    columns: Columns,
    room: Room,
    /// what the library answered last
    told: Flattened,
}

impl Sides {
    /// The drawing with just as much room as it needs, and what the original makes of it.
    fn lend(calls: &[Call]) -> (Sides, Seen) {
        let store = screen::store(calls);
        let seen = screen::flatten_store(&store);
        let sides = Sides {
            rust: screen::Repeated::new(&store),
            st: State { points: store.x.len(), commands: store.commands.len(), opening: store.opening },
            columns: Columns { x: store.x, y: store.y, weight: store.weight, commands: store.commands },
            room: Room::new(seen.tables.partial_splines.len(), seen.tables.curvature.len(), seen.words.len()),
            told: Flattened::default(),
        };
        (sides, seen)
    }

    /// Flattened once by each and compared: tables, words and points.
    pub fn new(calls: &[Call]) -> Result<Sides, String> {
        let (mut sides, seen) = Sides::lend(calls);
        sides.rust();
        sides.ours();
        same_flattening(sides.told, &sides.room, &seen)?;
        sides.same()?;
        Ok(sides)
    }

    /// For a processor that is imitated: the original's floats, and so its counts, may be others there. The library gets room to spare, and nothing is compared.
    pub fn imitated(calls: &[Call]) -> Sides {
        let (mut sides, seen) = Sides::lend(calls);
        let spare = |n: usize| n + n / 8;
        sides.room = Room::new(spare(seen.tables.partial_splines.len()), spare(seen.tables.curvature.len()), spare(seen.words.len()));
        sides.rust();
        sides.ours();
        assert_eq!(sides.told.answer, 0);
        sides
    }

    /// How many points there are.
    pub fn points(&self) -> usize {
        self.told.points
    }

    pub fn rust(&mut self) -> usize {
        self.rust.flatten()
    }

    pub fn ours(&mut self) -> usize {
        let Room { quads, splines, output } = &mut self.room;
        self.told = hostile::flatten(Setting::Screen, self.st, &self.columns, quads, splines, output);
        self.told.points
    }

    /// Whether what both gave last is the same, bit for bit: each point's x and y, and whether it ends a contour.
    pub fn same(&self) -> Result<(), String> {
        let (x, y, end) = self.rust.points();
        let ours = &self.room.output;
        if self.told.answer != 0 || self.told.points != x.len() {
            return Err(format!("{:?}, the Rust has {} points", self.told, x.len()));
        }
        let differs = |i: usize| ours.x[i].to_bits() != x[i].to_bits() || ours.y[i].to_bits() != y[i].to_bits() || (ours.end[i] != 0) != end[i];
        match (0..x.len()).find(|i| differs(*i)) {
            Some(i) => Err(format!("point {i}: ({}, {}) {}, the Rust has ({}, {}) {}", ours.x[i], ours.y[i], ours.end[i], x[i], y[i], end[i])),
            None => Ok(()),
        }
    }

    /// Bytes lent in all: the drawing, the quad table, the spline table, words and points.
    pub fn lent(&self) -> [usize; 4] {
        let Room { quads, splines, output } = &self.room;
        let c = &self.columns;
        [
            bytes(&c.x) + bytes(&c.y) + bytes(&c.weight) + bytes(&c.commands),
            bytes(&quads.rows) + bytes(&quads.partial_splines),
            bytes(&splines.curvature)
                + bytes(&splines.p0x)
                + bytes(&splines.p0y)
                + bytes(&splines.p2x)
                + bytes(&splines.p2y)
                + bytes(&splines.contour)
                + bytes(&splines.first_quad)
                + bytes(&splines.quad_count),
            bytes(&output.words) + bytes(&output.x) + bytes(&output.y) + bytes(&output.end),
        ]
    }

    /// The library's points, contour by contour.
    pub fn contours(&self) -> Vec<Vec<[f64; 2]>> {
        let o = &self.room.output;
        let mut contours = vec![Vec::new()];
        for i in 0..self.told.points {
            contours.last_mut().unwrap().push([o.x[i] as f64, o.y[i] as f64]);
            if o.end[i] != 0 {
                contours.push(Vec::new());
            }
        }
        contours.pop_if(|c| c.is_empty());
        contours
    }
}

fn bytes<T>(column: &[T]) -> usize {
    std::mem::size_of_val(column)
}

#[cfg(test)]
mod tests {
    use super::*;
    use crate::drawings::{drawing, Kind};
    use against_rust::model::QUAD_ROW;

    #[test]
    fn both_sides_agree_and_any_changed_bit_is_seen() {
        for kind in Kind::ALL {
            let mut sides = Sides::new(&drawing(kind, 100)).unwrap();
            assert_eq!(sides.rust(), sides.ours());
            assert_eq!(sides.same(), Ok(()));
            let last = sides.points() - 1;
            for i in [0, last / 2, last] {
                let o = &mut sides.room.output;
                o.x[i] = f32::from_bits(o.x[i].to_bits() ^ 1);
                assert!(sides.same().is_err());
                sides.ours();
                let o = &mut sides.room.output;
                o.y[i] = f32::from_bits(o.y[i].to_bits() ^ 1);
                assert!(sides.same().is_err());
                sides.ours();
                sides.room.output.end[i] ^= 1;
                assert!(sides.same().is_err());
                sides.ours();
            }
            sides.told.points -= 1;
            assert!(sides.same().is_err());
        }
    }

    #[test]
    fn what_is_lent_is_just_what_is_used() {
        let sides = Sides::new(&drawing(Kind::Cubics, 100)).unwrap();
        let f = sides.told;
        // 5 Moves, 100 cubics, and a line that closes each contour
        assert_eq!(sides.lent(), [(5 + 300 + 5) * 12 + 110, f.quads * (4 * QUAD_ROW + 4), f.splines * 33, f.points * 13]);
    }
}
