//! 02, Eight: "flattening such a drawing gives the points of the contours, each flattened as a drawing by itself, joined in order". Tested on what a flattener
//! itself gives, the model or the library.

use crate::{
    against::{bits, Room},
    model::{store::MOVE, Columns, Flattened, Output, Setting, State, QUAD_ROW},
};

/// A flattening into lent columns.
pub type By<'a> = &'a dyn Fn(Setting, State, &Columns, &mut Room) -> Flattened;

/// A drawing that may be a nest, and how it is flattened.
#[derive(Clone, Copy)]
pub struct Whole<'a> {
    pub setting: Setting,
    pub st: State,
    pub columns: &'a Columns,
}

/// Each contour as a drawing: the commands from a Move up to the next one or the end, and exactly their points.
pub fn contours(st: State, c: &Columns) -> Vec<(State, Columns)> {
    let mut out: Vec<(State, Columns)> = Vec::new();
    let mut used = 0;
    for &k in &c.commands[..st.commands] {
        if k == MOVE {
            out.push(Default::default());
        }
        let (st, own) = out.last_mut().expect("the first command is a Move");
        let points = used..used + (k as usize).max(1);
        used = points.end;
        own.x.extend_from_slice(&c.x[points.clone()]);
        own.y.extend_from_slice(&c.y[points.clone()]);
        own.weight.extend_from_slice(&c.weight[points]);
        own.commands.push(k);
        *st = State { points: own.x.len(), commands: own.commands.len(), opening: 0 };
    }
    out
}

/// A word whose spline has n splines before it: Starts and Ends have its number in their last 22 bits.
fn numbered_on(n: usize, word: u32) -> u32 {
    let step = word & 0x7f80_0000 != 0x7f80_0000;
    word + if step { 0 } else { n as u32 }
}

/// Demand 3's condition on sums: in every spline of two or more quads a whole number lies strictly between the last two running sums.
fn spread(f: Flattened, room: &Room) -> bool {
    let sum = |quad: usize| room.quads.rows[QUAD_ROW * quad + QUAD_ROW - 1];
    (0..f.splines).all(|k| {
        let (first, n) = (room.splines.first_quad[k], room.splines.quad_count[k] as usize);
        n < 2 || sum(first + n - 2).floor() + 1.0 < sum(first + n - 1)
    })
}

/// The contours' words, their splines numbered on, and points, one after the other.
#[derive(Default)]
struct Joined {
    output: Output,
    splines: usize,
    quads: usize,
    spread: Vec<bool>,
}

impl Joined {
    fn add(&mut self, f: Flattened, room: &Room) {
        let (to, o) = (&mut self.output, &room.output);
        to.words.extend(o.words[..f.points].iter().map(|w| numbered_on(self.splines, *w)));
        to.x.extend_from_slice(&o.x[..f.points]);
        to.y.extend_from_slice(&o.y[..f.points]);
        to.end.extend_from_slice(&o.end[..f.points]);
        self.splines += f.splines;
        self.quads += f.quads;
        self.spread.push(spread(f, room));
    }

    fn counts(&self) -> Flattened {
        Flattened { answer: 0, splines: self.splines, quads: self.quads, points: self.output.words.len() }
    }
}

/// The first n words and flags are the same.
fn same_words(a: &Output, b: &Output, n: usize) -> bool {
    a.words[..n] == b.words[..n] && a.end[..n] == b.end[..n]
}

fn same_points(a: &Output, b: &Output, n: usize) -> bool {
    bits(&a.x[..n]).eq(bits(&b.x[..n])) && bits(&a.y[..n]).eq(bits(&b.y[..n]))
}

/// Drawings with more points take most of the time.
const LARGE: usize = 4096;

/// Of the large ones, and of those with one contour, which alone is the same store, one in so many is compared. Drawings come as they are and built in turn, so that
/// an odd share has both.
const SHARE: u64 = 7;

/// What was compared.
#[derive(Clone, Debug, Default)]
pub struct Counts {
    /// large drawings and those with one contour, by setting, compared or not
    pub shared: [u64; 2],
    /// accepted drawings, by setting, and how many of them have two contours or more
    pub drawings: [u64; 2],
    pub nests: [u64; 2],
    pub contours: u64,
    pub without_spline: u64,
    pub points: u64,
    /// of the screen, where the condition on sums does not hold; of these nests; of these with other points than the contours'
    pub not_spread: u64,
    pub not_spread_nests: u64,
    pub other_points: u64,
    /// with just enough room, and refused with 6, 7 and 9 with one quad, spline or point less
    pub enough: u64,
    pub one_less: [u64; 3],
    /// refused with room for all, as one of its contours is
    pub refused: u64,
}

impl Counts {
    /// An accepted drawing, which left `f` and `room`: each contour alone is accepted in as much room as the whole takes, and joined they give what it gives.
    pub fn accepted(&mut self, by: By, whole: Whole, f: Flattened, room: &Room) -> Result<(), String> {
        let parts = contours(whole.st, whole.columns);
        if (f.points > LARGE || parts.len() == 1) && !self.is_chosen(whole.setting) {
            return Ok(());
        }
        let mut lent = Room::new(f.quads, f.splines, f.points);
        let mut joined = Joined::default();
        for (i, (st, c)) in parts.iter().enumerate() {
            let alone = by(whole.setting, *st, c, &mut lent);
            if alone.answer != 0 {
                return Err(format!("{:?}: the whole is accepted, and contour {i} alone is refused with {}", whole.setting, alone.answer));
            }
            self.without_spline += (alone.splines == 0) as u64;
            joined.add(alone, &lent);
        }
        self.count(whole.setting, parts.len(), f);
        self.joined(whole.setting, f, room, &joined).map_err(|e| format!("{:?}, {} contours: {e}", whole.setting, parts.len()))?;
        // the whole again, four times: one in three of these
        if self.drawings[whole.setting as usize] % 3 != 1 {
            return Ok(());
        }
        self.rooms(by, whole, f, room, &mut lent).map_err(|e| format!("{:?}: {e}", whole.setting))
    }

    fn is_chosen(&mut self, setting: Setting) -> bool {
        let shared = &mut self.shared[setting as usize];
        *shared += 1;
        *shared % SHARE == 1
    }

    fn count(&mut self, setting: Setting, contours: usize, f: Flattened) {
        self.drawings[setting as usize] += 1;
        self.nests[setting as usize] += (contours > 1) as u64;
        self.contours += contours as u64;
        self.points += f.points as u64;
    }

    /// On the screen points are claimed only where the condition on sums holds; words do not depend on it.
    fn joined(&mut self, setting: Setting, f: Flattened, room: &Room, joined: &Joined) -> Result<(), String> {
        if joined.counts() != f {
            return Err(format!("{f:?}, the contours have {:?}", joined.counts()));
        }
        let holds = spread(f, room);
        if holds != joined.spread.iter().all(|s| *s) {
            return Err(format!("the condition on sums: {holds}, on the contours {:?}", joined.spread));
        }
        if !same_words(&room.output, &joined.output, f.points) {
            return Err("other words than the contours'".to_string());
        }
        let same = same_points(&room.output, &joined.output, f.points);
        if setting == Setting::Screen && !holds {
            self.not_spread += 1;
            self.not_spread_nests += (joined.spread.len() > 1) as u64;
            self.other_points += !same as u64;
        } else if !same {
            return Err("other points than the contours'".to_string());
        }
        Ok(())
    }

    /// `lent` has room for the sums of the contours' counts, and no more: the whole is accepted with it, and refused with one quad, spline or point less.
    fn rooms(&mut self, by: By, whole: Whole, f: Flattened, room: &Room, lent: &mut Room) -> Result<(), String> {
        let again = by(whole.setting, whole.st, whole.columns, lent);
        if again != f || !same_words(&lent.output, &room.output, f.points) || !same_points(&lent.output, &room.output, f.points) {
            return Err(format!("with just enough room {again:?}, with more {f:?}, or other words or points"));
        }
        self.enough += 1;
        let needs = [f.quads, f.splines, f.points];
        for (i, answer) in [6, 7, 9].into_iter().enumerate().filter(|(i, _)| needs[*i] > 0) {
            let mut less = needs;
            less[i] -= 1;
            let refused = by(whole.setting, whole.st, whole.columns, &mut Room::new(less[0], less[1], less[2]));
            if refused.answer != answer {
                return Err(format!("{f:?}, and with room for {less:?} the answer is {}", refused.answer));
            }
            self.one_less[i] += 1;
        }
        Ok(())
    }

    /// A drawing that is refused though `room` has room for it: so is one of its contours, with the same answer.
    pub fn refused(&mut self, by: By, whole: Whole, answer: u8, room: &mut Room) -> Result<(), String> {
        self.refused += 1;
        let answers: Vec<u8> = contours(whole.st, whole.columns).iter().map(|(st, c)| by(whole.setting, *st, c, room).answer).collect();
        if answers.contains(&answer) {
            return Ok(());
        }
        Err(format!("{:?}: the whole is refused with {answer}, the contours answer {answers:?}", whole.setting))
    }

    /// Whether each part of the claim was met.
    pub fn met(&self) -> bool {
        let each = [self.without_spline, self.points, self.not_spread_nests, self.other_points, self.enough, self.refused];
        each.iter().chain(&self.nests).chain(&self.one_less).all(|n| *n > 0)
    }

    pub fn print(&self) {
        let ([screens, knives], [nests, of_knife], [quad, spline, point]) = (self.drawings, self.nests, self.one_less);
        println!("the whole against its contours, each flattened alone and joined:");
        println!("{screens:11}  flattenings of the screen and {knives} of the knife; {nests} and {of_knife} of them have two contours or more");
        println!("{:11}  contours, {} of them without a spline; {} points", self.contours, self.without_spline, self.points);
        println!("{:11}  flattenings of one contour or over {LARGE} points, of which one in {SHARE} is among these", self.shared[0] + self.shared[1]);
        println!("{:11}  flattenings of the screen where the condition on sums does not hold, {} of them with two contours or more", self.not_spread, self.not_spread_nests);
        println!("{:11}    of them with other points than their contours", self.other_points);
        println!("{:11}  with just enough room, one in three; refused: {quad} with a quad less, {spline} with a spline less, {point} with a point less", self.enough);
        println!("{:11}  refused with room for all, as one of the contours is", self.refused);
    }
}

#[cfg(test)]
mod tests {
    use super::*;
    use crate::{against::drawn, call::p, call::Call, drawings::sweeps, model};

    fn by_model(setting: Setting, st: State, c: &Columns, room: &mut Room) -> Flattened {
        model::flatten(setting, st, c, &mut room.quads, &mut room.splines, &mut room.output)
    }

    fn flat(setting: Setting, st: State, c: &Columns) -> (Flattened, Room) {
        let mut room = Room::new(16, 16, 64);
        let f = by_model(setting, st, c, &mut room);
        (f, room)
    }

    #[test]
    fn a_contour_drawn_alone_is_the_slice() {
        let calls = [Call::Line(p(10.0, 0.0)), Call::RatQuad(p(10.0, 5.0), p(4.0, 5.0), 2.0), Call::Move(p(20.0, 0.0)), Call::Line(p(30.0, 0.0)), Call::Build];
        let (st, c) = drawn(&calls).unwrap();
        let parts = contours(st, &c);
        assert_eq!(parts.len(), 2);
        for (own, part) in [&[calls[0], calls[1], Call::Build][..], &calls[2..]].iter().zip(&parts) {
            let (st, c) = drawn(own).unwrap();
            assert_eq!((st.points, st.commands), (part.0.points, part.0.commands));
            assert_eq!((&c.x[..st.points], &c.y[..st.points]), (&part.1.x[..], &part.1.y[..]));
            assert_eq!((&c.weight[..st.points], &c.commands[..st.commands]), (&part.1.weight[..], &part.1.commands[..]));
        }
    }

    /// A sweep whose last quad gets no step, and a straight quad in a contour of its own: the fourth drawing of `sweeps`, which is built.
    #[test]
    fn the_condition_on_sums_is_needed_on_the_screen() {
        let (st, c) = drawn(&sweeps()[3]).unwrap();
        let parts = contours(st, &c);
        for (setting, seventh) in [(Setting::Screen, 0.0), (Setting::Knife, 11.0)] {
            let (f, room) = flat(setting, st, &c);
            assert_eq!((f.answer, spread(f, &room)), (0, false));
            assert_eq!((room.output.x[6], room.output.y[6]), (seventh, 0.0));
            let (f, first) = flat(setting, parts[0].0, &parts[0].1);
            assert_eq!((f.points, spread(f, &first)), (5, false));
            let (f, second) = flat(setting, parts[1].0, &parts[1].1);
            assert!(spread(f, &second));
            assert_eq!((second.output.x[1], second.output.y[1]), (11.0, 0.0));
        }
    }

    #[test]
    fn splines_are_numbered_on() {
        assert_eq!([0x7f80_0001, 0x3f80_0000, 0xff80_0000, 0xffc0_0002].map(|w| numbered_on(3, w)), [0x7f80_0004, 0x3f80_0000, 0xff80_0003, 0xffc0_0005]);
    }
}
