//! Flattening: tables, words and points, or a numbered refusal.

use super::{
    cover::{self, count},
    root::sixth_root,
    store::{canon, undrawable, Columns, State, CUBIC, LINE, MOVE, QUAD},
};
use crate::call::P;
use std::f32::consts::{FRAC_PI_2, PI};

#[derive(Clone, Copy, Debug, PartialEq, Eq)]
pub enum Setting {
    Screen,
    Knife,
}

/// How many numbers a quad has in the table.
pub const QUAD_ROW: usize = 15;

/// The lent quad table: a row of 15 numbers for each quad, and the number of its spline.
#[derive(Clone, Debug, Default)]
pub struct QuadTable {
    pub rows: Vec<f32>,
    pub partial_splines: Vec<u32>,
}

/// The lent spline table.
#[derive(Clone, Debug, Default)]
pub struct SplineTable {
    pub curvature: Vec<f32>,
    pub p0x: Vec<f32>,
    pub p0y: Vec<f32>,
    pub p2x: Vec<f32>,
    pub p2y: Vec<f32>,
    pub contour: Vec<u8>,
    pub first_quad: Vec<usize>,
    pub quad_count: Vec<u32>,
}

/// The lent words and outputs.
#[derive(Clone, Debug, Default)]
pub struct Output {
    pub words: Vec<u32>,
    pub x: Vec<f32>,
    pub y: Vec<f32>,
    pub end: Vec<u8>,
}

#[derive(Clone, Copy, Debug, Default, PartialEq, Eq)]
pub struct Flattened {
    pub answer: u8,
    pub splines: usize,
    pub quads: usize,
    pub points: usize,
}

impl QuadTable {
    pub fn with_room(n: usize) -> Self {
        QuadTable { rows: vec![0.0; QUAD_ROW * n], partial_splines: vec![0; n] }
    }

    /// Whole rows only.
    pub fn capacity(&self) -> usize {
        (self.rows.len() / QUAD_ROW).min(self.partial_splines.len())
    }
}

impl SplineTable {
    pub fn with_room(n: usize) -> Self {
        SplineTable {
            curvature: vec![0.0; n],
            p0x: vec![0.0; n],
            p0y: vec![0.0; n],
            p2x: vec![0.0; n],
            p2y: vec![0.0; n],
            contour: vec![0; n],
            first_quad: vec![0; n],
            quad_count: vec![0; n],
        }
    }

    fn capacity(&self) -> usize {
        let floats = [&self.curvature, &self.p0x, &self.p0y, &self.p2x, &self.p2y].map(|c| c.len());
        floats.into_iter().chain([self.contour.len(), self.first_quad.len(), self.quad_count.len(), 4_194_304]).min().unwrap()
    }
}

impl Output {
    pub fn with_room(n: usize) -> Self {
        Output { words: vec![0; n], x: vec![0.0; n], y: vec![0.0; n], end: vec![0; n] }
    }

    fn room(&self) -> usize {
        self.words.len().min(self.x.len()).min(self.y.len()).min(self.end.len())
    }
}

/// A stored point with its weight.
#[derive(Clone, Copy, Debug)]
struct W {
    x: f32,
    y: f32,
    w: f32,
}

impl W {
    fn plain(p: P) -> W {
        W { x: p.x, y: p.y, w: 1.0 }
    }

    fn applied(self) -> P {
        let r = 1.0 / self.w;
        P { x: self.x * r, y: self.y * r }
    }
}

fn minus(a: P, b: P) -> P {
    P { x: a.x - b.x, y: a.y - b.y }
}

fn length(p: P) -> f32 {
    (p.x * p.x + p.y * p.y).sqrt()
}

/// Missing below 2^-23.
fn angle(d: P) -> Option<f32> {
    if !(length(d) >= 1.0 / 8_388_608.0) {
        return None;
    }
    let (across, up) = (d.x.abs(), d.y.abs());
    let steep = up > across;
    let a = if steep { across / up } else { up / across };
    let s = a * a;
    let mut r = s.mul_add(-0.046_496_473, 0.159_314_22);
    r = r.mul_add(s, -0.327_622_77);
    r = r.mul_add(s * a, a);
    if steep {
        r = FRAC_PI_2 - r;
    }
    if d.x < 0.0 {
        r = PI - r;
    }
    Some(if d.y < 0.0 { -r } else { r })
}

/// Where a reversal is no turn.
fn folded(turn: f32) -> f32 {
    let d = if turn > PI { turn - PI } else { turn };
    if d > FRAC_PI_2 {
        PI - d
    } else {
        d
    }
}

/// "The absolute difference, or 2π less it when that is smaller."
fn around(turn: f32) -> f32 {
    turn.min(2.0 * PI - turn)
}

fn changed(setting: Setting, before: Option<f32>, now: Option<f32>) -> bool {
    let (Some(a0), Some(a1)) = (before, now) else { return false };
    let turn = (a1 - a0).abs();
    let over = |d: f32| d > 0.001;
    match setting {
        Setting::Screen => {
            if turn > 3.0 && turn < 3.3 && !over(folded(turn)) {
                count(cover::REVERSAL);
            }
            over(folded(turn))
        }
        Setting::Knife => {
            let d = around(turn);
            match (over(d), over(folded(turn))) {
                (true, false) => count(cover::SLIT),
                (false, true) => count(cover::SCREEN_ONLY),
                _ => {}
            }
            if d < turn {
                count(cover::AROUND);
                if !over(d) {
                    count(cover::ACROSS);
                }
            }
            over(d)
        }
    }
}

fn lerp(t: f32, a: f32, b: f32) -> f32 {
    t.mul_add(b, (-t).mul_add(a, a))
}

fn three(t: f32, a: f32, b: f32, c: f32) -> f32 {
    lerp(t, lerp(t, a, b), lerp(t, b, c))
}

fn four(t: f32, a: f32, b: f32, c: f32, d: f32) -> f32 {
    lerp(t, three(t, a, b, c), three(t, b, c, d))
}

fn curvature(x: f32) -> f32 {
    let c = 0.67f32;
    x / (1.0 - c + (x * x).mul_add(0.25, c * c * c * c).sqrt().sqrt())
}

fn inv_curvature(k: f32) -> f32 {
    let c = 0.39f32;
    k * (1.0 - c + (k * k).mul_add(0.25, c * c).sqrt())
}

/// What opened a spline. A quad that is treated as a line is straight; a quad whose own curvature is replaced by 2 is round.
#[derive(Clone, Copy, Debug, PartialEq, Eq)]
enum Kind {
    Straight,
    Round,
}

#[derive(Clone, Copy, Debug)]
struct Spline {
    kind: Kind,
    sum: f32,
    start: P,
    end: P,
    flag: bool,
    /// as many quads were stored when it was opened
    first_quad: usize,
    quads: usize,
}

impl Spline {
    /// Its quads, which the ranges of the splines before it leave to it.
    fn own<'a>(&self, quads: &'a [Quad]) -> &'a [Quad] {
        &quads[self.first_quad..self.first_quad + self.quads]
    }
}

#[derive(Clone, Copy, Debug)]
struct Quad {
    points: [W; 3],
    x0: f32,
    dx_recip: f32,
    k0: f32,
    dk: f32,
    own: f32,
    sum: f32,
    spline: usize,
}

impl Quad {
    /// Its numbers in the order of the table.
    fn row(&self) -> [f32; QUAD_ROW] {
        let [a, b, c] = self.points;
        [a.x, b.x, c.x, a.y, b.y, c.y, a.w, b.w, c.w, self.x0, self.dx_recip, self.k0, self.dk, 1.0 / self.own, self.sum]
    }
}

/// How many pieces a cubic gets, before the test for answer 5: the exact root, or the original's `powf`, to compare the rest where the two differ.
pub type Pieces = fn(q: f32, mult: f32) -> u64;

/// A q without a root, which no drawing has, gives the largest number, which is refused like any over 1,024.
pub fn exact_pieces(q: f32, mult: f32) -> u64 {
    match sixth_root(q) {
        None => u64::MAX,
        Some(r) => ((r * mult).ceil() as u64).max(1),
    }
}

pub fn powf_pieces(q: f32, mult: f32) -> u64 {
    ((q.powf(1.0 / 6.0) * mult).ceil() as u64).max(1)
}

/// A quad's numbers before the test for a straight one.
struct Bend {
    x0: f32,
    dx_recip: f32,
    k0: f32,
    dk: f32,
    own: f32,
}

fn bend(p0: P, p1: P, p2: P) -> Bend {
    let a = minus(p1, p0);
    let b = minus(p2, p1);
    let h = minus(a, b);
    let cross = (p2.x - p0.x).mul_add(h.y, (-(p2.y - p0.y)) * h.x);
    let recip = 1.0 / cross;
    let x0 = a.x.mul_add(h.x, a.y * h.y) * recip;
    let x2 = b.x.mul_add(h.x, b.y * h.y) * recip;
    let dx_recip = 1.0 / (x2 - x0);
    let scale = (cross / (length(h) * (x2 - x0))).abs();
    let k0 = curvature(x0);
    let dk = curvature(x2) - k0;
    let own = 0.5 * dk.abs() * (scale * 16.0).sqrt();
    Bend { x0, dx_recip, k0, dk, own }
}

/// A quad's own curvature, before the test for a straight one.
pub fn own_curvature(p0: P, p1: P, p2: P) -> f32 {
    bend(p0, p1, p2).own
}

struct Run {
    setting: Setting,
    quad_room: usize,
    spline_room: usize,
    mark: bool,
    last: Option<f32>,
    splines: Vec<Spline>,
    quads: Vec<Quad>,
    pieces: Pieces,
    /// only for counting: a dropped quad comes right before, how many pieces of the present cubic were taken, and the last angle that a Move forgot
    after_dropped: bool,
    in_cubic: Option<u64>,
    forgotten: Option<f32>,
}

impl Run {
    fn begin_contour(&mut self) {
        self.mark = true;
        // "There a Move forgets the last angle."
        if self.setting == Setting::Knife {
            if self.last.is_some() {
                count(cover::FORGETS);
            }
            self.forgotten = self.last.or(self.forgotten);
            self.last = None;
        }
    }

    /// Whether a primitive of this kind that starts here in this direction opens a spline.
    fn opens(&self, kind: Kind, direction: Option<f32>, start: P) -> bool {
        if self.mark {
            count(cover::MARK);
            return true;
        }
        if changed(self.setting, self.last, direction) {
            count(cover::TURN);
            return true;
        }
        let gap = length(minus(start, self.splines.last().unwrap().end));
        if gap == 0.0625 {
            count(cover::GAP_EXACT);
        }
        if gap >= 0.0625 {
            count(cover::GAP);
            return true;
        }
        // "In the knife setting a line and a quad must never share a spline."
        if self.setting == Setting::Knife && self.splines.last().unwrap().kind != kind {
            count(cover::KIND);
            count(if kind == Kind::Straight { cover::LINE_AFTER_QUAD } else { cover::QUAD_AFTER_LINE });
            if direction.is_none() {
                count(cover::KIND_NO_ANGLE);
            }
            if self.in_cubic.is_some_and(|taken| taken > 0) {
                count(cover::KIND_IN_CUBIC);
            }
            if self.after_dropped {
                count(cover::KIND_DROPPED);
            }
            return true;
        }
        count(cover::JOINED);
        if self.setting == Setting::Knife {
            self.count_joined(direction);
        }
        false
    }

    /// Of a primitive that the knife joins to a spline.
    fn count_joined(&self, direction: Option<f32>) {
        if self.after_dropped {
            count(cover::JOINED_DROPPED);
        }
        if let (None, Some(before), Some(now)) = (self.last, self.forgotten, direction) {
            let parts = around((now - before).abs()) > 0.001;
            count(if parts { cover::NOT_PARTED } else { cover::STALE_ALIKE });
            if parts && self.after_dropped {
                count(cover::NOT_PARTED_DROPPED);
            }
        }
    }

    /// Opens a spline, or goes on with the last.
    fn take(&mut self, kind: Kind, opens: bool, start: P, end: P) {
        self.after_dropped = false;
        self.in_cubic = self.in_cubic.map(|taken| taken + 1);
        if opens {
            if !self.mark {
                self.splines.last_mut().unwrap().flag = false;
            }
            self.mark = false;
            self.splines.push(Spline { kind, sum: 0.0, start, end, flag: true, first_quad: self.quads.len(), quads: 0 });
        } else {
            self.splines.last_mut().unwrap().end = end;
        }
    }

    fn line(&mut self, a: W, b: W) -> Result<(), u8> {
        let (start, end) = (a.applied(), b.applied());
        let own = angle(minus(end, start));
        let opens = self.opens(Kind::Straight, own, start);
        if opens && self.splines.len() >= self.spline_room {
            return Err(7);
        }
        self.take(Kind::Straight, opens, start, end);
        if own.is_none() {
            count(cover::NO_ANGLE);
            if self.last.is_some() {
                count(cover::KEPT);
            }
        }
        if own.is_some() || self.setting == Setting::Screen {
            self.last = own;
        }
        Ok(())
    }

    fn quad(&mut self, points: [W; 3]) -> Result<(), u8> {
        let p0 = points[0].applied();
        let p1 = points[1].applied();
        let p2 = points[2].applied();
        let a = minus(p1, p0);
        let b = minus(p2, p1);
        let (into, out) = (angle(a), angle(b));
        match (into, out) {
            (None, None) => {
                count(cover::DROPPED);
                self.after_dropped = true;
                return Ok(());
            }
            (None, _) | (_, None) => {
                count(cover::AS_LINE);
                return self.line(points[0], points[2]);
            }
            _ => {}
        }

        let Bend { mut x0, mut dx_recip, mut k0, mut dk, mut own } = bend(p0, p1, p2);
        if !own.is_finite() || own <= 1.0 {
            count(cover::STRAIGHT);
            if !own.is_finite() {
                count(cover::INFINITE);
            }
            own = 2.0;
            x0 = 0.036_624_67;
            dx_recip = 1.0;
            k0 = 0.0;
            dk = 1.0;
        } else {
            count(cover::CURVED);
        }

        let opens = self.opens(Kind::Round, into, p0);
        let before = if opens { 0.0 } else { self.splines.last().unwrap().sum };
        let sum = before + own;
        if self.quads.len() >= self.quad_room {
            return Err(6);
        }
        if opens && self.splines.len() >= self.spline_room {
            return Err(7);
        }
        if !(sum <= 65_536.0) {
            return Err(8);
        }
        self.take(Kind::Round, opens, p0, p2);
        let n = self.splines.len();
        let spline = &mut self.splines[n - 1];
        spline.sum = sum;
        if spline.quads > 0 {
            count(cover::MORE_QUADS);
        } else if spline.kind == Kind::Straight {
            count(cover::LINE_THEN_QUADS);
        }
        spline.quads += 1;
        self.last = out;
        self.quads.push(Quad { points, x0, dx_recip, k0, dk, own, sum, spline: n - 1 });
        Ok(())
    }

    fn cubic(&mut self, p: [W; 4]) -> Result<(), u8> {
        count(cover::CUBIC);
        if p[1].w != 1.0 || p[2].w != 1.0 {
            count(cover::RATIONAL);
        }
        let n = cubic_pieces(p, self.pieces);
        if n > 1024 {
            return Err(5);
        }
        let incr = 1.0 / n as f32;
        if n as f32 * incr < 1.0 {
            count(cover::SHORT);
        }
        let at = |t: f32| {
            W {
                x: four(t, p[0].x, p[1].x, p[2].x, p[3].x),
                y: four(t, p[0].y, p[1].y, p[2].y, p[3].y),
                w: four(t, p[0].w, p[1].w, p[2].w, p[3].w),
            }
            .applied()
        };
        let mut start = p[0].applied();
        self.in_cubic = Some(0);
        for i in 1..=n {
            let t = i as f32 * incr;
            let end = at(t);
            let mid = at(t - 0.5 * incr);
            let control = P {
                x: mid.x.mul_add(2.0, -0.5 * (start.x + end.x)),
                y: mid.y.mul_add(2.0, -0.5 * (start.y + end.y)),
            };
            self.quad([W::plain(start), W::plain(control), W::plain(end)])?;
            start = end;
        }
        self.in_cubic = None;
        Ok(())
    }
}

fn cubic_pieces(p: [W; 4], pieces: Pieces) -> u64 {
    let (q, mult) = cubic_error(p);
    pieces(q, mult)
}

/// q, and the largest of w1, w2 and 1.
fn cubic_error(p: [W; 4]) -> (f32, f32) {
    let (p0, p1, p2) = (p[0].applied(), p[1].applied(), p[2].applied());
    // 3·p2 - p0 - 2·p1, where 2·p1 is exact
    let bend = |a: f32, b: f32, c: f32| c.mul_add(3.0, -a) - 2.0 * b;
    let (dx, dy) = (bend(p0.x, p1.x, p2.x), bend(p0.y, p1.y, p2.y));
    let error = dx.mul_add(dx, dy * dy);
    let q = error * (1.0 / 1.6875f32);
    (q, p[1].w.max(p[2].w).max(1.0))
}

fn stored(c: &Columns, i: usize) -> W {
    W { x: c.x[i], y: c.y[i], w: c.weight[i] }
}

/// How many pieces each cubic of a drawable store needs.
pub fn pieces_of(st: State, c: &Columns, pieces: Pieces) -> Vec<u64> {
    errors_of(st, c).into_iter().map(|(q, mult)| pieces(q, mult)).collect()
}

/// q and the largest weight of each cubic.
pub fn errors_of(st: State, c: &Columns) -> Vec<(f32, f32)> {
    let mut out = Vec::new();
    let mut used = 0;
    for &k in &c.commands[..st.commands] {
        if k == CUBIC {
            out.push(cubic_error([stored(c, used - 1), stored(c, used), stored(c, used + 1), stored(c, used + 2)]));
        }
        used += (k as usize).max(1);
    }
    out
}

/// A step: its number and size, its quad, and the quad that it would have if the cursor went on from spline to spline, as it does on the screen.
#[derive(Clone, Copy, Debug)]
struct Step {
    p: usize,
    size: f32,
    quad: usize,
    going_on: usize,
}

/// One entry of the walk.
struct Item {
    word: u32,
    spline: usize,
    step: Option<Step>,
    start: bool,
    flag: bool,
}

fn subdivisions(s: &Spline) -> usize {
    s.sum.ceil() as usize
}

fn starts(splines: &[Spline], k: usize) -> bool {
    if k == 0 || splines[k - 1].flag {
        return true;
    }
    length(minus(splines[k - 1].end, splines[k].start)) > 0.0625
}

/// Counted before it is written.
fn walk_length(splines: &[Spline]) -> u64 {
    (0..splines.len()).map(|k| starts(splines, k) as u64 + subdivisions(&splines[k]).saturating_sub(1) as u64 + 1).sum()
}

/// The cursor for step p: it goes on by one, and no further, if p exceeds the sum of its quad.
fn cursor_at(quads: &[Quad], p: usize, cursor: usize) -> usize {
    cursor + (p as f32 > quads[cursor].sum) as usize
}

/// The steps of a spline, with the cursor from here on and, beside it, from where the spline before left it.
fn steps(s: &Spline, quads: &[Quad], from: usize, left: usize) -> Vec<Step> {
    let m = subdivisions(s);
    let (mut quad, mut going_on) = (from, left);
    (1..m)
        .map(|p| {
            quad = cursor_at(quads, p, quad);
            going_on = cursor_at(quads, p, going_on);
            Step { p, size: s.sum / m as f32, quad, going_on }
        })
        .collect()
}

/// How many steps are on a quad of another spline, and whether one of the spline's quads gets none.
fn astray(k: usize, s: &Spline, quads: &[Quad], steps: &[Step]) -> (usize, bool) {
    assert!(steps.iter().all(|step| quads[step.quad].spline <= k), "a step on a quad after its spline's last");
    let strays = steps.iter().filter(|step| quads[step.quad].spline != k).count();
    (0..strays).for_each(|_| count(cover::STRAY));
    let mut used: Vec<usize> = steps.iter().map(|step| step.quad).collect();
    used.dedup();
    let stepless = used.len() < s.quads;
    if s.quads >= 2 {
        count(cover::SEVERAL);
    }
    if stepless {
        count(cover::STEPLESS);
    }
    // where none strays only the last quad can be left out
    assert!(strays > 0 || used.len() + 1 >= s.quads, "two quads without a step");
    (strays, stepless)
}

fn count_joint(splines: &[Spline], k: usize) {
    let s = &splines[k];
    if k > 0 && starts(splines, k) && !splines[k - 1].flag {
        count(cover::START_GAP);
    }
    if !starts(splines, k) && length(minus(splines[k - 1].end, s.start)) == 0.0625 {
        count(cover::NO_START);
    }
    if s.sum > 0.0 && s.sum.ceil() == s.sum {
        count(cover::WHOLE);
    }
    if s.quads == 0 && k > 0 && k + 1 < splines.len() && splines[k - 1].quads > 0 && splines[k + 1].quads > 0 {
        count(cover::LINES_BETWEEN);
    }
}

fn walk(setting: Setting, splines: &[Spline], quads: &[Quad]) -> Vec<Item> {
    let mut items = Vec::new();
    let mut left = 0;
    let mut strays_or_stepless = false;
    for (k, s) in splines.iter().enumerate() {
        let low = k as u32 % 4_194_304;
        count_joint(splines, k);
        if starts(splines, k) {
            items.push(Item { word: 0x7f80_0000 + low, spline: k, step: None, start: true, flag: false });
        }
        // "In the knife setting the cursor begins each spline at that first quad."
        let from = match setting {
            Setting::Screen => left,
            Setting::Knife => s.first_quad,
        };
        if s.quads > 0 && from != left {
            count(cover::BEGINS);
            if splines[k - 1].quads == 0 {
                count(cover::BEGINS_AFTER_LINES);
            }
        }
        let steps = steps(s, quads, from, left);
        let (strays, stepless) = astray(k, s, quads, &steps);
        if setting == Setting::Knife {
            assert_eq!((strays, stepless), (0, !parted(s, quads)), "no step strays, and the last quad gets one exactly if its sum parts from the one before");
        }
        strays_or_stepless |= strays > 0 || stepless;
        left = steps.last().map_or(left, |step| step.going_on) + (subdivisions(s) > 0) as usize;
        items.extend(steps.into_iter().map(|step| Item { word: canon(step.size).to_bits(), spline: k, step: Some(step), start: false, flag: false }));
        items.push(Item { word: 0xff80_0000 + low + if s.flag { 0x40_0000 } else { 0 }, spline: k, step: None, start: false, flag: s.flag });
    }
    if splines.iter().all(|s| parted(s, quads)) {
        assert!(!strays_or_stepless, "each quad gets a step and no step strays");
        let kept = items.iter().filter_map(|item| item.step).all(|step| step.going_on == step.quad);
        assert!(kept, "where the sums part the knife's rule changes nothing");
    }
    items
}

/// In a spline of two or more quads a whole number lies strictly between the last two running sums.
fn parted(s: &Spline, quads: &[Quad]) -> bool {
    match s.own(quads) {
        [.., a, b] => a.sum.floor() + 1.0 < b.sum,
        _ => true,
    }
}

/// The ranges in order cover the quad table, and each quad lies in the range of its own spline.
fn ranged(splines: &[Spline], quads: &[Quad]) -> bool {
    let mut next = 0;
    let each = splines.iter().enumerate().all(|(k, s)| {
        let first = next;
        next += s.quads;
        s.first_quad == first && next <= quads.len() && s.own(quads).iter().all(|q| q.spline == k)
    });
    each && next == quads.len()
}

/// No line is in a spline with quads: it begins where its first quad does and ends where its last one does, bit for bit. The others have no quad.
fn apart(splines: &[Spline], quads: &[Quad]) -> bool {
    let same = |a: P, b: P| (a.x.to_bits(), a.y.to_bits()) == (b.x.to_bits(), b.y.to_bits());
    splines.iter().all(|s| match (s.kind, s.own(quads)) {
        (Kind::Straight, []) => true,
        (Kind::Round, own @ [first, ..]) => same(s.start, first.points[0].applied()) && same(s.end, own[own.len() - 1].points[2].applied()),
        _ => false,
    })
}

/// Where a step is on quad i, before it is brought between 0 and 1.
fn parameter(quads: &[Quad], step: Step, i: usize) -> f32 {
    let q = &quads[i];
    let before = if i > 0 && quads[i - 1].spline == q.spline { quads[i - 1].sum } else { 0.0 };
    let ratio = step.size.mul_add(step.p as f32, -before) * (1.0 / q.own);
    let x = inv_curvature(ratio.mul_add(q.dk, q.k0));
    (x - q.x0) * q.dx_recip
}

fn on_quad(q: &Quad, t: f32) -> P {
    let [a, b, c] = q.points;
    let r = 1.0 / three(t, a.w, b.w, c.w);
    P { x: three(t, a.x, b.x, c.x) * r, y: three(t, a.y, b.y, c.y) * r }
}

fn step_point(quads: &[Quad], step: Step) -> P {
    count(cover::STEP);
    let raw = parameter(quads, step, step.quad);
    let t = if raw < 0.0 {
        count(cover::CLAMP0);
        0.0
    } else if raw > 1.0 {
        count(cover::CLAMP1);
        1.0
    } else {
        raw
    };
    if t == 0.0 && t.is_sign_negative() {
        count(cover::MINUS0);
    }
    let point = on_quad(&quads[step.quad], t);
    if step.going_on != step.quad {
        let other = on_quad(&quads[step.going_on], parameter(quads, step, step.going_on).clamp(0.0, 1.0));
        if (other.x.to_bits(), other.y.to_bits()) != (point.x.to_bits(), point.y.to_bits()) {
            count(cover::POINT_MOVED);
        }
    }
    point
}

fn put<T: Copy>(column: &mut [T], values: impl Iterator<Item = T>) {
    for (i, v) in values.enumerate() {
        column[i] = v;
    }
}

fn put_floats(column: &mut [f32], values: impl Iterator<Item = f32>) {
    for (i, v) in values.enumerate() {
        if !v.is_finite() {
            count(cover::NOT_FINITE);
        }
        column[i] = canon(v);
    }
}

pub fn flatten(setting: Setting, st: State, c: &Columns, q: &mut QuadTable, s: &mut SplineTable, o: &mut Output) -> Flattened {
    flatten_with(exact_pieces, setting, st, c, q, s, o)
}

pub fn flatten_with(pieces: Pieces, setting: Setting, st: State, c: &Columns, q: &mut QuadTable, s: &mut SplineTable, o: &mut Output) -> Flattened {
    if undrawable(st, c) {
        return Flattened { answer: 3, ..Default::default() };
    }
    let mut run = Run {
        setting,
        quad_room: q.capacity(),
        spline_room: s.capacity(),
        mark: true,
        last: None,
        splines: Vec::new(),
        quads: Vec::new(),
        pieces,
        after_dropped: false,
        in_cubic: None,
        forgotten: None,
    };
    let mut answer = 0;
    let mut used = 0;
    for &k in &c.commands[..st.commands] {
        let at = |i: usize| stored(c, i);
        let done = match k {
            MOVE => {
                run.begin_contour();
                Ok(())
            }
            LINE => run.line(at(used - 1), at(used)),
            QUAD => run.quad([at(used - 1), at(used), at(used + 1)]),
            _ => run.cubic([at(used - 1), at(used), at(used + 1), at(used + 2)]),
        };
        used += (k as usize).max(1);
        if let Err(no) = done {
            answer = no;
            break;
        }
    }
    let Run { splines, quads, .. } = run;

    put_floats(&mut q.rows, quads.iter().flat_map(Quad::row));
    put(&mut q.partial_splines, quads.iter().map(|r| r.spline as u32));
    put_floats(&mut s.curvature, splines.iter().map(|r| r.sum));
    put_floats(&mut s.p0x, splines.iter().map(|r| r.start.x));
    put_floats(&mut s.p0y, splines.iter().map(|r| r.start.y));
    put_floats(&mut s.p2x, splines.iter().map(|r| r.end.x));
    put_floats(&mut s.p2y, splines.iter().map(|r| r.end.y));
    put(&mut s.contour, splines.iter().map(|r| r.flag as u8));
    put(&mut s.first_quad, splines.iter().map(|r| r.first_quad));
    put(&mut s.quad_count, splines.iter().map(|r| r.quads as u32));
    assert!(ranged(&splines, &quads), "a quad belongs to one spline, and the ranges follow one another");

    let counts = Flattened { answer, splines: splines.len(), quads: quads.len(), points: 0 };
    if answer != 0 {
        return counts;
    }
    let n = walk_length(&splines);
    if n > o.room() as u64 {
        return Flattened { answer: 9, ..counts };
    }
    assert!(setting == Setting::Screen || apart(&splines, &quads), "a line and a quad share a spline");
    let items = walk(setting, &splines, &quads);
    assert_eq!(items.len() as u64, n);
    for (i, item) in items.iter().enumerate() {
        let p = match item.step {
            Some(step) => step_point(&quads, step),
            None if item.start => splines[item.spline].start,
            None => splines[item.spline].end,
        };
        if !p.x.is_finite() || !p.y.is_finite() {
            count(cover::NOT_FINITE);
        }
        o.words[i] = item.word;
        o.x[i] = canon(p.x);
        o.y[i] = canon(p.y);
        o.end[i] = item.flag as u8;
    }
    Flattened { points: items.len(), ..counts }
}

#[cfg(test)]
mod tests {
    use super::*;
    use crate::{against::drawn, call::p, call::Call, drawings::sweeps, original::{knife, screen}};

    /// P6: a quad from the origin over (5,0) to (10,0), built.
    fn example() -> (State, Columns) {
        drawn(&[Call::Quad(p(5.0, 0.0), p(10.0, 0.0)), Call::Build]).unwrap()
    }

    #[test]
    fn the_row_of_a_straight_quad() {
        let (st, c) = example();
        let (mut q, mut s, mut o) = (QuadTable::with_room(1), SplineTable::with_room(1), Output::with_room(3));
        let f = flatten(Setting::Screen, st, &c, &mut q, &mut s, &mut o);
        assert_eq!(f, Flattened { answer: 0, splines: 1, quads: 1, points: 3 });
        let row = [
            0x0000_0000, 0x40a0_0000, 0x4120_0000, 0, 0, 0, 0x3f80_0000, 0x3f80_0000, 0x3f80_0000, 0x3d16_03c0, 0x3f80_0000, 0, 0x3f80_0000, 0x3f00_0000,
            0x4000_0000,
        ];
        assert_eq!(q.rows.iter().map(|v| v.to_bits()).collect::<Vec<_>>(), row);
        assert_eq!(q.partial_splines, [0]);
    }

    #[test]
    fn an_incomplete_row_is_no_room() {
        let (st, c) = example();
        for (numbers, splines, room) in [(14, 9, 0), (15, 0, 0), (15, 1, 1), (29, 2, 1), (29, 1, 1), (0, 1, 0)] {
            let (mut s, mut o) = (SplineTable::with_room(1), Output::with_room(3));
            let mut q = QuadTable { rows: vec![7.0; numbers], partial_splines: vec![7; splines] };
            assert_eq!(q.capacity(), room);
            let f = flatten(Setting::Screen, st, &c, &mut q, &mut s, &mut o);
            assert_eq!((f.answer, f.quads), if room == 0 { (6, 0) } else { (0, 1) });
            assert!(q.rows[QUAD_ROW * room..].iter().all(|v| *v == 7.0) && q.partial_splines[room..].iter().all(|v| *v == 7));
        }
    }

    /// What the model and the original give for a built drawing in the knife setting: words, and the bits of x and y.
    fn knife_gives(calls: &[Call], words: &[u32], x: &[u32], y: &[u32]) {
        let built = [calls, &[Call::Build]].concat();
        let (st, c) = drawn(&built).unwrap();
        let (mut q, mut s, mut o) = (QuadTable::with_room(9), SplineTable::with_room(9), Output::with_room(words.len()));
        let f = flatten(Setting::Knife, st, &c, &mut q, &mut s, &mut o);
        assert_eq!((f.answer, f.points), (0, words.len()));
        let bits = |column: &[f32]| column.iter().map(|v| v.to_bits()).collect::<Vec<_>>();
        assert_eq!((&o.words[..], &bits(&o.x)[..], &bits(&o.y)[..]), (words, x, y));
        let seen = knife::flatten(&built);
        assert_eq!((&seen.words[..], &bits(&seen.x)[..], &bits(&seen.y)[..]), (words, x, y));
    }

    #[test]
    fn the_knife_keeps_the_far_end_of_p5() {
        let calls = [Call::Line(p(10.0, 0.0)), Call::Line(p(4.0, 0.0))];
        knife_gives(&calls, &[0x7f80_0000, 0xff80_0000, 0xffc0_0001], &[0, 0x4120_0000, 0], &[0; 3]);
    }

    #[test]
    fn a_straight_that_runs_into_a_round() {
        let calls = [Call::Line(p(4.0, 0.0)), Call::Quad(p(5.0, 0.0), p(5.0, 1.0))];
        knife_gives(
            &calls,
            &[0x7f80_0000, 0xff80_0000, 0x3f41_e1c5, 0x3f41_e1c5, 0xff80_0001, 0xffc0_0002],
            &[0, 0x4080_0000, 0x4092_0a39, 0x409c_4fc1, 0x40a0_0000, 0],
            &[0, 0, 0x3dec_0fc1, 0x3edf_5c6e, 0x3f80_0000, 0],
        );
        // without the rule, as on the screen, the two share a spline
        let (st, c) = drawn(&[&calls[..], &[Call::Build]].concat()).unwrap();
        let (mut q, mut s, mut o) = (QuadTable::with_room(1), SplineTable::with_room(2), Output::with_room(5));
        let f = flatten(Setting::Screen, st, &c, &mut q, &mut s, &mut o);
        assert_eq!((f.answer, &o.words[..f.points]), (0, &[0x7f80_0000, 0x3f41_e1c5, 0x3f41_e1c5, 0xff80_0000, 0xffc0_0001][..]));
    }

    #[test]
    fn a_belt_end() {
        let calls = [
            Call::Line(p(10.0, 0.0)),
            Call::Quad(p(12.0, 0.0), p(12.0, 2.0)),
            Call::Quad(p(12.0, 4.0), p(10.0, 4.0)),
            Call::Line(p(0.0, 4.0)),
        ];
        let step = 0x3f6b_0537;
        let words = [0x7f80_0000, 0xff80_0000, step, step, step, step, step, step, 0xff80_0001, 0xff80_0002, 0xffc0_0003];
        let seen = knife::flatten(&[&calls[..], &[Call::Build]].concat());
        assert_eq!(seen.words, words);
        // both joints of straight and round are vertices
        assert_eq!(([seen.x[1], seen.y[1]], [seen.x[8], seen.y[8]]), ([10.0, 0.0], [10.0, 4.0]));
        let bits = |column: &[f32]| column.iter().map(|v| v.to_bits()).collect::<Vec<_>>();
        knife_gives(&calls, &words, &bits(&seen.x), &bits(&seen.y));
    }

    #[test]
    fn a_line_without_length_after_a_quad_repeats_its_end() {
        let calls = [Call::Quad(p(5.0, 0.0), p(10.0, 0.0)), Call::Line(p(10.0, 0.0)), Call::Line(p(20.0, 0.0))];
        knife_gives(
            &calls[..2],
            &[0x7f80_0000, 0x3f80_0000, 0xff80_0000, 0xff80_0001, 0xffc0_0002],
            &[0, 0x40a0_0000, 0x4120_0000, 0x4120_0000, 0],
            &[0; 5],
        );
        // the next line goes on with it
        knife_gives(
            &calls,
            &[0x7f80_0000, 0x3f80_0000, 0xff80_0000, 0xff80_0001, 0xffc0_0002],
            &[0, 0x40a0_0000, 0x4120_0000, 0x41a0_0000, 0],
            &[0; 5],
        );
    }

    #[test]
    fn a_cubic_is_split_by_a_piece_that_is_a_line() {
        // four pieces: a quad and a line out, a line and a quad back
        let calls = [Call::Cubic(p(50.0, 0.0), p(50.0, 0.0), p(0.0, 0.0))];
        knife_gives(
            &calls,
            &[0x7f80_0000, 0x3f80_0000, 0xff80_0000, 0xff80_0001, 0xff80_0002, 0x3f80_0000, 0xffc0_0003],
            &[0.0, 16.406_25f32, 28.125, 37.5, 28.125, 16.406_25, 0.0].map(f32::to_bits),
            &[0; 7],
        );
    }

    #[test]
    fn seven_where_the_kind_opens_a_spline() {
        let (st, c) = drawn(&[Call::Line(p(4.0, 0.0)), Call::Quad(p(5.0, 0.0), p(5.0, 1.0))]).unwrap();
        for (setting, answer) in [(Setting::Screen, 0), (Setting::Knife, 7)] {
            let (mut q, mut s, mut o) = (QuadTable::with_room(1), SplineTable::with_room(1), Output::with_room(5));
            assert_eq!(flatten(setting, st, &c, &mut q, &mut s, &mut o).answer, answer);
        }
    }

    /// A sweep with the sums 2 and 3, whose last quad gets no step, and a straight quad after a turn: the second drawing of `sweeps`, which is built.
    fn swept(setting: Setting) -> (SplineTable, Output, Flattened) {
        let (st, c) = drawn(&sweeps()[1]).unwrap();
        let (mut q, mut s, mut o) = (QuadTable::with_room(3), SplineTable::with_room(3), Output::with_room(7));
        let f = flatten(setting, st, &c, &mut q, &mut s, &mut o);
        (s, o, f)
    }

    #[test]
    fn the_knife_begins_a_spline_at_its_first_quad() {
        let (s, o, f) = swept(Setting::Knife);
        assert_eq!(f, Flattened { answer: 0, splines: 3, quads: 3, points: 7 });
        assert_eq!((&s.first_quad[..], &s.quad_count[..]), (&[0, 2, 3][..], &[2, 1, 0][..]));
        assert_eq!(s.curvature, [3.0, 2.0, 0.0]);
        let one = 0x3f80_0000;
        assert_eq!(o.words, [0x7f80_0000, one, one, 0xff80_0000, one, 0xff80_0001, 0xffc0_0002]);
        assert_eq!((o.x[4].to_bits(), o.y[4].to_bits()), (0x4003_c400, 0x3ff1_3000));
        let seen = knife::flatten(&sweeps()[1]);
        assert_eq!((seen.words, seen.quads), (o.words, vec![0, 0, 0, 0, 2, 0, 0]));
        assert_eq!((seen.x, seen.y), (o.x, o.y));
    }

    #[test]
    fn on_the_screen_the_step_runs_back() {
        let (s, o, f) = swept(Setting::Screen);
        assert_eq!(f, Flattened { answer: 0, splines: 3, quads: 3, points: 7 });
        // the ranges are the same in both settings
        assert_eq!((&s.first_quad[..], &s.quad_count[..]), (&[0, 2, 3][..], &[2, 1, 0][..]));
        assert_eq!((o.words, o.x[4], o.y[4]), (swept(Setting::Knife).1.words, 0.0, 0.0));
        assert_eq!(screen::flatten(&sweeps()[1]).quads, [0, 0, 0, 0, 1, 0, 0]);
    }

    #[test]
    fn on_the_screen_quads_follow_a_line_in_its_spline() {
        let calls = [Call::Quad(p(5.0, 0.0), p(10.0, 0.0)), Call::Line(p(10.0, 5.0)), Call::Quad(p(10.0, 7.0), p(10.0, 9.0)), Call::Quad(p(10.0, 11.0), p(10.0, 13.0))];
        let (st, c) = drawn(&calls).unwrap();
        for (setting, ranges) in [(Setting::Screen, vec![(0, 1), (1, 2)]), (Setting::Knife, vec![(0, 1), (1, 0), (1, 2)])] {
            let (mut q, mut s, mut o) = (QuadTable::with_room(3), SplineTable::with_room(ranges.len()), Output::with_room(20));
            assert_eq!(flatten(setting, st, &c, &mut q, &mut s, &mut o).answer, 0);
            assert_eq!(s.first_quad.into_iter().zip(s.quad_count).collect::<Vec<_>>(), ranges);
        }
    }

    #[test]
    fn the_ranges_count_towards_the_room_for_splines() {
        let (st, c) = drawn(&[Call::Line(p(4.0, 0.0)), Call::Line(p(4.0, 4.0))]).unwrap();
        for (firsts, counts, splines) in [(2, 2, 2), (1, 2, 1), (2, 1, 1), (0, 2, 0), (2, 0, 0)] {
            let (mut q, mut s, mut o) = (QuadTable::with_room(0), SplineTable::with_room(2), Output::with_room(3));
            (s.first_quad, s.quad_count) = (vec![7; firsts], vec![7; counts]);
            let f = flatten(Setting::Knife, st, &c, &mut q, &mut s, &mut o);
            assert_eq!((f.answer, f.splines), (if splines == 2 { 0 } else { 7 }, splines));
            assert!(s.first_quad[splines..].iter().all(|v| *v == 7) && s.quad_count[splines..].iter().all(|v| *v == 7));
        }
    }

    #[test]
    fn for_the_knife_a_move_forgets_the_angle() {
        let second = [Call::Move(p(20.0, 0.0)), Call::Line(p(20.0, 0.0)), Call::Line(p(30.0, 0.0)), Call::Line(p(30.0, 10.0))];
        let calls = [&[Call::Line(p(10.0, 0.0)), Call::Line(p(10.0, 10.0))], &second[..]].concat();
        let (ten, twenty, thirty) = (0x4120_0000, 0x41a0_0000, 0x41f0_0000);
        knife_gives(
            &calls,
            &[0x7f80_0000, 0xff80_0000, 0xff80_0001, 0xffc0_0002, 0x7f80_0003, 0xff80_0003, 0xff80_0004, 0xffc0_0005],
            &[0, ten, ten, 0, twenty, thirty, thirty, twenty],
            &[0, 0, ten, 0, 0, 0, ten, 0],
        );
        // the second contour alone
        knife_gives(&second, &[0x7f80_0000, 0xff80_0000, 0xff80_0001, 0xffc0_0002], &[twenty, thirty, thirty, twenty], &[0, 0, ten, 0]);
    }

    #[test]
    fn the_knife_comes_back_from_p6() {
        let calls = [Call::Quad(p(5.0, 0.0), p(10.0, 0.0))];
        knife_gives(&calls, &[0x7f80_0000, 0x3f80_0000, 0xff80_0000, 0xffc0_0001], &[0, 0x40a0_0000, 0x4120_0000, 0], &[0; 4]);
    }

    #[test]
    fn a_slit_in_an_outline() {
        let calls = [(10.0, 0.0), (10.0, 5.0), (5.0, 5.0), (10.0, 5.0), (10.0, 10.0), (0.0, 10.0)].map(|(x, y)| Call::Line(p(x, y)));
        knife_gives(
            &calls,
            &[0x7f80_0000, 0xff80_0000, 0xff80_0001, 0xff80_0002, 0xff80_0003, 0xff80_0004, 0xff80_0005, 0xffc0_0006],
            &[0, 0x4120_0000, 0x4120_0000, 0x40a0_0000, 0x4120_0000, 0x4120_0000, 0, 0],
            &[0, 0, 0x40a0_0000, 0x40a0_0000, 0x40a0_0000, 0x4120_0000, 0x4120_0000, 0],
        );
    }

    #[test]
    fn a_turn_across_pi_is_small() {
        let calls = [Call::Line(p(-10.0, f32::from_bits(0x3a80_0000))), Call::Line(p(-20.0, 0.0))];
        knife_gives(&calls, &[0x7f80_0000, 0xff80_0000, 0xffc0_0001], &[0, 0xc1a0_0000, 0], &[0; 3]);
    }
}
