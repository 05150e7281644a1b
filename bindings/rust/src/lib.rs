//! Safe calls into Kermezhul's proved flattener, which turns outlines of lines, quads and cubics into the points that a knife follows.
//!
//! The functions here are as thin as those of the C header beside them: the caller lends all memory as slices, and gets 0 or the number of a refusal.
//! Every argument is allowed: a call either does its work or refuses.
//!
//! The library keeps no state and writes only what is lent to a call, so several threads may call it at once: `examples/nest.rs` does. It calls no other library;
//! how much stack it takes is in the C header.
//!
//! ```no_run
//! use kermezhul::{Call, Columns, State};
//!
//! let (mut x, mut y, mut weight, mut commands) = ([0.0; 16], [0.0; 16], [0.0; 16], [0; 16]);
//! let mut columns = Columns { x: &mut x, y: &mut y, weight: &mut weight, commands: &mut commands };
//! let (answer, state) = columns.fresh();
//! assert_eq!(answer, 0);
//! let (answer, state) = columns.draw(state, Call::Line(10.0, 0.0));
//! assert_eq!((answer, state), (0, State { points: 2, commands: 2, opening: 0 }));
//! ```
//!
//! `examples/draw.rs` flattens such a drawing, `examples/plot.rs` plots one.

/// The state beside a drawing's columns: how many points and commands are in use, and which point opened the contour.
#[derive(Clone, Copy, Debug, Default, PartialEq, Eq)]
pub struct State {
    pub points: usize,
    pub commands: usize,
    pub opening: usize,
}

/// The columns of a drawing. x, y and weight must be equally long, or the calls answer 3.
pub struct Columns<'a> {
    pub x: &'a mut [f32],
    pub y: &'a mut [f32],
    pub weight: &'a mut [f32],
    pub commands: &'a mut [u8],
}

/// A drawing call. Coordinates come in pairs; the weights of a rational call come last.
#[derive(Clone, Copy, Debug, PartialEq)]
pub enum Call {
    Move(f32, f32),
    Line(f32, f32),
    Quad([f32; 4]),
    Cubic([f32; 6]),
    RatQuad([f32; 4], f32),
    RatCubic([f32; 6], f32, f32),
    /// Closes the contour with a line if it is open.
    Build,
}

mod raw {
    macro_rules! drawing {
        ($($name:ident($($arg:ident),*);)*) => {
            extern "C" {
                $(pub fn $name(
                    x: *mut f32, x_len: usize, y: *mut f32, y_len: usize, weight: *mut f32, weight_len: usize, commands: *mut u8, commands_len: usize,
                    points: &mut usize, used: &mut usize, opening: &mut usize, $($arg: f32),*
                ) -> u32;)*
            }
        };
    }

    drawing! {
        kermezhul_fresh();
        kermezhul_move_to(px, py);
        kermezhul_line_to(px, py);
        kermezhul_quad_to(x1, y1, x2, y2);
        kermezhul_cubic_to(x1, y1, x2, y2, x3, y3);
        kermezhul_rat_quad_to(x1, y1, x2, y2, w);
        kermezhul_rat_cubic_to(x1, y1, x2, y2, x3, y3, w1, w2);
        kermezhul_build();
    }

    extern "C" {
        pub fn kermezhul_flatten(
            setting: u32,
            points: usize,
            used: usize,
            opening: usize,
            x: *const f32,
            x_len: usize,
            y: *const f32,
            y_len: usize,
            weight: *const f32,
            weight_len: usize,
            commands: *const u8,
            commands_len: usize,
            quad_rows: *mut f32,
            quad_rows_len: usize,
            partial_splines: *mut u32,
            partial_splines_len: usize,
            curvature: *mut f32,
            curvature_len: usize,
            p0x: *mut f32,
            p0x_len: usize,
            p0y: *mut f32,
            p0y_len: usize,
            p2x: *mut f32,
            p2x_len: usize,
            p2y: *mut f32,
            p2y_len: usize,
            contour: *mut u8,
            contour_len: usize,
            first_quad: *mut usize,
            first_quad_len: usize,
            quad_count: *mut u32,
            quad_count_len: usize,
            words: *mut u32,
            words_len: usize,
            out_x: *mut f32,
            out_x_len: usize,
            out_y: *mut f32,
            out_y_len: usize,
            out_end: *mut u8,
            out_end_len: usize,
            splines: &mut usize,
            quads: &mut usize,
            length: &mut usize,
        ) -> u32;
    }

    extern "C" {
        pub fn kermezhul_plot(
            x: *const f32,
            x_len: usize,
            y: *const f32,
            y_len: usize,
            end: *const u8,
            end_len: usize,
            text: *mut u8,
            text_len: usize,
            written: &mut usize,
        ) -> u32;
        pub fn kermezhul_whole(
            x: *const f32,
            x_len: usize,
            y: *const f32,
            y_len: usize,
            whole_x: *mut i32,
            whole_x_len: usize,
            whole_y: *mut i32,
            whole_y_len: usize,
            points: &mut usize,
        ) -> u32;
    }

    extern "C" {
        pub fn kermezhul_fma(a: f32, b: f32, c: f32) -> f32;
        pub fn kermezhul_sqrt(a: f32) -> f32;
        pub fn kermezhul_sixth_root(q: f32) -> f32;
        pub fn kermezhul_pieces(q: f32, w1: f32, w2: f32) -> u32;
        pub fn kermezhul_min(a: f32, b: f32) -> f32;
        pub fn kermezhul_max(a: f32, b: f32) -> f32;
        pub fn kermezhul_clamp(a: f32, low: f32, high: f32) -> f32;
        pub fn kermezhul_ceil(a: f32) -> f32;
    }
}

impl Columns<'_> {
    /// A fresh drawing: a Move at (0,0). Answers 0, 3 (columns of unequal length) or 4 (no room); if it is refused, counts and index are 0.
    pub fn fresh(&mut self) -> (u32, State) {
        let mut st = State::default();
        // SAFETY: the pointers and lengths are those of slices that do not overlap, since each is borrowed mutably
        let answer = unsafe {
            raw::kermezhul_fresh(
                self.x.as_mut_ptr(),
                self.x.len(),
                self.y.as_mut_ptr(),
                self.y.len(),
                self.weight.as_mut_ptr(),
                self.weight.len(),
                self.commands.as_mut_ptr(),
                self.commands.len(),
                &mut st.points,
                &mut st.commands,
                &mut st.opening,
            )
        };
        (answer, st)
    }

    /// One drawing call. It tests 3, 1, 2, 4 in that order; if it is refused, it changes nothing and gives `st` back.
    pub fn draw(&mut self, st: State, call: Call) -> (u32, State) {
        let mut st = st;
        macro_rules! call {
            ($name:ident $(, $arg:expr)*) => {
                raw::$name(
                    self.x.as_mut_ptr(), self.x.len(), self.y.as_mut_ptr(), self.y.len(), self.weight.as_mut_ptr(), self.weight.len(),
                    self.commands.as_mut_ptr(), self.commands.len(), &mut st.points, &mut st.commands, &mut st.opening $(, $arg)*
                )
            };
        }
        // SAFETY: as in `fresh`
        let answer = unsafe {
            match call {
                Call::Move(x, y) => call!(kermezhul_move_to, x, y),
                Call::Line(x, y) => call!(kermezhul_line_to, x, y),
                Call::Quad(c) => call!(kermezhul_quad_to, c[0], c[1], c[2], c[3]),
                Call::Cubic(c) => call!(kermezhul_cubic_to, c[0], c[1], c[2], c[3], c[4], c[5]),
                Call::RatQuad(c, w) => call!(kermezhul_rat_quad_to, c[0], c[1], c[2], c[3], w),
                Call::RatCubic(c, v, w) => call!(kermezhul_rat_cubic_to, c[0], c[1], c[2], c[3], c[4], c[5], v, w),
                Call::Build => call!(kermezhul_build),
            }
        };
        (answer, st)
    }
}

/// What opens a spline, and so is a vertex of the cut, and on which quads its points lie. The settings differ in nothing else.
#[derive(Clone, Copy, Debug, PartialEq, Eq)]
pub enum Setting {
    /// A line without length forgets the direction before it, so that a corner at a doubled point is lost. A reversal of direction is no corner, so that a
    /// line out and the same line back lose their far end. A straight that runs smoothly into a round shares its spline, so that the point where they meet
    /// is lost, and a chord goes across it. Points inside a spline may lie on the quads of an earlier one, whose last quad got no point, and the path then runs
    /// back.
    Screen,
    /// A line without length keeps the direction before it, and a Move forgets it. A reversal of direction is a corner: a line out and the same line back keep
    /// their far end. A line and a quad never share a spline, so that the point where straight meets round is a vertex. Cubics become quads; a quad whose control
    /// point lies on its start or end is a line. The points inside a spline lie on its own quads.
    ///
    /// The points are those of the contours, each flattened as a drawing by itself, one after the other. A contour is the commands from a Move up to the next one
    /// or the end, with their points and weights, and `opening` 0. On the screen it is so if in every spline of two or more quads a whole number lies strictly
    /// between the sums of the last two.
    ///
    /// More room is needed: at each smooth joint of straight and round one spline more in [`Splines`], and one End more in [`Output`]. A line without
    /// length after a quad, or at a contour's start before one, has a spline too, whose End repeats the point unless a line goes on smoothly from there.
    Knife,
}

/// How many numbers a quad has in [`Quads::rows`].
pub const QUAD_ROW: usize = 15;

/// The quad table: quad i is `rows[15 * i]` to `rows[15 * i + 14]`, and `partial_splines[i]` is the number of its spline.
///
/// A row is, in order: x of its three points, y of the three, their weights, x0, dx_recip, k0, dk, the reciprocal (1 over the quad's own curvature) and the
/// sum of its spline's curvatures up to this quad. Points are as stored, x and y multiplied by the weight.
///
/// Its capacity is the whole rows that fit, `rows.len() / QUAD_ROW`, or `partial_splines.len()`, the smaller of the two. An incomplete row at the end is
/// never written.
pub struct Quads<'a> {
    pub rows: &'a mut [f32],
    pub partial_splines: &'a mut [u32],
}

/// The spline table. Its capacity is its shortest column.
///
/// In both settings the quads of spline k are the `quad_count[k]` ones from `first_quad[k]` on. A spline of lines alone has none, and its `first_quad` is the
/// number that the next quad has or would have. So `first_quad[0]` is 0, and `first_quad[k] + quad_count[k]` is `first_quad[k + 1]`, for the last spline the
/// number of quads.
pub struct Splines<'a> {
    pub curvature: &'a mut [f32],
    pub p0x: &'a mut [f32],
    pub p0y: &'a mut [f32],
    pub p2x: &'a mut [f32],
    pub p2y: &'a mut [f32],
    pub contour: &'a mut [u8],
    pub first_quad: &'a mut [usize],
    pub quad_count: &'a mut [u32],
}

/// The packed words and the points; `end` is 1 at a contour's last point.
pub struct Output<'a> {
    pub words: &'a mut [u32],
    pub x: &'a mut [f32],
    pub y: &'a mut [f32],
    pub end: &'a mut [u8],
}

/// The answer, and how many splines, quads and points there are. On a refusal the number of points is 0.
#[derive(Clone, Copy, Debug, Default, PartialEq, Eq)]
pub struct Flattened {
    pub answer: u32,
    pub splines: usize,
    pub quads: usize,
    pub points: usize,
}

/// A drawing's columns, for reading.
#[derive(Clone, Copy)]
pub struct Drawn<'a> {
    pub x: &'a [f32],
    pub y: &'a [f32],
    pub weight: &'a [f32],
    pub commands: &'a [u8],
}

/// Flattens the drawing as it is, closed or not. Answers 0, 3 (unusable), 5 (too many pieces), 6 or 7 (a table is full), 8 (a sum is too large) or 9 (the
/// words or outputs are too short); rows and entries past the counts never change. On 6 the number of quads is the quad table's capacity.
pub fn flatten(setting: Setting, st: State, drawn: Drawn, q: &mut Quads, s: &mut Splines, o: &mut Output) -> Flattened {
    let mut f = Flattened::default();
    // SAFETY: the pointers and lengths are those of slices; the mutable ones overlap nothing, since each is borrowed mutably
    f.answer = unsafe {
        raw::kermezhul_flatten(
            match setting {
                Setting::Screen => 0,
                Setting::Knife => 1,
            },
            st.points,
            st.commands,
            st.opening,
            drawn.x.as_ptr(),
            drawn.x.len(),
            drawn.y.as_ptr(),
            drawn.y.len(),
            drawn.weight.as_ptr(),
            drawn.weight.len(),
            drawn.commands.as_ptr(),
            drawn.commands.len(),
            q.rows.as_mut_ptr(),
            q.rows.len(),
            q.partial_splines.as_mut_ptr(),
            q.partial_splines.len(),
            s.curvature.as_mut_ptr(),
            s.curvature.len(),
            s.p0x.as_mut_ptr(),
            s.p0x.len(),
            s.p0y.as_mut_ptr(),
            s.p0y.len(),
            s.p2x.as_mut_ptr(),
            s.p2x.len(),
            s.p2y.as_mut_ptr(),
            s.p2y.len(),
            s.contour.as_mut_ptr(),
            s.contour.len(),
            s.first_quad.as_mut_ptr(),
            s.first_quad.len(),
            s.quad_count.as_mut_ptr(),
            s.quad_count.len(),
            o.words.as_mut_ptr(),
            o.words.len(),
            o.x.as_mut_ptr(),
            o.x.len(),
            o.y.as_mut_ptr(),
            o.y.len(),
            o.end.as_mut_ptr(),
            o.end.len(),
            &mut f.splines,
            &mut f.quads,
            &mut f.points,
        )
    };
    f
}

/// Finished points, flattened or made by hand, as many as the shortest column has entries. What a longer one holds past that is neither tested nor written.
///
/// Any byte of `end` but 0 is a flag. A contour ends at a flagged point or with the list. A Start inside a contour is a point like any other.
#[derive(Clone, Copy)]
pub struct Finished<'a> {
    pub x: &'a [f32],
    pub y: &'a [f32],
    pub end: &'a [u8],
}

/// The answer, and how many bytes were written. On a refusal that is 0.
#[derive(Clone, Copy, Debug, Default, PartialEq, Eq)]
pub struct Plotted {
    pub answer: u32,
    pub written: usize,
}

/// How many bytes are enough for the text of any points that can be plotted: `IN;`, and `PU -32768,-32768;` for each.
pub const fn plot_room(points: usize) -> usize {
    points.saturating_mul(17).saturating_add(3)
}

/// Writes finished points as HP-GL: `IN;`, then for each contour `PU x,y;` for its first point and `PD x,y;` for each later one. There is one blank, after each
/// PU and PD, and no other, no line end, and no zero byte at the end. A contour of one point is one PU.
///
/// One drawing unit is one plotter unit. A coordinate becomes the whole number nearest to its exact value, halves away from zero, in plain decimal; zero has no
/// sign.
///
/// Answers 0, 12 (a coordinate of any point is NaN or infinite, or rounds outside -32,768..32,767), then 13 (`text` is shorter than the text of all points).
/// Bytes past what was written never change.
///
/// ```no_run
/// use kermezhul::{plot, plot_room, Finished};
///
/// let mut text = [0; plot_room(3)];
/// let p = plot(Finished { x: &[0.5, -0.4, 7.0], y: &[-2.5, 0.0, 7.0], end: &[0, 1, 0] }, &mut text);
/// assert_eq!(&text[..p.written], b"IN;PU 1,-3;PD 0,0;PU 7,7;");
/// ```
pub fn plot(points: Finished, text: &mut [u8]) -> Plotted {
    let mut p = Plotted::default();
    // SAFETY: the pointers and lengths are those of slices; `text` overlaps nothing, since it is borrowed mutably
    p.answer = unsafe {
        raw::kermezhul_plot(
            points.x.as_ptr(),
            points.x.len(),
            points.y.as_ptr(),
            points.y.len(),
            points.end.as_ptr(),
            points.end.len(),
            text.as_mut_ptr(),
            text.len(),
            &mut p.written,
        )
    };
    p
}

/// The answer, and how many points were written. On a refusal that is 0.
#[derive(Clone, Copy, Debug, Default, PartialEq, Eq)]
pub struct Rounded {
    pub answer: u32,
    pub points: usize,
}

/// Finished points in whole plotter units, the numbers that [`plot`] prints. There are as many as the shorter of x and y has entries.
///
/// Answers 0, 12 as [`plot`] does, then 13 (`whole_x` or `whole_y` is shorter than that). Entries past what was written never change.
pub fn whole(x: &[f32], y: &[f32], whole_x: &mut [i32], whole_y: &mut [i32]) -> Rounded {
    let mut r = Rounded::default();
    // SAFETY: the pointers and lengths are those of slices; the mutable ones overlap nothing, since each is borrowed mutably
    r.answer = unsafe {
        raw::kermezhul_whole(
            x.as_ptr(),
            x.len(),
            y.as_ptr(),
            y.len(),
            whole_x.as_mut_ptr(),
            whole_x.len(),
            whole_y.as_mut_ptr(),
            whole_y.len(),
            &mut r.points,
        )
    };
    r
}

/// The float leaves, for tests.
pub mod leaves {
    use super::raw;

    macro_rules! leaf {
        ($($doc:literal $name:ident, $raw:ident($($arg:ident),*) -> $result:ty;)*) => {
            $(#[doc = $doc]
            #[inline]
            pub fn $name($($arg: f32),*) -> $result {
                // SAFETY: numbers in, a number out
                unsafe { raw::$raw($($arg),*) }
            })*
        };
    }

    leaf! {
        "a · b + c, rounded once." fma, kermezhul_fma(a, b, c) -> f32;
        "The square root, rounded once." sqrt, kermezhul_sqrt(a) -> f32;
        "The largest float whose exact sixth power is at most q." sixth_root, kermezhul_sixth_root(q) -> f32;
        "How many pieces a cubic with the error q and the weights w1, w2 gets." pieces, kermezhul_pieces(q, w1, w2) -> u32;
        "The lesser; a NaN gives way, and -0 is less than +0." min, kermezhul_min(a, b) -> f32;
        "The greater; a NaN gives way, and -0 is less than +0." max, kermezhul_max(a, b) -> f32;
        "Brought between low and high; a NaN stays." clamp, kermezhul_clamp(a, low, high) -> f32;
        "The least whole number not below a." ceil, kermezhul_ceil(a) -> f32;
    }
}
