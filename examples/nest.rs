//! A nest: hundreds of pieces in one drawing. In the knife setting the points of a drawing are those of its contours, each flattened as a drawing by itself, one
//! after the other. So pieces can be cut in any order, a piece can be flattened again alone, and pieces can be flattened on several processors at once.
//!
//! It flattens a nest whole, its contours on several threads, each piece drawn alone, and the pieces in reverse order, and compares the points byte for byte: its
//! status is not 0 if any differs. Last it prints how much faster the threads were than one that flattens the whole.
//!
//! `examples/run` builds and runs it.

use kermezhul::{flatten, Call, Columns, Drawn, Output, Quads, Setting, Splines, State, QUAD_ROW};
use std::time::{Duration, Instant};

#[derive(Default)]
struct Drawing {
    x: Vec<f32>,
    y: Vec<f32>,
    weight: Vec<f32>,
    commands: Vec<u8>,
    state: State,
}

fn draw<'a>(calls: impl Iterator<Item = &'a Call>) -> Drawing {
    let calls: Vec<Call> = calls.copied().chain([Call::Build]).collect();
    // a call takes three points at most, and one more to close a contour
    let room = 1 + 4 * calls.len();
    let (mut x, mut y, mut weight, mut commands) = (vec![0.0; room], vec![0.0; room], vec![0.0; room], vec![0; room]);
    let mut columns = Columns { x: &mut x, y: &mut y, weight: &mut weight, commands: &mut commands };
    let (_, mut state) = columns.fresh();
    for call in calls {
        let (answer, next) = columns.draw(state, call);
        assert_eq!(answer, 0, "{call:?} is refused");
        state = next;
    }
    Drawing { x, y, weight, commands, state }
}

/// Each contour as a drawing: the commands from a Move up to the next one or the end, with exactly their points and weights.
fn contours(d: &Drawing) -> Vec<Drawing> {
    let mut all: Vec<Drawing> = Vec::new();
    let mut used = 0;
    for &command in &d.commands[..d.state.commands] {
        if command == 0 {
            all.push(Drawing::default());
        }
        let own = all.last_mut().expect("the first command is a Move");
        // a Move and a Line have one point, a Quad has two and a Cubic three
        let points = used..used + usize::from(command.max(1));
        used = points.end;
        own.x.extend_from_slice(&d.x[points.clone()]);
        own.y.extend_from_slice(&d.y[points.clone()]);
        own.weight.extend_from_slice(&d.weight[points]);
        own.commands.push(command);
        own.state = State { points: own.x.len(), commands: own.commands.len(), opening: 0 };
    }
    all
}

/// The bits of x and y, and whether a contour ends.
type Points = Vec<(u32, u32, u8)>;

/// The tables and outputs that are lent to a flattening, again and again.
struct Lent {
    quads: (Vec<f32>, Vec<u32>),
    splines: ([Vec<f32>; 5], Vec<u8>, Vec<usize>, Vec<u32>),
    output: (Vec<u32>, Vec<f32>, Vec<f32>, Vec<u8>),
}

impl Lent {
    fn new(quads: usize, splines: usize, points: usize) -> Lent {
        Lent {
            quads: (vec![0.0; QUAD_ROW * quads], vec![0; quads]),
            splines: ([(); 5].map(|_| vec![0.0; splines]), vec![0; splines], vec![0; splines], vec![0; splines]),
            output: (vec![0; points], vec![0.0; points], vec![0.0; points], vec![0; points]),
        }
    }

    fn flatten(&mut self, d: &Drawing) -> Points {
        let mut quads = Quads { rows: &mut self.quads.0, partial_splines: &mut self.quads.1 };
        let ([curvature, p0x, p0y, p2x, p2y], contour, first_quad, quad_count) = &mut self.splines;
        let mut splines = Splines { curvature, p0x, p0y, p2x, p2y, contour, first_quad, quad_count };
        let (words, x, y, end) = &mut self.output;
        let mut output = Output { words, x, y, end };
        let drawn = Drawn { x: &d.x, y: &d.y, weight: &d.weight, commands: &d.commands };
        let f = flatten(Setting::Knife, d.state, drawn, &mut quads, &mut splines, &mut output);
        assert_eq!(f.answer, 0, "a flattening is refused");
        (0..f.points).map(|i| (output.x[i].to_bits(), output.y[i].to_bits(), output.end[i])).collect()
    }
}

/// Each contour's points, in its place: every thread has an equal share of the contours, and tables of its own.
fn on_threads(contours: &[Drawing], lent: &mut [Lent]) -> Vec<Points> {
    let mut points = vec![Points::new(); contours.len()];
    let share = contours.len().div_ceil(lent.len());
    std::thread::scope(|scope| {
        for ((own, places), lent) in contours.chunks(share).zip(points.chunks_mut(share)).zip(lent) {
            scope.spawn(move || own.iter().zip(places).for_each(|(contour, place)| *place = lent.flatten(contour)));
        }
    });
    points
}

/// A full round, by rational quads.
fn round(x: f32, y: f32, r: f32) -> Vec<Call> {
    let quarter = |a: f32, b: f32, c: f32, d: f32| Call::RatQuad([x + r * a, y + r * b, x + r * c, y + r * d], std::f32::consts::FRAC_1_SQRT_2);
    vec![Call::Move(x + r, y), quarter(1.0, 1.0, 0.0, 1.0), quarter(-1.0, 1.0, -1.0, 0.0), quarter(-1.0, -1.0, 0.0, -1.0), quarter(1.0, -1.0, 1.0, 0.0)]
}

/// Piece i, in its place on a grid: a belt end with a hole, a slit square, or a round.
fn piece(i: u16) -> Vec<Call> {
    let (x, y, s) = (f32::from(i % 24) * 400.0 - 4800.0, f32::from(i / 24) * 400.0 - 4800.0, 1.0 + f32::from(i % 7) / 4.0);
    let line = |u: f32, v: f32| Call::Line(x + s * u, y + s * v);
    let cubic = |a: f32, b: f32, c: f32, d: f32, e: f32, f: f32| Call::Cubic([x + s * a, y + s * b, x + s * c, y + s * d, x + s * e, y + s * f]);
    let outline = match i % 3 {
        0 => vec![line(100.0, 0.0), cubic(111.0, 0.0, 120.0, 9.0, 120.0, 20.0), cubic(120.0, 31.0, 111.0, 40.0, 100.0, 40.0), line(0.0, 40.0)],
        // the first point comes twice: no direction of the piece before decides what becomes of that
        1 => [(0.0, 0.0), (60.0, 0.0), (60.0, 30.0), (30.0, 30.0), (60.0, 30.0), (60.0, 60.0), (0.0, 60.0)].map(|(u, v)| line(u, v)).to_vec(),
        _ => return round(x + s * 50.0, y + s * 50.0, s * 50.0),
    };
    let hole = if i % 3 == 0 { round(x + s * 90.0, y + s * 20.0, s * 4.0) } else { vec![] };
    [vec![Call::Move(x, y)], outline, hole].concat()
}

fn must_be_same(what: &str, a: &Points, b: &Points) {
    if a != b {
        println!("nest: other points {what}");
        std::process::exit(1);
    }
}

fn main() {
    let mut pieces: Vec<Vec<Call>> = (0..576).map(piece).collect();
    let nest = draw(pieces.iter().flatten());
    let contours = contours(&nest);
    let threads = std::thread::available_parallelism().map_or(2, |n| n.get().max(2));
    let mut for_whole = Lent::new(1 << 15, 1 << 13, 1 << 18);
    let mut for_each: Vec<Lent> = (0..threads).map(|_| Lent::new(1 << 8, 1 << 6, 1 << 10)).collect();

    let (mut whole, mut one, mut several) = (Points::new(), Duration::MAX, Duration::MAX);
    for _ in 0..25 {
        let start = Instant::now();
        whole = for_whole.flatten(&nest);
        one = one.min(start.elapsed());
        let start = Instant::now();
        let joined = on_threads(&contours, &mut for_each).concat();
        several = several.min(start.elapsed());
        must_be_same("by contours", &whole, &joined);
    }
    println!("nest: {} pieces, {} contours, {} points", pieces.len(), contours.len(), whole.len());

    pieces.reverse();
    let reversed = for_whole.flatten(&draw(pieces.iter().flatten()));
    let mut alone: Vec<Points> = pieces.iter().map(|calls| for_each[0].flatten(&draw(calls.iter()))).collect();
    must_be_same("in reverse order", &reversed, &alone.concat());
    alone.reverse();
    must_be_same("by pieces", &whole, &alone.concat());
    println!("nest: the same points whole, by contours on {threads} threads, by pieces, and in reverse order");
    println!("nest: {:.2} times as fast on {threads} threads", one.as_secs_f64() / several.as_secs_f64());
}
