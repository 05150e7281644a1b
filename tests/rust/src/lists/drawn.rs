//! Whole drawings with what the original makes of them, for `flatten_cases`. answers/README.md says how they are laid out.

use super::row;
use crate::{
    against::{compare_drawing, drawn, Counts, Room},
    call::{p, Call, P},
    drawings::{by_rule, joints, kind, kind_below, nests, random, slits, sweeps},
    model::{cover, flatten::{exact_pieces, pieces_of}, QUAD_ROW},
    original::{knife, screen},
    rng::Rng,
    seen::{Seen, Store},
};

fn call_row(call: &Call) -> [u32; 9] {
    let o = p(0.0, 0.0);
    let (kind, a, b, c, v, w): (u32, P, P, P, f32, f32) = match *call {
        Call::Move(a) => (0, a, o, o, 0.0, 0.0),
        Call::Line(a) => (1, a, o, o, 0.0, 0.0),
        Call::Quad(a, b) => (2, a, b, o, 0.0, 0.0),
        Call::Cubic(a, b, c) => (3, a, b, c, 0.0, 0.0),
        Call::RatQuad(a, b, w) => (4, a, b, o, w, 0.0),
        Call::RatCubic(a, b, c, v, w) => (5, a, b, c, v, w),
        Call::Build => (6, o, o, o, 0.0, 0.0),
    };
    [kind, a.x.to_bits(), a.y.to_bits(), b.x.to_bits(), b.y.to_bits(), c.x.to_bits(), c.y.to_bits(), v.to_bits(), w.to_bits()]
}

/// One drawing.
fn drawing(text: &mut String, setting: u32, calls: &[Call], store: &Store, seen: &Seen) {
    let t = &seen.tables;
    row(
        text,
        &[
            setting,
            calls.len() as u32,
            store.x.len() as u32,
            store.commands.len() as u32,
            store.opening as u32,
            t.partial_splines.len() as u32,
            t.curvature.len() as u32,
            seen.words.len() as u32,
        ],
    );
    for call in calls {
        row(text, &call_row(call));
    }
    for i in 0..store.x.len() {
        row(text, &[store.x[i].to_bits(), store.y[i].to_bits(), store.weight[i].to_bits()]);
    }
    for c in &store.commands {
        row(text, &[*c as u32]);
    }
    for (quad, spline) in t.rows.chunks(QUAD_ROW).zip(&t.partial_splines) {
        let mut numbers: Vec<u32> = quad.iter().map(|v| v.to_bits()).collect();
        numbers.push(*spline);
        row(text, &numbers);
    }
    for i in 0..t.curvature.len() {
        let points = [t.curvature[i], t.p0x[i], t.p0y[i], t.p2x[i], t.p2y[i]].map(f32::to_bits);
        row(text, &[&points[..], &[t.contour[i] as u32, t.first_quad[i] as u32, t.quad_count[i]]].concat());
    }
    for i in 0..seen.words.len() {
        row(text, &[seen.words[i], seen.x[i].to_bits(), seen.y[i].to_bits(), seen.end[i] as u32]);
    }
}

/// What a drawing must not exceed, so that it fits the program's columns and the list stays small.
struct Limits {
    points: usize,
    quads: usize,
    words: usize,
}

const SMALL: Limits = Limits { points: 40, quads: 10, words: 40 };
const LARGE: Limits = Limits { points: 200, quads: 126, words: 1000 };

/// As many drawings from the first on, and the joints, sweeps and nests after them, are flattened with full columns: with those in the knife setting between them
/// they are FULL of `flatten_cases`.
const FULL: usize = 240;

fn fits(calls: &[Call], l: &Limits) -> bool {
    let Ok((st, c)) = drawn(calls) else { return false };
    if st.points > l.points {
        return false;
    }
    // the list has only drawings whose cubics both cut into the same number of pieces
    let pieces = screen::pieces(calls);
    if pieces_of(st, &c, exact_pieces).iter().zip(&pieces).any(|(a, b)| *a != *b as u64) || pieces.iter().sum::<usize>() > l.quads {
        return false;
    }
    // the knife may have more words of a small drawing
    let fitting = |s: Seen, l: &Limits| s.words.len() <= l.words && s.tables.partial_splines.len() <= l.quads && s.tables.curvature.len() <= 60;
    fitting(screen::flatten(calls), l) && fitting(knife::flatten(calls), &LARGE)
}

/// Any number of random drawings within the large limits, in both settings alternately.
pub fn many(drawings: u32, seed: u64) -> String {
    let mut rng = Rng(seed);
    let mut text = format!("{drawings:08x}\n");
    let mut n = 0;
    while n < drawings {
        let k = kind(&mut rng);
        let calls = random(&mut rng, k);
        if fits(&calls, &LARGE) {
            let seen = if n % 2 == 0 { screen::flatten(&calls) } else { knife::flatten(&calls) };
            drawing(&mut text, n % 2, &calls, &screen::store(&calls), &seen);
            n += 1;
        }
    }
    text
}

/// The list of `flatten_cases`; says which rules decided how often.
pub fn fixed() -> String {
    let mut room = Room::new(4096, 4096, 1 << 16);
    let mut n = Counts::default();

    // which drawings: directed ones, and random ones, where a rule that decided seldom so far decides again
    let mut chosen: Vec<Vec<Call>> = Vec::new();
    let mut seen_often = [0u64; cover::NAMES.len()];
    let mut rng = Rng(2026);
    let mut consider = |calls: Vec<Call>, always: bool, l: &Limits, often: u64| {
        if !fits(&calls, l) {
            return false;
        }
        let before = cover::counts();
        compare_drawing(&calls, true, &mut room, &mut n).expect("the model agrees");
        let after = cover::counts();
        let decided: Vec<usize> = (0..after.len()).filter(|i| after[*i] > before[*i]).collect();
        // the knife's rules choose none here: their drawings are chosen last
        if always || decided.iter().any(|i| *i < cover::SLIT && seen_often[*i] < often) {
            for i in decided {
                seen_often[i] += 1;
            }
            chosen.push(calls);
            return true;
        }
        false
    };
    let directed = by_rule();
    for (i, calls) in directed.iter().enumerate() {
        // the first are the examples; then one in 67, which is odd, so that built ones and others alternate
        consider(calls.clone(), i < 14 || i % 67 == 0, &SMALL, 8);
    }
    for i in 0..6000 {
        let k = kind_below(&mut rng, 14);
        let calls = random(&mut rng, k);
        consider(calls, i % 20 == 0, &SMALL, 12);
    }
    for calls in &directed {
        consider(calls.clone(), false, &LARGE, 3);
    }
    for _ in 0..20_000 {
        let k = kind_below(&mut rng, 14);
        let calls = random(&mut rng, k);
        consider(calls, false, &LARGE, 3);
    }
    // the first slits are examples; 151 is odd too. They are listed in the knife setting alone
    let slits = slits().into_iter().enumerate().filter(|(i, calls)| consider(calls.clone(), *i < 8 || i % 151 == 0, &SMALL, 0)).count();
    // joints of straight and round, sweeps and nests, in both settings. They are chosen last, so that the others stay, and listed among those that are flattened
    // with full columns
    let of_joints = |i: usize| i < 6 || i < 174 && i % 7 == 0 || i % 151 == 0;
    let joints = joints().into_iter().enumerate().filter(|(i, calls)| consider(calls.clone(), of_joints(*i), &SMALL, 0)).count();
    let of_sweeps = |i: usize| i < 4 || i % 5 == 0;
    let sweeps = sweeps().into_iter().enumerate().filter(|(i, calls)| consider(calls.clone(), of_sweeps(*i), &SMALL, 0)).count();
    let of_nests = |i: usize| i < 14 || i % 401 == 0;
    let nests = nests().into_iter().enumerate().filter(|(i, calls)| consider(calls.clone(), of_nests(*i), &SMALL, 0)).count();
    let both = joints + sweeps + nests;
    let last = chosen.split_off(chosen.len() - both);
    chosen.splice(FULL..FULL, last);

    let mut text = String::new();
    let (mut screens, mut knives) = (0, 0);
    for (i, calls) in chosen.iter().enumerate() {
        let store = screen::store(calls);
        let [a, b] = [screen::flatten(calls), knife::flatten(calls)];
        let slit = i + slits >= chosen.len();
        let twice = (FULL..FULL + both).contains(&i);
        if !slit {
            drawing(&mut text, 0, calls, &store, &a);
            screens += 1;
        }
        if slit || twice || (&a.words, &a.x, &a.y) != (&b.words, &b.x, &b.y) {
            drawing(&mut text, 1, calls, &store, &b);
            knives += 1;
        }
        if i + 1 == FULL + both {
            println!("the first {} drawings, {screens} of them in the screen setting, are flattened with full columns", screens + knives);
        }
    }
    println!("{} drawings for flatten_cases, {screens} in the screen setting and {knives} in the knife setting", screens + knives);
    println!("{joints:6} drawings  joints of straight and round, in both settings");
    println!("{sweeps:6} drawings  sweeps, in both settings");
    println!("{nests:6} drawings  nests, in both settings");
    println!("{slits:6} drawings  slits and turns across ±π");
    for (name, often) in cover::NAMES.iter().zip(seen_often) {
        println!("{often:6} drawings  {name}");
    }
    // the first number says how many drawings there are
    format!("{:08x}\n{text}", screens + knives)
}
