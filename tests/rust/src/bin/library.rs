//! Compares the library itself with the model, call by call: drawings, hostile calls, and the float leaves; with the original; and each drawing with its contours
//! flattened alone. Its status is not 0 on any mismatch, nor if a part of the claim on contours was not met.
//!
//! library [HOSTILE [SEED [DRAWINGS]]], or the variables KERMEZHUL_HOSTILE, KERMEZHUL_SEED and KERMEZHUL_LIBRARY_DRAWINGS.

use against_rust::{
    number,
    against::{same_flattening, same_store, Room},
    call::{written, Call},
    contours::{self, Whole},
    drawings::{directed, kind, nest_by_hand, random},
    flat_case::{any_flat, every_length, every_spline_length, Lent},
    hostile::{call_both, flatten, flatten_both, leaves_on, replay_both},
    model::{
        flatten::{exact_pieces, pieces_of},
        Columns, Flattened, Setting, State,
    },
    original::{knife, screen},
    rng::Rng,
    wild::{any_call, any_float, any_store},
};
use std::time::Instant;

#[derive(Default)]
struct Teller {
    mismatches: u64,
}

impl Teller {
    fn tell<T>(&mut self, r: Result<T, String>) -> Option<T> {
        match r {
            Ok(v) => Some(v),
            Err(e) => {
                self.mismatches += 1;
                if self.mismatches <= 10 {
                    println!("MISMATCH {e}");
                }
                None
            }
        }
    }
}

#[derive(Default)]
struct Compared {
    drawings: u64,
    whole: u64,
    points: u64,
    cubics: u64,
    differing_cubics: u64,
    differing_drawings: u64,
    refused: [u64; 12],
    contours: contours::Counts,
}

fn by_library(setting: Setting, st: State, c: &Columns, room: &mut Room) -> Flattened {
    flatten(setting, st, c, &mut room.quads, &mut room.splines, &mut room.output)
}

impl Compared {
    /// The calls and the flattening by the library, and all they leave against the original.
    fn drawing(&mut self, calls: &[Call], room: &mut Room) -> Result<(), String> {
        self.drawings += 1;
        let (st, columns) = replay_both(calls, 2 + 4 * calls.len())?;
        same_store(st, &columns, &screen::store(calls)).map_err(|e| format!("{e}\n{}", written(calls)))?;
        let pieces = screen::pieces(calls);
        let ours = pieces_of(st, &columns, exact_pieces);
        self.cubics += ours.len() as u64;
        let differing = ours.iter().zip(&pieces).filter(|(a, b)| **a != **b as u64).count() as u64;
        self.differing_cubics += differing;
        for setting in [Setting::Screen, Setting::Knife] {
            let whole = Whole { setting, st, columns: &columns };
            let f = self.nest(whole, room).map_err(|e| format!("{e}\n{}", written(calls)))?;
            if f.answer != 0 || differing > 0 {
                continue;
            }
            let seen = match setting {
                Setting::Screen => screen::flatten(calls),
                Setting::Knife => knife::flatten(calls),
            };
            same_flattening(f, room, &seen).map_err(|e| format!("{setting:?}: {e}\n{}", written(calls)))?;
            self.whole += 1;
            self.points += f.points as u64;
        }
        if differing > 0 {
            self.differing_drawings += 1;
        }
        Ok(())
    }

    /// A drawing, and its contours alone. What it leaves is in `room`, unless it is refused.
    fn nest(&mut self, whole: Whole, room: &mut Room) -> Result<Flattened, String> {
        let f = by_library(whole.setting, whole.st, whole.columns, room);
        if f.answer != 0 {
            self.refused[f.answer as usize] += 1;
            self.contours.refused(&by_library, whole, f.answer, room)?;
        } else {
            self.contours.accepted(&by_library, whole, f, room)?;
        }
        Ok(f)
    }

    /// A nest made by hand, whose contours are not closed.
    fn by_hand(&mut self, rng: &mut Rng, room: &mut Room) -> Result<(), String> {
        let s = nest_by_hand(rng);
        let st = State { points: s.x.len(), commands: s.commands.len(), opening: s.opening };
        let columns = Columns { x: s.x, y: s.y, weight: s.weight, commands: s.commands };
        for setting in [Setting::Screen, Setting::Knife] {
            self.nest(Whole { setting, st, columns: &columns }, room).map_err(|e| format!("{e}\n{columns:?}"))?;
        }
        Ok(())
    }
}

fn main() {
    let hostile = number(1, "KERMEZHUL_HOSTILE", 1_000_000);
    let mut rng = Rng(number(2, "KERMEZHUL_SEED", 1));
    let start = Instant::now();
    let mut t = Teller::default();

    let mut calls = 0;
    let directed = directed();
    for drawing in &directed {
        calls += drawing.len();
        t.tell(replay_both(drawing, 2 + 4 * drawing.len()));
    }
    let mut drawings = directed.len();
    for _ in 0..20_000 {
        let k = kind(&mut rng);
        let drawing = random(&mut rng, k);
        calls += drawing.len();
        // the store is often too small
        let room = rng.below(6 + 4 * drawing.len() as u64) as usize;
        t.tell(replay_both(&drawing, room));
        drawings += 1;
    }
    println!("{drawings} drawings, {calls} drawing calls");

    let mut answers = [0u64; 12];
    for _ in 0..hostile {
        let (st, mut ours) = any_store(&mut rng);
        let mut theirs = ours.clone();
        let call = any_call(&mut rng);
        let call = if rng.one_in(16) { None } else { Some(&call) };
        if let Some((answer, _)) = t.tell(call_both(call, st, &mut ours, &mut theirs)) {
            answers[answer as usize] += 1;
        }
    }
    println!("{hostile} hostile drawing calls, by answer: {:?}", &answers[..5]);

    // flattenings with any store and any lent lengths
    let flats = hostile / 20;
    let mut answers = [0u64; 12];
    let mut lent = Lent::default();
    for _ in 0..flats {
        let flat = any_flat(&mut rng, 100);
        if let Some(f) = t.tell(flatten_both(&flat)) {
            answers[f.answer as usize] += 1;
            lent.add(&flat.quads, f.answer);
        }
    }
    println!("{flats} flattenings with any store and lengths, by answer 0 to 9: {:?}; the quad tables: {lent:?}", &answers[..10]);
    let lengths = every_length();
    for flat in &lengths {
        t.tell(flatten_both(flat));
    }
    println!("{} flattenings of three quads, with every length of the quad table's columns", lengths.len());
    let lengths = every_spline_length();
    for flat in &lengths {
        t.tell(flatten_both(flat));
    }
    println!("{} flattenings of three splines, with every length of each column of the spline table", lengths.len());

    // the library itself against the original: store, tables, words and points, both settings; drawn on and flattened again in between
    let mut compared = Compared::default();
    let mut room = Room::new(1 << 16, 1 << 14, 1 << 18);
    for drawing in &directed {
        t.tell(compared.drawing(drawing, &mut room));
    }
    for _ in 0..number(3, "KERMEZHUL_LIBRARY_DRAWINGS", 100_000) {
        let k = kind(&mut rng);
        let drawing = random(&mut rng, k);
        if rng.one_in(8) && drawing.len() > 2 {
            let part = 1 + rng.below(drawing.len() as u64 - 1) as usize;
            t.tell(compared.drawing(&drawing[..part], &mut room));
        }
        t.tell(compared.drawing(&drawing, &mut room));
        if rng.one_in(16) {
            t.tell(compared.by_hand(&mut rng, &mut room));
        }
    }
    println!(
        "{} drawings by the library and the original, both settings: {} compared whole, {} points; {} cubics, {} of them cut differently, in {} drawings; refused by the library alone: {:?}",
        compared.drawings, compared.whole, compared.points, compared.cubics, compared.differing_cubics, compared.differing_drawings, &compared.refused[..10]
    );
    compared.contours.print();
    if !compared.contours.met() {
        t.tell::<()>(Err("a part of the claim on contours was not met".to_string()));
    }

    let leaves = hostile;
    for _ in 0..leaves {
        let (a, b, c) = match rng.below(3) {
            0 => (any_float(&mut rng), any_float(&mut rng), any_float(&mut rng)),
            1 => (f32::from_bits(rng.next() as u32), f32::from_bits(rng.next() as u32), f32::from_bits(rng.next() as u32)),
            _ => {
                // a product that nearly cancels
                let (a, b) = (rng.between(-8.0, 8.0) as f32, rng.between(-8.0, 8.0) as f32);
                (a, b, f32::from_bits((-(a * b)).to_bits().wrapping_add(rng.below(5) as u32)))
            }
        };
        t.tell(leaves_on(a, b, c));
    }
    println!("{leaves} triples of numbers through the leaves");
    println!("{} mismatches, in {:.1} s", t.mismatches, start.elapsed().as_secs_f64());
    if t.mismatches > 0 {
        std::process::exit(1);
    }
}
