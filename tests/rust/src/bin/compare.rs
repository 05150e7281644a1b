//! Compares the model with the original on directed and random drawings. Its status is not 0 on any mismatch, nor if a rule decided nothing.
//!
//! compare [DRAWINGS [SEED]], or the variables KERMEZHUL_DRAWINGS and KERMEZHUL_SEED.

use against_rust::{
    number,
    against::{compare_drawing, compare_store, Counts, Room},
    drawings::{by_hand, directed, kind_below, long_rows, nest_by_hand, random, rational_difference, DIFFERENT, JOINTS, KINDS, NESTS, SWEEPS},
    call::{p, Call},
    model::{self, cover, flatten::{exact_pieces, pieces_of}},
    original::screen,
    rng::Rng,
};
use std::time::Instant;

fn main() {
    let drawings = number(1, "KERMEZHUL_DRAWINGS", 100_000);
    let seed = number(2, "KERMEZHUL_SEED", 1);
    let start = Instant::now();
    let mut room = Room::new(1 << 16, 1 << 16, 1 << 20);
    let mut n = Counts::default();
    let mut shown = 0;
    let mut tell = |r: Result<(), String>| {
        if let Err(e) = r {
            shown += 1;
            if shown <= 10 {
                println!("MISMATCH {e}");
            }
        }
    };

    println!("pieces, ours and the original's:");
    let mut cubics: Vec<Call> = DIFFERENT.iter().map(|c| Call::Cubic(p(c[0], c[1]), p(c[2], c[3]), p(c[4], c[5]))).collect();
    cubics.push(rational_difference());
    for cubic in cubics {
        let mut c = model::Columns { x: vec![0.0; 4], y: vec![0.0; 4], weight: vec![0.0; 4], commands: vec![0; 2] };
        let (_, st) = model::fresh(&mut c);
        let (answer, st) = model::draw(&cubic, st, &mut c);
        assert_eq!(answer, 0);
        println!("  {:?} / {:?}  {cubic:?}", pieces_of(st, &c, exact_pieces)[0], screen::pieces(&[cubic])[0]);
    }

    let directed = directed();
    let joints = drawings / 8;
    println!("{} directed drawings, {drawings} random ones and {joints} each with joints of straight and round, with sweeps and with nests, seed {seed}", directed.len());
    for calls in &directed {
        tell(compare_drawing(calls, true, &mut room, &mut n));
    }
    for calls in long_rows() {
        tell(compare_drawing(&calls, false, &mut room, &mut n));
    }
    let mut rng = Rng(seed);
    let mut by_kind = [0u64; KINDS.len()];
    for i in 0..drawings {
        if i % 16 == 15 {
            let store = by_hand(&mut rng);
            let k = rng.pick(&[0, 1, 4, 6, 9]);
            let mut calls = random(&mut rng, k);
            calls.truncate(1 + rng.below(4) as usize);
            tell(compare_store(&store, &calls, &mut room, &mut n));
            continue;
        }
        let k = kind_below(&mut rng, JOINTS);
        by_kind[k] += 1;
        let calls = random(&mut rng, k);
        tell(compare_drawing(&calls, i % 64 == 0, &mut room, &mut n));
    }
    // they come last, so that the random ones before are the same as without them
    for k in [JOINTS, SWEEPS, NESTS] {
        for i in 0..joints {
            by_kind[k] += 1;
            let calls = random(&mut rng, k);
            tell(compare_drawing(&calls, i % 64 == 0, &mut room, &mut n));
        }
    }
    for _ in 0..joints / 4 {
        tell(compare_store(&nest_by_hand(&mut rng), &[], &mut room, &mut n));
    }
    for (name, count) in KINDS.iter().zip(by_kind) {
        println!("{count:9}  {name}");
    }
    println!("{:9}  stores made by hand", n.by_hand);
    println!("what decided in the model (screen and knife together):");
    let mut unmet = 0;
    for (i, (name, count)) in cover::NAMES.iter().zip(cover::counts()).enumerate() {
        println!("{count:11}  {name}");
        // the directed drawings meet each but one
        if i != cover::MINUS0 && (count == 0) != cover::NEVER.contains(&i) {
            println!("UNMET {name}: {count}");
            unmet += 1;
        }
    }
    for (answer, count) in n.refused.iter().enumerate().filter(|(_, c)| **c > 0) {
        println!("{count:9}  flattenings that the port refuses with {answer}, and the original does not");
    }
    println!("{:9}  drawings by calls ({} calls), {} stores made by hand", n.drawings, n.calls, n.by_hand);
    println!("{:9}  compared whole in the screen setting, {} in the knife setting; {} of them with other words in the knife setting", n.screen, n.knife, n.settings_differ);
    println!("{:9}  points compared, {} of them in the screen setting", n.points, n.screen_points);
    println!(
        "{:9}  cubics, {} of them cut differently ({} into more pieces than the original, {} into fewer), in {} drawings",
        n.cubics, n.differing_cubics, n.more, n.fewer, n.differing_drawings
    );
    n.contours.print();
    println!("{:9}  mismatches, in {:.1} s", n.mismatches, start.elapsed().as_secs_f64());
    if !n.contours.met() {
        println!("UNMET a part of the claim on contours: {:?}", n.contours);
        unmet += 1;
    }
    if n.mismatches > 0 || unmet > 0 {
        std::process::exit(1);
    }
}
