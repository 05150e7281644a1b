//! Numbers, calls and stores of any kind: NaN patterns, limits, counts and lengths that do not fit each other.

use crate::{
    call::{p, Call},
    model::{Columns, State},
    rng::Rng,
};

/// A float of any pattern, or one next to a limit.
pub fn any_float(rng: &mut Rng) -> f32 {
    match rng.below(12) {
        0 => f32::from_bits(rng.next() as u32),
        1 => f32::from_bits(0x7f80_0001 + rng.below(0x7f_fffe) as u32),
        2 => f32::from_bits(0xff80_0001 + rng.below(0x7f_fffe) as u32),
        3 => rng.pick(&[f32::INFINITY, f32::NEG_INFINITY, 0.0, -0.0, f32::MIN_POSITIVE, f32::MAX]),
        4 => f32::from_bits(65_536f32.to_bits() + rng.below(3) as u32 - 1) * rng.sign(),
        5 => f32::from_bits(4_194_304f32.to_bits() + rng.below(3) as u32 - 1) * rng.sign(),
        6 => f32::from_bits(rng.pick(&[1.0f32 / 64.0, 64.0, 1.0]).to_bits() + rng.below(3) as u32 - 1) * if rng.one_in(8) { -1.0 } else { 1.0 },
        7 => rng.below(8) as f32,
        _ => rng.between(-100.0, 100.0) as f32,
    }
}

pub fn any_call(rng: &mut Rng) -> Call {
    // mostly good numbers, so that the later tests are reached
    let bad = rng.one_in(3);
    let f = |rng: &mut Rng| if bad { any_float(rng) } else { rng.between(-50.0, 50.0) as f32 };
    let q = |rng: &mut Rng| {
        let (x, y) = (f(rng), f(rng));
        p(x, y)
    };
    let w = |rng: &mut Rng| if rng.one_in(3) { any_float(rng) } else { rng.between(0.02, 60.0) as f32 };
    match rng.below(7) {
        0 => Call::Move(q(rng)),
        1 => Call::Line(q(rng)),
        2 => Call::Quad(q(rng), q(rng)),
        3 => Call::Cubic(q(rng), q(rng), q(rng)),
        4 => Call::RatQuad(q(rng), q(rng), w(rng)),
        5 => Call::RatCubic(q(rng), q(rng), q(rng), w(rng), w(rng)),
        _ => Call::Build,
    }
}

pub fn any_count(rng: &mut Rng, near: usize) -> usize {
    match rng.below(12) {
        0 => rng.next() as usize,
        1 => usize::MAX - rng.below(4) as usize,
        2 => 0,
        3..=5 => (near + rng.below(5) as usize).saturating_sub(2),
        _ => rng.below(near as u64 + 1) as usize,
    }
}

/// Columns of any lengths with anything in them, and any state.
pub fn any_store(rng: &mut Rng) -> (State, Columns) {
    let n = rng.below(12) as usize;
    let m = rng.below(9) as usize;
    let uneven = rng.one_in(10);
    let odd = |rng: &mut Rng| if uneven { rng.below(13) as usize } else { n };
    let good = rng.one_in(2);
    let floats = |rng: &mut Rng, len: usize| -> Vec<f32> {
        (0..len)
            .map(|_| if good { rng.below(4) as f32 } else { any_float(rng) })
            .collect()
    };
    let (ny, nw) = (odd(rng), odd(rng));
    let c = Columns {
        x: floats(rng, n),
        y: floats(rng, ny),
        weight: if good { (0..nw).map(|_| rng.pick(&[1.0, 1.0, 2.0, 0.5])).collect() } else { floats(rng, nw) },
        commands: (0..m).map(|_| if rng.one_in(12) { rng.next() as u8 } else { rng.below(4) as u8 }).collect(),
    };
    let wild = rng.one_in(6);
    let st = if wild {
        State { points: any_count(rng, n), commands: any_count(rng, m), opening: any_count(rng, n) }
    } else {
        let points = 1 + rng.below(n.max(1) as u64) as usize;
        State { points, commands: 1 + rng.below(m.max(1) as u64) as usize, opening: rng.below(points as u64) as usize }
    };
    (st, c)
}
