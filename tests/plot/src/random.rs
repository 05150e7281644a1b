//! Random lists of finished points, in buffers of any length near what they need.

use crate::{
    compare::Seen,
    directed::unprintable,
    points::{Points, Writer},
    rng::Rng,
    second,
};

fn coordinate(rng: &mut Rng, kind: u64) -> f32 {
    match kind {
        0 => rng.below(2001) as f32 / 2.0 - 500.0,
        1 => rng.between(-32768.4, 32767.4) as f32,
        2 => rng.between(-2.0, 2.0) as f32,
        _ => f32::from_bits(rng.next() as u32 & 0x807f_ffff | (rng.below(142) as u32) << 23),
    }
}

fn points(rng: &mut Rng, most: u64) -> Points {
    let n = rng.below(most + 1) as usize;
    let (kind, flags) = (rng.below(4), rng.pick(&[2, 5, 30, 1 << 40]));
    let mut list = Points::default();
    for _ in 0..n {
        list.x.push(coordinate(rng, kind));
        list.y.push(coordinate(rng, kind));
        list.end.push(if rng.one_in(flags) { 1 + rng.below(255) as u8 } else { 0 });
    }
    // now and then one that cannot be printed, the last one as often as any other
    if n > 0 && rng.one_in(6) {
        let at = if rng.one_in(2) { n - 1 } else { rng.below(n as u64) as usize };
        let v = rng.pick(&unprintable());
        (if rng.one_in(2) { &mut list.x } else { &mut list.y })[at] = v;
    }
    // columns of unequal length, with anything past the shortest
    if rng.one_in(4) {
        for _ in 0..rng.below(4) {
            match rng.below(3) {
                0 => list.x.push(f32::from_bits(rng.next() as u32)),
                1 => list.y.push(f32::from_bits(rng.next() as u32)),
                _ => list.end.push(rng.next() as u8),
            }
        }
    }
    list
}

/// Fails too if an answer was hardly met, or 12 and 13 were hardly due at once.
pub fn lists(writer: &dyn Writer, seen: &mut Seen, seed: u64, count: u64) -> Result<u64, String> {
    let mut rng = Rng(seed);
    let (mut met, mut both) = ([0u64; 14], 0);
    for i in 0..count {
        let list = points(&mut rng, if i % 64 == 0 { 400 } else { 12 });
        let text = second::text(&list);
        let needed = text.as_ref().map_or(3 + 8 * list.len(), |t| t.len());
        let room = match rng.below(4) {
            0 => needed,
            1 => needed - 1,
            2 => needed + rng.below(20) as usize,
            _ => rng.below(needed as u64 + 1) as usize,
        };
        met[seen.plot(writer, &list, room)? as usize] += 1;
        both += u64::from(text.is_none() && room < 3 + 8 * list.len());
        let n = list.x.len().min(list.y.len());
        let rooms = (n + rng.below(4) as usize, n + rng.below(4) as usize);
        let rooms = if rng.one_in(4) { (rooms.0.saturating_sub(3), rooms.1.saturating_sub(2)) } else { rooms };
        seen.whole(writer, &list.x, &list.y, rooms)?;
    }
    if met[0].min(met[12]).min(met[13]).min(both) < count / 50 {
        return Err(format!("too few of an answer: 0 {}, 12 {}, 13 {}, 12 and 13 both due {both}", met[0], met[12], met[13]));
    }
    Ok(both)
}
