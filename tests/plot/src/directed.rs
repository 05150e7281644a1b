//! Cases with a purpose. The first ones have their text written out, so that the second implementation is tested by them too.

use crate::{
    compare::Seen,
    points::{Points, Writer},
    second,
};

pub fn below(v: f32) -> f32 {
    f32::from_bits(if v > 0.0 { v.to_bits() - 1 } else { v.to_bits() + 1 })
}

pub fn above(v: f32) -> f32 {
    -below(-v)
}

fn tiny(bits: u32) -> f32 {
    f32::from_bits(bits)
}

/// Name, points and text.
type Case = (&'static str, Vec<(f32, f32, u8)>, &'static str);

fn texts() -> Vec<Case> {
    vec![
        ("the request's example", vec![(0.5, -2.5, 0), (-0.4, 0.0, 1), (7.0, 7.0, 0)], "IN;PU 1,-3;PD 0,0;PU 7,7;"),
        ("no points", vec![], "IN;"),
        ("halves", vec![(0.5, -0.5, 0), (1.5, -1.5, 0), (2.5, -2.5, 0), (32766.5, -32767.5, 0)], "IN;PU 1,-1;PD 2,-2;PD 3,-3;PD 32767,-32768;"),
        ("beside a half", vec![(tiny(0x3eff_ffff), tiny(0xbeff_ffff), 0), (tiny(0x3f00_0001), tiny(0xbf00_0001), 0)], "IN;PU 0,0;PD 1,-1;"),
        ("beside larger halves", vec![(below(1.5), above(-1.5), 0), (below(1000.5), above(1000.5), 0)], "IN;PU 1,-1;PD 1000,1001;"),
        (
            "zero has no sign",
            vec![(0.0, -0.0, 0), (0.4, -0.4, 0), (0.1, -0.1, 1), (-0.0, 0.0, 0), (-0.49999, -0.3, 0)],
            "IN;PU 0,0;PD 0,0;PD 0,0;PU 0,0;PD 0,0;",
        ),
        (
            "subnormals",
            vec![(tiny(1), tiny(0x8000_0001), 0), (tiny(0x007f_ffff), tiny(0x807f_ffff), 0), (f32::MIN_POSITIVE, -f32::MIN_POSITIVE, 0)],
            "IN;PU 0,0;PD 0,0;PD 0,0;",
        ),
        ("the ends of the range", vec![(32767.0, -32768.0, 0), (below(32767.5), above(-32768.5), 0)], "IN;PU 32767,-32768;PD 32767,-32768;"),
        ("no flag", vec![(1.0, 2.0, 0), (3.0, 4.0, 0), (5.0, 6.0, 0)], "IN;PU 1,2;PD 3,4;PD 5,6;"),
        (
            "any byte but 0 is a flag",
            vec![(1.0, 1.0, 1), (2.0, 2.0, 2), (3.0, 3.0, 255), (4.0, 4.0, 128), (5.0, 5.0, 0), (6.0, 6.0, 16)],
            "IN;PU 1,1;PU 2,2;PU 3,3;PU 4,4;PU 5,5;PD 6,6;",
        ),
        ("a contour of one point, alone", vec![(9.0, 9.0, 0)], "IN;PU 9,9;"),
        ("a contour of one point, flagged", vec![(9.0, 9.0, 1)], "IN;PU 9,9;"),
        ("the last point flagged", vec![(1.0, 2.0, 0), (3.0, 4.0, 1)], "IN;PU 1,2;PD 3,4;"),
        ("points are not merged", vec![(1.0, 1.0, 0), (1.0, 1.0, 0), (1.2, 0.8, 1), (1.0, 1.0, 0)], "IN;PU 1,1;PD 1,1;PD 1,1;PU 1,1;"),
        (
            "digits",
            vec![(9.0, 10.0, 0), (99.0, 100.0, 0), (999.0, 1000.0, 0), (9999.0, 10000.0, 0), (-9.6, -99.5, 0), (-20000.0, 30303.0, 0)],
            "IN;PU 9,10;PD 99,100;PD 999,1000;PD 9999,10000;PD -10,-100;PD -20000,30303;",
        ),
    ]
}

/// Each is refused with 12, in x and in y, and whichever point it is of.
pub fn unprintable() -> Vec<f32> {
    let mut all = vec![32767.5, -32768.5, above(32767.5), below(-32768.5), 32768.0, -32769.0, 40000.0, -40000.0, 65536.0, -65536.0];
    all.extend([2147483648.0, -2147483648.0, 4294967296.0, 9.223372e18, -9.223372e18, 1e30, -1e30, f32::MAX, f32::MIN, f32::INFINITY, f32::NEG_INFINITY]);
    all.extend([0x7fc0_0000, 0xffc0_0000, 0x7f80_0001, 0x7fff_ffff, 0xff80_0001, 0x7fc1_2345].map(f32::from_bits));
    all
}

pub fn written_out(writer: &dyn Writer, seen: &mut Seen) -> Result<u64, String> {
    let all = texts();
    for (name, points, text) in &all {
        let points = Points::of(points);
        if second::text(&points).as_deref() != Some(*text) {
            return Err(format!("{name}: the second implementation gives {:?}", second::text(&points)));
        }
        seen.plot_in_rooms(writer, &points).map_err(|e| format!("{name}: {e}"))?;
        seen.whole_in_rooms(writer, &points.x, &points.y).map_err(|e| format!("{name}: {e}"))?;
    }
    Ok(all.len() as u64)
}

pub fn refused(writer: &dyn Writer, seen: &mut Seen) -> Result<u64, String> {
    let mut lists = 0;
    for v in unprintable() {
        for n in [1, 2, 3, 7] {
            for at in 0..n {
                for in_y in [false, true] {
                    let mut points = Points { x: vec![12.0; n], y: vec![-7.0; n], end: vec![0; n] };
                    (if in_y { &mut points.y } else { &mut points.x })[at] = v;
                    points.end[n / 2] = 1;
                    if second::text(&points).is_some() {
                        return Err(format!("{v} can be printed by the second implementation"));
                    }
                    seen.plot_in_rooms(writer, &points)?;
                    seen.whole_in_rooms(writer, &points.x, &points.y)?;
                    lists += 1;
                }
            }
        }
    }
    Ok(lists)
}

/// Each column is the shortest in turn. What the others hold past it cannot be printed, and is flagged, and must not matter.
pub fn unequal(writer: &dyn Writer, seen: &mut Seen) -> Result<u64, String> {
    let mut lists = 0;
    for lengths in [[2, 4, 4], [4, 2, 4], [4, 4, 2], [0, 3, 3], [3, 0, 3], [3, 3, 0], [1, 2, 3], [3, 2, 1], [2, 3, 1], [2, 1, 3], [5, 5, 9]] {
        let n = *lengths.iter().min().unwrap();
        for past in [f32::NAN, f32::INFINITY, 40000.0, 3.0] {
            let column = |len: usize, v: f32| -> Vec<f32> { (0..len).map(|i| if i < n { v + i as f32 } else { past }).collect() };
            let points =
                Points { x: column(lengths[0], 10.0), y: column(lengths[1], -20.0), end: (0..lengths[2]).map(|i| if i < n { 0 } else { 1 }).collect() };
            let text = second::text(&points).ok_or("the second implementation looks past the shortest column")?;
            if text.matches('P').count() != n {
                return Err("the second implementation prints other points than the shortest column has".to_string());
            }
            seen.plot_in_rooms(writer, &points)?;
            seen.whole_in_rooms(writer, &points.x, &points.y)?;
            lists += 1;
        }
    }
    Ok(lists)
}

/// Lists of up to eight points with a flag or none at each, and buffers of every length up to two bytes more than the text.
pub fn flags_and_rooms(writer: &dyn Writer, seen: &mut Seen) -> Result<u64, String> {
    let mut lists = 0;
    for n in 0..=8 {
        for flags in 0..1u32 << n {
            let flag = |i: u32| if flags >> i & 1 == 0 { 0 } else { [1, 2, 255, 64][(i % 4) as usize] };
            let points = Points::of(&(0..n).map(|i| (i as f32 * 7.0 - 10.5, 3.5 - i as f32 * 40.0, flag(i))).collect::<Vec<_>>());
            let needed = second::text(&points).ok_or("it can be printed")?.len();
            for room in 0..=needed + 2 {
                seen.plot(writer, &points, room)?;
            }
            lists += 1;
        }
    }
    Ok(lists)
}

/// Two numbers of every sign and number of digits, the least and the greatest of each.
pub fn digits(writer: &dyn Writer, seen: &mut Seen) -> Result<u64, String> {
    let sizes = [0, 1, 9, 10, 99, 100, 999, 1000, 9999, 10000, 32767, 32768];
    let all: Vec<f32> = sizes.iter().flat_map(|v| [*v as f32, -(*v as f32)]).filter(|v| *v <= 32767.0).collect();
    let mut lists = 0;
    for x in &all {
        for y in &all {
            let points = Points::of(&[(*x, *y, 0), (*y, *x, 1)]);
            seen.plot_in_rooms(writer, &points)?;
            lists += 1;
        }
    }
    Ok(lists)
}
