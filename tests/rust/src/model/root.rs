//! The largest f32 whose exact sixth power is at most q, by whole numbers.

/// 512 bits, lowest first.
type Wide = [u64; 8];

fn shifted(value: u128, by: u32) -> Wide {
    let mut w = [0; 8];
    w[0] = value as u64;
    w[1] = (value >> 64) as u64;
    shift(w, by)
}

fn shift(w: Wide, by: u32) -> Wide {
    let (words, bits) = ((by / 64) as usize, by % 64);
    let mut out = [0; 8];
    for i in (0..8).rev() {
        if w[i] == 0 {
            continue;
        }
        assert!(i + words < 8, "512 bits do");
        out[i + words] |= w[i] << bits;
        if bits > 0 && w[i] >> (64 - bits) != 0 {
            out[i + words + 1] |= w[i] >> (64 - bits);
        }
    }
    out
}

fn times(w: Wide, by: u64) -> Wide {
    let mut out = [0; 8];
    let mut carry = 0u128;
    for i in 0..8 {
        let t = w[i] as u128 * by as u128 + carry;
        out[i] = t as u64;
        carry = t >> 64;
    }
    assert_eq!(carry, 0, "512 bits do");
    out
}

fn at_most(a: &Wide, b: &Wide) -> bool {
    for i in (0..8).rev() {
        if a[i] != b[i] {
            return a[i] < b[i];
        }
    }
    true
}

/// A finite f32 from 0 up as (n, e): n · 2^e.
fn parts(v: f32) -> (u64, i32) {
    let bits = v.to_bits();
    let e = (bits >> 23) as i32;
    let n = (bits & 0x7f_ffff) as u64;
    if e == 0 {
        (n, -149)
    } else {
        (n | 0x80_0000, e - 150)
    }
}

/// r^6 <= q exactly. r is 0 or at least 2^-32, so that 2^330 makes both sides whole.
fn sixth_at_most(r: f32, q: f32) -> bool {
    let (n, e) = parts(r);
    if n == 0 {
        return true;
    }
    let mut power = shifted(1, 0);
    for _ in 0..6 {
        power = times(power, n);
    }
    let (m, d) = parts(q);
    let low = 330;
    let left = 6 * e + low;
    let right = d + low;
    assert!(left >= 0 && right >= 0);
    at_most(&shift(power, left as u32), &shifted(m as u128, right as u32))
}

/// Of a NaN, a negative or an infinite q there is no such root: `None`.
pub fn sixth_root(q: f32) -> Option<f32> {
    if q.is_nan() || q.is_infinite() || q < 0.0 {
        return None;
    }
    if q == 0.0 {
        return Some(0.0);
    }
    // a guess, then the exact test alone decides
    let mut r = (q as f64).powf(1.0 / 6.0) as f32;
    while !sixth_at_most(r, q) {
        r = f32::from_bits(r.to_bits() - 1);
    }
    while sixth_at_most(f32::from_bits(r.to_bits() + 1), q) {
        r = f32::from_bits(r.to_bits() + 1);
    }
    Some(r)
}

#[cfg(test)]
mod tests {
    use super::*;

    #[test]
    fn known_roots() {
        assert_eq!(sixth_root(64.0), Some(2.0));
        assert_eq!(sixth_root(0.0), Some(0.0));
        assert_eq!(sixth_root(-0.0), Some(0.0));
        assert_eq!(sixth_root(1.0), Some(1.0));
        assert_eq!(sixth_root(f32::from_bits(0x3f7f_ffff)).unwrap().to_bits(), 0x3f7f_ffff);
        assert_eq!(sixth_root(729.0), Some(3.0));
        assert_eq!(sixth_root(f32::NAN), None);
        assert_eq!(sixth_root(f32::INFINITY), None);
        assert_eq!(sixth_root(-1.0), None);
        for n in 1..=1290u32 {
            // n^6 need not be an f32; the f32 at or below it has a root at or below n
            let r = sixth_root((n as f64).powi(6) as f32).unwrap();
            assert!((r as f64 - n as f64).abs() <= n as f64 * 2e-7, "{n}: {r}");
        }
        let tiny = f32::from_bits(1);
        let r = sixth_root(tiny).unwrap();
        assert!(sixth_at_most(r, tiny) && !sixth_at_most(f32::from_bits(r.to_bits() + 1), tiny));
        let r = sixth_root(f32::MAX).unwrap();
        assert!(sixth_at_most(r, f32::MAX) && !sixth_at_most(f32::from_bits(r.to_bits() + 1), f32::MAX));
    }
}
