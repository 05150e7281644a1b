//! Times of both sides, taken in turn, and what is printed of them.

use std::hint::black_box;

/// This thread's time on the processor, in seconds: what others do on the machine counts little.
fn now() -> f64 {
    #[repr(C)]
    struct Time {
        seconds: i64,
        nanoseconds: i64,
    }
    extern "C" {
        fn clock_gettime(clock: i32, time: *mut Time) -> i32;
    }
    let mut t = Time { seconds: 0, nanoseconds: 0 };
    const THREAD: i32 = 3;
    // SAFETY: C's clock_gettime fills the two numbers of a timespec (64-bit Linux)
    assert_eq!(unsafe { clock_gettime(THREAD, &mut t) }, 0);
    t.seconds as f64 + t.nanoseconds as f64 * 1e-9
}

/// Seconds that one call of f takes, as the mean of many.
pub fn seconds(times: usize, mut f: impl FnMut() -> usize) -> f64 {
    let start = now();
    for _ in 0..times {
        black_box(f());
    }
    (now() - start) / times as f64
}

/// Some figures in order.
pub struct Spread(Vec<f64>);

impl Spread {
    pub fn of(mut figures: Vec<f64>) -> Spread {
        assert!(!figures.is_empty());
        figures.sort_by(f64::total_cmp);
        Spread(figures)
    }

    /// The figure below which this part of them lies: 0 for the least, 0.5 for the median, 1 for the greatest.
    pub fn at(&self, part: f64) -> f64 {
        self.0[((self.0.len() - 1) as f64 * part).round() as usize]
    }

    pub fn median(&self) -> f64 {
        self.at(0.5)
    }
}

/// Seconds of one flattening by either side, and the ratio of the two, each over all pairs.
pub struct Paired {
    pub rust: Spread,
    pub ours: Spread,
    pub ratio: Spread,
}

/// Times both sides in turn, so many times; who comes first changes from pair to pair.
pub fn paired<S>(pairs: usize, times: usize, sides: &mut S, rust: fn(&mut S) -> usize, ours: fn(&mut S) -> usize) -> Paired {
    let (mut a, mut b, mut r) = (Vec::new(), Vec::new(), Vec::new());
    for pair in 0..pairs {
        let (x, y);
        if pair % 2 == 0 {
            x = seconds(times, || rust(sides));
            y = seconds(times, || ours(sides));
        } else {
            y = seconds(times, || ours(sides));
            x = seconds(times, || rust(sides));
        }
        a.push(x);
        b.push(y);
        r.push(y / x);
    }
    Paired { rust: Spread::of(a), ours: Spread::of(b), ratio: Spread::of(r) }
}

#[cfg(test)]
mod tests {
    use super::*;

    #[test]
    fn a_spread_is_in_order() {
        let s = Spread::of((0..31).map(|i| ((i * 7) % 31) as f64).collect());
        assert_eq!([s.at(0.0), s.at(0.25), s.median(), s.at(0.75), s.at(1.0)], [0.0, 8.0, 15.0, 23.0, 30.0]);
    }

    #[test]
    fn both_sides_are_called_as_often_and_in_turn() {
        let mut calls = Vec::new();
        let p = paired(
            3,
            2,
            &mut calls,
            |c| {
                c.push('r');
                0
            },
            |c| {
                c.push('o');
                0
            },
        );
        assert_eq!(calls.iter().collect::<String>(), "rroooorrrroo");
        assert_eq!((p.rust.0.len(), p.ours.0.len(), p.ratio.0.len()), (3, 3, 3));
    }

    #[test]
    fn the_ratio_is_ours_over_the_rusts() {
        // work that the compiler cannot drop: the second side does eight times as much
        fn work(n: usize) -> usize {
            (0..n).fold(0, |a, i| black_box(a ^ i))
        }
        let p = paired(5, 20, &mut (), |_| work(20_000), |_| work(160_000));
        assert!(p.ratio.median() > 2.0, "{}", p.ratio.median());
    }
}
