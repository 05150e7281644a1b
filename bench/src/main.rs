//! How far the library is from the original Rust in time: one thread, the processor's fma, buffers not cleared first, both outputs compared bit for bit. `bench/run`
//! builds and starts it; README.md says how to read what it prints.
//!   bench [--brief]: all tables, and at the end the three ratios; brief ones only try that all of it works.
//!   bench count SIDE KIND: one flattening by `counted_SIDE`, for valgrind to count; prints how many points there are.

mod clock;
mod drawings;
mod heap;
mod near;
#[cfg(feature = "others")]
mod others;
mod sides;

use against_rust::{call::Call, original::screen};
use clock::{paired, Paired};
use drawings::{drawing, Kind};
use sides::Sides;
use std::hint::black_box;

#[global_allocator]
static ALLOCATOR: heap::Counting = heap::Counting;

/// The nest of each kind that the ratios are of.
const PRIMITIVES: usize = 4_800;

/// How much is measured.
struct Plan {
    pairs: usize,
    /// points within one time: a small drawing is flattened again and again, so that the clock's steps do not count
    points: usize,
    /// primitives
    largest: usize,
    /// how many are looked at for their distance
    contours: usize,
}

impl Plan {
    const WHOLE: Plan = Plan { pairs: 31, points: 400_000, largest: 1_000_000, contours: 200 };
    const BRIEF: Plan = Plan { pairs: 3, points: 10_000, largest: 1_000, contours: 10 };

    fn repeats(&self, points: usize) -> usize {
        (self.points / points).max(1)
    }

    /// Large drawings take few pairs.
    fn pairs_for(&self, points: usize) -> usize {
        self.pairs.min((self.pairs * self.points / points).max(5))
    }
}

type Result<T> = std::result::Result<T, String>;

fn flattened(kind: Kind, primitives: usize) -> Result<Sides> {
    Sides::new(&drawing(kind, primitives)).map_err(|e| format!("{primitives} {}: {e}", kind.name()))
}

/// A nest and how long both sides take for it.
struct Measured {
    kind: Kind,
    primitives: usize,
    points: usize,
    times: Paired,
}

impl Measured {
    /// What both sides gave is compared before they are timed and after.
    fn new(plan: &Plan, kind: Kind, primitives: usize) -> Result<Measured> {
        let mut sides = flattened(kind, primitives)?;
        let points = sides.points();
        let times = paired(plan.pairs_for(points), plan.repeats(points), &mut sides, Sides::rust, Sides::ours);
        sides.same().map_err(|e| format!("{primitives} {}, after they were timed: {e}", kind.name()))?;
        Ok(Measured { kind, primitives, points, times })
    }

    /// Nanoseconds of the Rust and of the library, over the points or the primitives, and the ratio.
    fn ns(&self, of: usize) -> (f64, f64, f64) {
        (ns(self.times.rust.median(), of), ns(self.times.ours.median(), of), self.times.ratio.median())
    }

    fn is_plain(&self) -> bool {
        Kind::PLAIN.contains(&self.kind)
    }
}

/// A time, spread over so many.
fn ns(seconds: f64, of: usize) -> f64 {
    seconds / of as f64 * 1e9
}

fn kinds(plan: &Plan) -> Result<Vec<Measured>> {
    println!("\nEach kind: {PRIMITIVES} primitives; ns for each point of the result, and for each primitive.");
    println!("{:16} {:>8} {:>10} {:>10} {:>7} {:>12} {:>12}", "", "points", "the Rust", "ours", "ratio", "the Rust", "ours");
    let mut all = Vec::new();
    for kind in Kind::ALL {
        let m = Measured::new(plan, kind, PRIMITIVES)?;
        let ((r, o, ratio), (rust, ours, _)) = (m.ns(m.points), m.ns(m.primitives));
        println!("{:16} {:8} {r:10.1} {o:10.1} {ratio:7.2} {rust:12.1} {ours:12.1}", kind.name(), m.points);
        all.push(m);
    }
    Ok(all)
}

fn growth(plan: &Plan) -> Result<()> {
    println!("\nGrowth: ns for each point of the result.");
    println!("{:16} {:>10} {:>10} {:>6} {:>10} {:>10} {:>7}", "", "primitives", "points", "pairs", "the Rust", "ours", "ratio");
    for kind in Kind::PLAIN {
        let mut primitives = 100;
        while primitives <= plan.largest {
            let m = Measured::new(plan, kind, primitives)?;
            let (r, o, ratio) = m.ns(m.points);
            println!("{:16} {primitives:10} {:10} {:6} {r:10.1} {o:10.1} {ratio:7.2}", kind.name(), m.points, plan.pairs_for(m.points));
            primitives *= 10;
        }
    }
    Ok(())
}

/// What the original takes from the heap beside the drawing. Its work columns outlive a flattening, one set for each thread, so a new thread is asked.
fn heap_of_rust(calls: &[Call]) -> usize {
    let mut rust = screen::Repeated::new(&screen::store(calls));
    let asked = std::thread::spawn(move || {
        heap::most(|| {
            rust.flatten();
        })
    });
    asked.join().expect("it flattens")
}

fn room() -> Result<()> {
    println!("\nBytes lent for each primitive, just as many as are used; beside them the drawing and what the Rust takes from the heap at most.");
    println!("{:16} {:>8} {:>12} {:>14} {:>18} {:>8} {:>10}", "", "drawing", "quad table", "spline table", "words and points", "in all", "the Rust");
    for kind in Kind::ALL {
        let calls = drawing(kind, PRIMITIVES);
        let each = |bytes: usize| bytes as f64 / PRIMITIVES as f64;
        let lent = flattened(kind, PRIMITIVES)?.lent();
        let [drawn, quads, splines, output] = lent.map(each);
        let (all, rust) = (each(lent.iter().sum()), each(heap_of_rust(&calls)) + drawn);
        println!("{:16} {drawn:8.1} {quads:12.1} {splines:14.1} {output:18.1} {all:8.1} {rust:10.1}", kind.name());
    }
    Ok(())
}

fn beside(plan: &Plan, kinds: &[Measured]) -> Result<()> {
    println!("\nAt a sixteenth of a pixel: ns for each point and each primitive, and how far the curves are at most from the lines between points.");
    println!("{:16} {:10} {:>8} {:>10} {:>12} {:>9}", "", "", "points", "a point", "a primitive", "farthest");
    for m in kinds.iter().filter(|m| m.is_plain()) {
        let calls = drawing(m.kind, m.primitives);
        let farthest = near::farthest(&calls, &flattened(m.kind, m.primitives)?.contours(), plan.contours);
        let say = |name: &str, points: usize, seconds: f64, farthest: f64| {
            println!("{:16} {name:10} {points:8} {:10.1} {:12.1} {farthest:9.4}", m.kind.name(), ns(seconds, points), ns(seconds, m.primitives));
        };
        say("the Rust", m.points, m.times.rust.median(), farthest);
        say("ours", m.points, m.times.ours.median(), farthest);
        #[cfg(feature = "others")]
        for other in others::others(plan, &calls) {
            say(other.name, other.points, other.seconds, other.farthest);
        }
    }
    Ok(())
}

fn whole(plan: &Plan) -> Result<()> {
    println!("One thread and its processor time, the processor's fma, buffers not cleared first; medians of pairs in turn. The screen setting.");
    let kinds = kinds(plan)?;
    growth(plan)?;
    room()?;
    beside(plan, &kinds)?;
    println!("\nWhat the library gave was the Rust's, bit for bit. Ours over the Rust's in {} pairs: least, quartile, median, quartile, greatest.", plan.pairs);
    for m in &kinds {
        let [a, b, c, d, e] = [0.0, 0.25, 0.5, 0.75, 1.0].map(|part| m.times.ratio.at(part));
        println!("{:16} {a:7.2} {b:7.2} {c:7.2} {d:7.2} {e:7.2}", m.kind.name());
    }
    println!();
    for m in kinds.iter().filter(|m| m.is_plain()) {
        println!("{} {:.2}", m.kind.name(), m.times.ratio.median());
    }
    Ok(())
}

/// The functions that valgrind is told to count in. Work that follows the call keeps it from being the last thing they do: a jump would not be seen to return.
#[no_mangle]
#[inline(never)]
pub fn counted_rust(sides: &mut Sides) -> usize {
    black_box(sides.rust())
}

#[no_mangle]
#[inline(never)]
pub fn counted_ours(sides: &mut Sides) -> usize {
    black_box(sides.ours())
}

fn count(side: &str, kind: &str) -> Result<()> {
    let kind = Kind::ALL.into_iter().find(|k| k.name() == kind).ok_or_else(|| format!("{kind} is no kind"))?;
    let mut sides = Sides::imitated(&drawing(kind, PRIMITIVES));
    let points = match side {
        "rust" => counted_rust(&mut sides),
        "ours" => counted_ours(&mut sides),
        _ => return Err(format!("{side} is neither rust nor ours")),
    };
    println!("{points}");
    Ok(())
}

fn main() {
    heap::settle_allocator();
    let words: Vec<String> = std::env::args().skip(1).collect();
    let done = match words.iter().map(String::as_str).collect::<Vec<_>>()[..] {
        [] => whole(&Plan::WHOLE),
        ["--brief"] => whole(&Plan::BRIEF),
        ["count", side, kind] => count(side, kind),
        _ => Err("usage: bench [--brief] | bench count rust|ours KIND".to_string()),
    };
    if let Err(e) = done {
        eprintln!("bench: {e}");
        std::process::exit(1);
    }
}
