//! The plot writer and whole units against a second implementation; see README.md.
//!
//!     plot_tests                     the test: its last line is `tests/plot: K passed`
//!     plot_tests --every             rounding on every f32
//!     plot_tests --mistakes          by what each planted mistake is found
//!     plot_tests --texts FOLDER      writes the texts of the examples, in the knife setting, for a reader of HP-GL

mod compare;
mod directed;
mod drawings;
mod points;
mod random;
mod reader;
#[allow(dead_code)]
#[path = "../../rust/src/rng.rs"]
mod rng;
mod rounding;
mod second;
mod wrong;

use compare::Seen;
use drawings::{examples, flattened, inner_starts, Flat, SETTINGS};
use kermezhul::{Call, Setting};
use points::{Library, Points, Writer};
use std::{env, fs, path::Path, process::ExitCode};
use wrong::{Mistake, Wrong};

fn say(text: &str) {
    println!("tests/plot: {text}");
}

/// With as many random numbers and lists as these. Gives a line for each part, or what differs.
fn all_parts(writer: &dyn Writer, numbers: u64, lists: u64, seen: &mut Seen) -> Result<Vec<String>, String> {
    let mut parts = Vec::new();
    let n = directed::written_out(writer, seen)?;
    parts.push(format!("{n} lists whose text is written out, in nine buffers each"));
    let n = directed::refused(writer, seen)?;
    parts.push(format!("{n} lists with a coordinate that cannot be printed, in nine buffers each"));
    let n = directed::unequal(writer, seen)?;
    parts.push(format!("{n} lists with columns of unequal length"));
    let n = directed::flags_and_rooms(writer, seen)?;
    parts.push(format!("{n} lists of up to eight points, every flag or none, in buffers of every length"));
    let n = directed::digits(writer, seen)?;
    parts.push(format!("{n} pairs of numbers of every length"));
    let s = rounding::each(writer, seen, rounding::halves())?;
    parts.push(format!("all halves, whole numbers and their neighbours: {} rounded, {} refused", s.good, s.bad));
    let n = rounding::halves_as_texts(writer, seen)?;
    parts.push(format!("{n} of these in texts"));
    let s = rounding::each(writer, seen, rounding::random(1, numbers))?;
    parts.push(format!("random numbers: {} rounded, {} refused", s.good, s.bad));
    let both = random::lists(writer, seen, 2, lists)?;
    parts.push(format!("{lists} random lists, 12 and 13 both due in {both}"));
    Ok(parts)
}

/// The finished points of the examples in both settings, as they are and enlarged.
fn drawn() -> Result<Vec<(String, Points)>, String> {
    let mut all = Vec::new();
    for times in [1.0, 7.3, 90.0, 100.0] {
        for (name, calls) in examples(times)? {
            for (setting_name, setting) in SETTINGS {
                let title = format!("{name}, {setting_name}, {times} times as large");
                let flat = flattened(&calls, setting).map_err(|e| format!("{title}: {e}"))?;
                all.push((title, flat.points));
            }
        }
    }
    Ok(all)
}

/// How many points, and how many drawings are too large for a plotter.
fn drawings_plotted(writer: &dyn Writer, seen: &mut Seen, all: &[(String, Points)]) -> Result<(usize, usize), String> {
    let mut too_large = 0;
    for (title, points) in all {
        let told = |e: String| format!("{title}: {e}");
        if second::text(points).is_none() {
            too_large += 1;
        } else if points.end.last() != Some(&1) {
            return Err(told("its last point is not flagged".to_string()));
        }
        seen.plot_in_rooms(writer, points).map_err(told)?;
        seen.whole_in_rooms(writer, &points.x, &points.y).map_err(told)?;
    }
    Ok((all.iter().map(|(_, points)| points.len()).sum(), too_large))
}

/// Drawings with a Start inside a contour: a rational cubic is cut into so many pieces that the last ends short of the cubic's end, where the line goes on.
fn with_inner_starts() -> Vec<Vec<Call>> {
    let one = [Call::RatCubic([-1200.0, -1500.0, -805.0, -1016.0, -18300.5, 12700.5], 1.0, 16.0), Call::Line(-2300.0, -19600.0)];
    let other = [Call::RatCubic([600.0, 900.0, 401.0, 598.0, 26300.5, 26200.5], 1.0, 48.0), Call::Line(-16200.0, -24100.0)];
    let apart = [&one[..], &[Call::Move(0.0, 0.0)], &other[..]].concat();
    vec![one.to_vec(), other.to_vec(), apart]
}

/// "a Start inside one is cut through with PD". Gives how many there are.
fn inner_starts_cut(writer: &dyn Writer, seen: &mut Seen) -> Result<usize, String> {
    let mut found = 0;
    for (calls, contours) in with_inner_starts().iter().zip([1, 1, 2]) {
        for (name, setting) in SETTINGS {
            let told = |e: String| format!("an inner Start, {name}: {e}");
            let Flat { words, points } = flattened(calls, setting).map_err(told)?;
            let inner = inner_starts(&words, &points.end);
            if inner.len() != contours {
                return Err(told(format!("the words hold {} of them", inner.len())));
            }
            let mut text = vec![0; kermezhul::plot_room(points.len())];
            let (answer, written) = writer.plot(&points, &mut text);
            let strokes: Vec<&[u8]> = text[..written].split_inclusive(|b| *b == b';').skip(1).collect();
            if answer != 0 || strokes.len() != points.len() {
                return Err(told(format!("the answer is {answer}, and there are {} strokes for {} points", strokes.len(), points.len())));
            }
            for i in inner {
                // the End before it is another point, in whole units too
                if !strokes[i].starts_with(b"PD ") || strokes[i][3..] == strokes[i - 1][3..] {
                    return Err(told(format!("it is {:?}", String::from_utf8_lossy(strokes[i]))));
                }
                found += 1;
            }
            let ups = strokes.iter().filter(|s| s.starts_with(b"PU ")).count();
            if ups != contours {
                return Err(told(format!("{ups} contours, not {contours}")));
            }
            seen.plot_in_rooms(writer, &points).map_err(told)?;
        }
    }
    Ok(found)
}

/// How many mistakes were found; all of them, or it fails. `told` gets each with what was found first.
fn mistakes_found(told: impl Fn(&str, &str)) -> Result<usize, String> {
    all_parts(&Wrong(Mistake::Right), 10_000, 2_000, &mut Seen::default()).map_err(|e| format!("without a mistake: {e}"))?;
    for (mistake, name) in wrong::ALL {
        match all_parts(&Wrong(mistake), 10_000, 2_000, &mut Seen::default()) {
            Err(found) => told(name, &found),
            Ok(parts) => return Err(format!("not found in {} parts: {name}", parts.len())),
        }
    }
    Ok(wrong::ALL.len())
}

fn test() -> Result<usize, String> {
    let mistakes = mistakes_found(|_, _| {})?;
    say(&format!("{mistakes} mistakes, each planted in a writer of its own, are found"));
    let mut seen = Seen::default();
    let parts = all_parts(&Library, 8_000_000, 200_000, &mut seen)?;
    parts.iter().for_each(|part| say(part));
    let all = drawn()?;
    let (points, too_large) = drawings_plotted(&Library, &mut seen, &all)?;
    say(&format!("{} flattenings of the examples, {points} points, {too_large} of them too large to plot", all.len()));
    if too_large == 0 || too_large > 2 {
        return Err("of the examples the saddle flap alone is too large at a hundred times its size".to_string());
    }
    let inner = inner_starts_cut(&Library, &mut seen)?;
    say(&format!("{inner} Starts inside a contour are cut through"));
    let [plots, wholes] = seen.answers;
    say(&format!(
        "{} plots compared, {} bytes, {} texts read back; answers 0, 12, 13: {} {} {}",
        seen.plots, seen.bytes, seen.read_back, plots[0], plots[1], plots[2]
    ));
    say(&format!("{} calls for whole units compared, {} numbers; answers 0, 12, 13: {} {} {}", seen.wholes, seen.numbers, wholes[0], wholes[1], wholes[2]));
    Ok(mistakes + parts.len() + all.len() + inner)
}

fn every() -> Result<usize, String> {
    let (split, seen) = rounding::every(&Library)?;
    say(&format!("every f32: {} rounded, {} refused, {} numbers compared", split.good, split.bad, seen.numbers));
    Ok(1)
}

/// The text of a drawing in the knife setting, and a line of its bits for each point; none if it is too large to be drawn or plotted.
fn plotted(calls: &[Call]) -> Option<(Vec<u8>, String)> {
    let points = flattened(calls, Setting::Knife).ok()?.points;
    let mut text = vec![0; kermezhul::plot_room(points.len())];
    let (answer, written) = Library.plot(&points, &mut text);
    text.truncate(written);
    let rows = (0..points.len()).map(|i| format!("{:08x} {:08x} {}\n", points.x[i].to_bits(), points.y[i].to_bits(), points.end[i]));
    (answer == 0).then(|| (text, rows.collect()))
}

/// NAME.hpgl for each example, and NAME-1000.hpgl, so many times as large, or -100 or -90 where that is too large; beside each its points, in a file .points.
fn texts(folder: &Path) -> Result<usize, String> {
    let mut written = 0;
    for (i, (name, _)) in examples(1.0)?.into_iter().enumerate() {
        let put = |name: &str, (text, rows): (Vec<u8>, String)| {
            fs::write(folder.join(format!("{name}.hpgl")), text).and(fs::write(folder.join(format!("{name}.points")), rows)).map_err(|e| e.to_string())
        };
        put(&name, plotted(&examples(1.0)?[i].1).ok_or(format!("{name} is refused"))?)?;
        for times in [1000.0, 100.0, 90.0] {
            if let Some(found) = plotted(&examples(times)?[i].1) {
                put(&format!("{name}-{times}"), found)?;
                written += 2;
                break;
            }
        }
    }
    Ok(written)
}

fn main() -> ExitCode {
    let arguments: Vec<String> = env::args().skip(1).collect();
    let done = match arguments.iter().map(String::as_str).collect::<Vec<_>>()[..] {
        [] => test(),
        ["--every"] => every(),
        ["--mistakes"] => mistakes_found(|name, found| println!("{name}:\n  {found}")),
        ["--texts", folder] => texts(Path::new(folder)),
        _ => Err("usage: plot_tests [--every | --mistakes | --texts FOLDER]".to_string()),
    };
    match done {
        Ok(passed) => {
            say(&format!("{passed} passed"));
            ExitCode::SUCCESS
        }
        Err(what) => {
            say(&format!("FAILED: {what}"));
            ExitCode::FAILURE
        }
    }
}
