//! Drawings through the library: drawn, flattened in both settings, and their finished points plotted.

use crate::points::Points;
use kermezhul::{flatten, Call, Columns, Drawn, Output, Quads, Setting, Splines, QUAD_ROW};
use std::{fs, path::Path};

pub const SETTINGS: [(&str, Setting); 2] = [("screen", Setting::Screen), ("knife", Setting::Knife)];

/// What a flattening gives: the words, and the finished points.
pub struct Flat {
    pub words: Vec<u32>,
    pub points: Points,
}

/// Draws the calls on a fresh drawing, closes it, and flattens it.
pub fn flattened(calls: &[Call], setting: Setting) -> Result<Flat, String> {
    let room = 2 + 4 * calls.len();
    let (mut x, mut y, mut weight, mut commands) = (vec![0.0; room], vec![0.0; room], vec![0.0; room], vec![0; room]);
    let mut columns = Columns { x: &mut x, y: &mut y, weight: &mut weight, commands: &mut commands };
    let (_, mut state) = columns.fresh();
    for call in calls.iter().chain(&[Call::Build]) {
        let (answer, next) = columns.draw(state, *call);
        if answer != 0 {
            return Err(format!("{call:?} is refused with {answer}"));
        }
        state = next;
    }
    let (quads, splines, length) = (1 << 13, 1 << 10, 1 << 16);
    let (mut rows, mut partial_splines) = (vec![0.0; QUAD_ROW * quads], vec![0; quads]);
    let [mut curvature, mut p0x, mut p0y, mut p2x, mut p2y] = [(); 5].map(|_| vec![0.0; splines]);
    let (mut contour, mut first_quad, mut quad_count) = (vec![0; splines], vec![0; splines], vec![0; splines]);
    let (mut words, mut points) = (vec![0; length], Points { x: vec![0.0; length], y: vec![0.0; length], end: vec![0; length] });
    let f = flatten(
        setting,
        state,
        Drawn { x: &x, y: &y, weight: &weight, commands: &commands },
        &mut Quads { rows: &mut rows, partial_splines: &mut partial_splines },
        &mut Splines {
            curvature: &mut curvature,
            p0x: &mut p0x,
            p0y: &mut p0y,
            p2x: &mut p2x,
            p2y: &mut p2y,
            contour: &mut contour,
            first_quad: &mut first_quad,
            quad_count: &mut quad_count,
        },
        &mut Output { words: &mut words, x: &mut points.x, y: &mut points.y, end: &mut points.end },
    );
    if f.answer != 0 {
        return Err(format!("the flattening is refused with {}", f.answer));
    }
    words.truncate(f.points);
    points.x.truncate(f.points);
    points.y.truncate(f.points);
    points.end.truncate(f.points);
    Ok(Flat { words, points })
}

/// The calls of a listing, with all coordinates taken so many times.
fn calls(listing: &str, times: f32) -> Option<Vec<Call>> {
    let mut lines = listing.lines();
    let mut calls = Vec::new();
    while let Some(line) = lines.next() {
        let op = line.strip_prefix("op=")?;
        let mut number = || -> Option<f32> { Some(f32::from_bits(u32::from_str_radix(lines.next()?.split_once('=')?.1, 16).ok()?)) };
        let mut at = || Some(number()? * times);
        calls.push(match op {
            "move" => Call::Move(at()?, at()?),
            "line" => Call::Line(at()?, at()?),
            "quad" => Call::Quad([at()?, at()?, at()?, at()?]),
            "rquad" => Call::RatQuad([at()?, at()?, at()?, at()?], number()?),
            "cubic" => Call::Cubic([at()?, at()?, at()?, at()?, at()?, at()?]),
            "rcubic" => Call::RatCubic([at()?, at()?, at()?, at()?, at()?, at()?], number()?, number()?),
            _ => return None,
        });
    }
    Some(calls)
}

/// The drawings of the examples, by name.
pub fn examples(times: f32) -> Result<Vec<(String, Vec<Call>)>, String> {
    let folder = Path::new(env!("CARGO_MANIFEST_DIR")).join("../../examples");
    let mut all = Vec::new();
    for entry in fs::read_dir(&folder).map_err(|e| e.to_string())? {
        let path = entry.map_err(|e| e.to_string())?.path();
        if path.extension().is_some_and(|e| e == "txt") {
            let name = path.file_stem().unwrap_or_default().to_string_lossy().into_owned();
            let text = fs::read_to_string(&path).map_err(|e| e.to_string())?;
            let calls = calls(&text, times).ok_or(format!("{name}.txt is no listing"))?;
            all.push((name, calls));
        }
    }
    all.sort_by(|a, b| a.0.cmp(&b.0));
    if all.len() < 8 {
        return Err(format!("there are only {} listings in examples", all.len()));
    }
    Ok(all)
}

/// The places of the Starts that are no contour's first point.
pub fn inner_starts(words: &[u32], end: &[u8]) -> Vec<usize> {
    (1..words.len()).filter(|i| words[*i] >> 23 == 0xff && end[*i - 1] == 0).collect()
}
