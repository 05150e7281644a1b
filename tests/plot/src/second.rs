//! A second implementation of the plot writer, from the request's sentences and not from the proved code: contours are cut first and then printed, and rounding
//! goes by f64.

use crate::points::Points;

/// "the nearest whole number, halves away from zero"; none where it is "NaN or rounds outside -32,768..32,767".
pub fn nearest(v: f32) -> Option<i32> {
    // Every f32 is an f64. There the sum is exact, but for sizes so small that it is a half or just over, and so large that they are outside.
    let v = f64::from(v);
    let size = (v.abs() + 0.5).floor();
    let whole = if v < 0.0 { -size } else { size };
    // false for a NaN
    (-32768.0..=32767.0).contains(&whole).then_some(whole as i32)
}

/// "A contour ends at a flagged point or at the end of the list".
pub fn contours(points: &Points) -> Vec<Vec<(f32, f32)>> {
    let all: Vec<(f32, f32, u8)> = points.x.iter().zip(&points.y).zip(&points.end).map(|((x, y), end)| (*x, *y, *end)).collect();
    all.split_inclusive(|(_, _, end)| *end != 0).map(|contour| contour.iter().map(|(x, y, _)| (*x, *y)).collect()).collect()
}

pub type Whole = Vec<Vec<(i32, i32)>>;

pub fn whole_contours(points: &Points) -> Option<Whole> {
    contours(points).iter().map(|contour| contour.iter().map(|(x, y)| Some((nearest(*x)?, nearest(*y)?))).collect()).collect()
}

/// "`IN;`, then for each contour `PU x,y;` for its first point and `PD x,y;` for each later one".
fn printed(contours: &Whole) -> String {
    let contour = |points: &Vec<(i32, i32)>| {
        let (first, later) = points.split_first().expect("no contour is empty");
        format!("PU {},{};", first.0, first.1) + &later.iter().map(|(x, y)| format!("PD {x},{y};")).collect::<String>()
    };
    "IN;".to_string() + &contours.iter().map(contour).collect::<String>()
}

/// The text, or none for 12.
pub fn text(points: &Points) -> Option<String> {
    whole_contours(points).map(|c| printed(&c))
}

/// "12 .., then 13 when the text buffer is too short; neither writes a byte": the answer and what is written.
pub fn plot(points: &Points, room: usize) -> (u32, String) {
    match text(points) {
        None => (12, String::new()),
        Some(text) if text.len() > room => (13, String::new()),
        Some(text) => (0, text),
    }
}

/// The answer and the points that are written, one after the other.
pub fn whole(x: &[f32], y: &[f32], room: usize) -> (u32, Vec<(i32, i32)>) {
    let all: Option<Vec<(i32, i32)>> = x.iter().zip(y).map(|(x, y)| Some((nearest(*x)?, nearest(*y)?))).collect();
    match all {
        None => (12, vec![]),
        Some(points) if points.len() > room => (13, vec![]),
        Some(points) => (0, points),
    }
}
