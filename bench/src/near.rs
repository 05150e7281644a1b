//! How far a drawing's true curves are from the lines between the points that a flattener gives.

use against_rust::call::{Call, P};

type Place = [f64; 2];

/// Points that are looked at on each primitive.
const SAMPLES: usize = 64;

/// The greatest distance of a curve from the lines of its contour, in as many contours as are asked for. Plain primitives only.
pub fn farthest(calls: &[Call], contours: &[Vec<Place>], most_contours: usize) -> f64 {
    let mut number = 0;
    let mut from = [0.0, 0.0];
    let mut most: f64 = 0.0;
    for call in calls {
        let mut control = vec![from];
        control.extend(call.points().iter().map(place));
        from = *control.last().unwrap();
        match call {
            Call::Move(_) => number += 1,
            Call::Build => {}
            _ if number <= most_contours => {
                for i in 0..=SAMPLES {
                    let at = on_curve(&control, i as f64 / SAMPLES as f64);
                    most = most.max(from_lines(at, &contours[number - 1]));
                }
            }
            _ => return most,
        }
    }
    most
}

fn place(p: &P) -> Place {
    [p.x as f64, p.y as f64]
}

/// De Casteljau's: each pair of neighbours gives a point between them, until one is left.
fn on_curve(control: &[Place], t: f64) -> Place {
    let mut points = control.to_vec();
    while points.len() > 1 {
        points = points.windows(2).map(|w| [0, 1].map(|k| w[0][k] + t * (w[1][k] - w[0][k]))).collect();
    }
    points[0]
}

fn from_lines(at: Place, points: &[Place]) -> f64 {
    points.windows(2).map(|w| from_line(at, w[0], w[1])).fold(f64::INFINITY, f64::min)
}

fn from_line(at: Place, a: Place, b: Place) -> f64 {
    let along = [b[0] - a[0], b[1] - a[1]];
    let to = [at[0] - a[0], at[1] - a[1]];
    let length = along[0] * along[0] + along[1] * along[1];
    let t = if length > 0.0 { ((to[0] * along[0] + to[1] * along[1]) / length).clamp(0.0, 1.0) } else { 0.0 };
    (to[0] - t * along[0]).hypot(to[1] - t * along[1])
}

#[cfg(test)]
mod tests {
    use super::*;
    use against_rust::call::p;

    #[test]
    fn the_height_of_an_arc_over_its_chord() {
        // the top of this quad is 2 over the chord, and over the two lines through its top 0.5
        let calls = [Call::Move(p(0.0, 0.0)), Call::Quad(p(4.0, 4.0), p(8.0, 0.0))];
        assert_eq!(farthest(&calls, &[vec![[0.0, 0.0], [8.0, 0.0]]], 1), 2.0);
        let nearer = farthest(&calls, &[vec![[0.0, 0.0], [4.0, 2.0], [8.0, 0.0]]], 1);
        assert!((nearer - 0.5 / 1.25f64.sqrt()).abs() < 1e-3, "{nearer}");
    }
}
