//! Draws the end of a belt and its hole, flattens them in the knife setting, and prints the points as HP-GL, for the tables that speak nothing else. A plotter unit is
//! a fortieth of a millimetre, and one drawing unit is one plotter unit: the belt is 20 mm wide. Standard output is the text alone, which has no line end.
//!
//! `examples/run` builds and runs it.

use kermezhul::{flatten, plot, plot_room, Call, Columns, Drawn, Finished, Output, Quads, Setting, Splines, QUAD_ROW};
use std::io::{self, Write};

fn stop_if_refused(what: &str, answer: u32) {
    if answer != 0 {
        eprintln!("{what} is refused: {answer}");
        std::process::exit(1);
    }
}

fn main() -> io::Result<()> {
    // the weight of a quarter circle
    let quarter = 0.70710678;
    let calls = [
        Call::Line(2000.0, 0.0),
        Call::Cubic([2400.0, 0.0, 2700.0, 250.0, 2800.0, 400.0]),
        Call::Cubic([2700.0, 550.0, 2400.0, 800.0, 2000.0, 800.0]),
        Call::Line(0.0, 800.0),
        // a Move closes the contour before it
        Call::Move(1980.0, 400.0),
        Call::RatQuad([1980.0, 480.0, 1900.0, 480.0], quarter),
        Call::RatQuad([1820.0, 480.0, 1820.0, 400.0], quarter),
        Call::RatQuad([1820.0, 320.0, 1900.0, 320.0], quarter),
        Call::RatQuad([1980.0, 320.0, 1980.0, 400.0], quarter),
        Call::Build,
    ];
    let (mut x, mut y, mut weight, mut commands) = ([0.0; 64], [0.0; 64], [0.0; 64], [0; 64]);
    let mut columns = Columns { x: &mut x, y: &mut y, weight: &mut weight, commands: &mut commands };
    let (answer, mut state) = columns.fresh();
    stop_if_refused("the drawing", answer);
    for call in calls {
        let (answer, next) = columns.draw(state, call);
        stop_if_refused("the drawing", answer);
        state = next;
    }

    const QUADS: usize = 256;
    const SPLINES: usize = 32;
    const POINTS: usize = 512;
    let (mut rows, mut partial_splines) = ([0.0; QUAD_ROW * QUADS], [0; QUADS]);
    let [mut curvature, mut p0x, mut p0y, mut p2x, mut p2y] = [[0.0; SPLINES]; 5];
    let (mut contour, mut first_quad, mut quad_count) = ([0; SPLINES], [0; SPLINES], [0; SPLINES]);
    let (mut words, mut out_x, mut out_y, mut end) = ([0; POINTS], [0.0; POINTS], [0.0; POINTS], [0; POINTS]);
    let f = flatten(
        Setting::Knife,
        state,
        Drawn { x: &x, y: &y, weight: &weight, commands: &commands },
        &mut Quads { rows: &mut rows, partial_splines: &mut partial_splines },
        &mut Splines {
            curvature: &mut curvature,
            p0x: &mut p0x,
            p0y: &mut p0y,
            p2x: &mut p2x,
            p2y: &mut p2y,
            contour: &mut contour,
            first_quad: &mut first_quad,
            quad_count: &mut quad_count,
        },
        &mut Output { words: &mut words, x: &mut out_x, y: &mut out_y, end: &mut end },
    );
    stop_if_refused("the flattening", f.answer);

    // as many points as were written, though the columns are longer
    let points = Finished { x: &out_x[..f.points], y: &out_y[..f.points], end: &end[..f.points] };
    let mut text = [0; plot_room(POINTS)];
    let p = plot(points, &mut text);
    stop_if_refused("the plot", p.answer);
    io::stdout().write_all(&text[..p.written])
}
