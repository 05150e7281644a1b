//! Draws a belt end with cubics, a small one of lines and quads (straights that run smoothly into a round), a slit (a line out and the same line back), and two
//! quads that make one sweep with a third after a turn, flattens them and prints their points. In the knife setting the points where straight meets round are among
//! them, and the slit's far end; in the screen setting they are lost. After the sweep the screen's path runs back to (0,0), the knife's does not.
//!
//! `examples/run` builds and runs it.

use kermezhul::{flatten, Call, Columns, Drawn, Output, Quads, Setting, Splines, QUAD_ROW};

fn show(calls: &[Call], settings: &[(&str, Setting)]) {
    let (mut x, mut y, mut weight, mut commands) = ([0.0; 64], [0.0; 64], [0.0; 64], [0; 64]);
    let mut columns = Columns { x: &mut x, y: &mut y, weight: &mut weight, commands: &mut commands };
    let (mut answer, mut state) = columns.fresh();
    for &call in calls {
        if answer == 0 {
            (answer, state) = columns.draw(state, call);
        }
    }
    if answer != 0 {
        println!("refused: {answer}");
        return;
    }

    const QUADS: usize = 64;
    const SPLINES: usize = 16;
    const POINTS: usize = 256;
    let mut rows = [0.0; QUAD_ROW * QUADS];
    let mut partial_splines = [0; QUADS];
    let mut spline = [[0.0; SPLINES]; 5];
    let (mut contour, mut first_quad, mut quad_count) = ([0; SPLINES], [0; SPLINES], [0; SPLINES]);
    let (mut words, mut out, mut end) = ([0; POINTS], [[0.0; POINTS]; 2], [0; POINTS]);
    let mut quads = Quads { rows: &mut rows, partial_splines: &mut partial_splines };
    let [curvature, p0x, p0y, p2x, p2y] = &mut spline;
    let mut splines =
        Splines { curvature, p0x, p0y, p2x, p2y, contour: &mut contour, first_quad: &mut first_quad, quad_count: &mut quad_count };
    let [out_x, out_y] = &mut out;
    let mut output = Output { words: &mut words, x: out_x, y: out_y, end: &mut end };
    let drawn = Drawn { x: &x, y: &y, weight: &weight, commands: &commands };
    for &(name, setting) in settings {
        let f = flatten(setting, state, drawn, &mut quads, &mut splines, &mut output);
        println!("{name}: answer {}, {} splines, {} quads, {} points", f.answer, f.splines, f.quads, f.points);
        for i in 0..f.points {
            println!("{:9.4} {:9.4}{}", output.x[i], output.y[i], if output.end[i] == 1 { "  end" } else { "" });
        }
    }
}

fn main() {
    let belt_end = [
        Call::Line(100.0, 0.0),
        Call::Cubic([111.05, 0.0, 120.0, 8.95, 120.0, 20.0]),
        Call::Cubic([120.0, 31.05, 111.05, 40.0, 100.0, 40.0]),
        Call::Line(0.0, 40.0),
        Call::Build,
    ];
    show(&belt_end, &[("belt end, knife setting", Setting::Knife)]);

    let straight_and_round = [
        Call::Line(10.0, 0.0),
        Call::Quad([12.0, 0.0, 12.0, 2.0]),
        Call::Quad([12.0, 4.0, 10.0, 4.0]),
        Call::Line(0.0, 4.0),
        Call::Build,
    ];
    let both = [
        ("straight and round, screen setting", Setting::Screen),
        ("straight and round, knife setting", Setting::Knife),
    ];
    show(&straight_and_round, &both);

    let slit = [
        Call::Line(10.0, 0.0),
        Call::Line(10.0, 5.0),
        Call::Line(5.0, 5.0),
        Call::Line(10.0, 5.0),
        Call::Line(10.0, 10.0),
        Call::Line(0.0, 10.0),
        Call::Build,
    ];
    show(&slit, &[("slit, screen setting", Setting::Screen), ("slit, knife setting", Setting::Knife)]);

    let sweep = [
        Call::Move(-1.0, 0.0),
        Call::Quad([-0.5, 0.0, 0.0, 0.0]),
        Call::Quad([0.25830078125, 0.0, 2.058837890625, 0.88427734375]),
        Call::Quad([2.058837890625, 1.88427734375, 2.058837890625, 2.88427734375]),
        Call::Build,
    ];
    show(&sweep, &[("sweep, screen setting", Setting::Screen), ("sweep, knife setting", Setting::Knife)]);
}
