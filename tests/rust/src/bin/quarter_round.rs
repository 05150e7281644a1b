//! Prints the words and points of two quarter rounds whose chord lies at forty-five degrees, by the original.

use against_rust::{
    call::{p, Call},
    model::QUAD_ROW,
    original::screen,
};

fn main() {
    let drawings: [(&str, Vec<Call>); 2] = [
        ("quad, control (10,0), to (10,10)", vec![Call::Quad(p(10.0, 0.0), p(10.0, 10.0)), Call::Build]),
        (
            "cubic, controls (5.5228,0) (10,4.4772), to (10,10)",
            vec![Call::Cubic(p(5.5228, 0.0), p(10.0, 4.4772), p(10.0, 10.0)), Call::Build],
        ),
    ];
    for (name, calls) in drawings {
        let store = screen::store(&calls);
        let seen = screen::flatten(&calls);
        println!("## {name}\n");
        println!("Pieces of the cubic: {:?}. Splines: {}, quads: {}, words: {}.\n", screen::pieces(&calls), seen.tables.curvature.len(), seen.tables.partial_splines.len(), seen.words.len());
        println!("Store:\n\n```");
        for i in 0..store.x.len() {
            println!("{:08x} {:08x} {:08x}   ({}, {}) {}", store.x[i].to_bits(), store.y[i].to_bits(), store.weight[i].to_bits(), store.x[i], store.y[i], store.weight[i]);
        }
        println!("commands {:?}, open {}\n```\n", store.commands, store.opening);
        println!("Word, x, y, end:\n\n```");
        for i in 0..seen.words.len() {
            println!("{:08X} {:08x} {:08x} {}   ({:?}, {:?})", seen.words[i], seen.x[i].to_bits(), seen.y[i].to_bits(), seen.end[i], seen.x[i], seen.y[i]);
        }
        println!("```\n");
        let t = &seen.tables;
        println!("Quads (three x, three y, three weights; x0, dx_recip, k0, dk, the reciprocal, the sum; the spline):\n\n```");
        for (row, spline) in t.rows.chunks(QUAD_ROW).zip(&t.partial_splines) {
            let b = |numbers: &[f32]| numbers.iter().map(|v| format!("{:08x}", v.to_bits())).collect::<Vec<_>>().join(" ");
            println!("{}  {}  {}", b(&row[..3]), b(&row[3..6]), b(&row[6..9]));
            println!("    {}  {spline}", b(&row[9..]));
        }
        println!("```\n\nSplines (sum, start, end, flag, first quad, number of quads):\n\n```");
        for i in 0..t.curvature.len() {
            let b = |v: f32| format!("{:08x}", v.to_bits());
            println!("{} {} {} {} {} {} {} {}", b(t.curvature[i]), b(t.p0x[i]), b(t.p0y[i]), b(t.p2x[i]), b(t.p2y[i]), t.contour[i], t.first_quad[i], t.quad_count[i]);
        }
        println!("```\n");
    }
}
