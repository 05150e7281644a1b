//! Listings, and what the program must write for them, for `listing_cases`. The outputs are the model's, which is compared with the original bit for bit;
//! none is taken from the proved program.

use crate::{
    call::{p, Call},
    model::program::{listing as text, program},
};

/// What the program reads, and what it must write.
pub struct Listings {
    pub given: Vec<u8>,
    pub due: Vec<u8>,
}

fn line(x: f32, y: f32) -> Call {
    Call::Line(p(x, y))
}

fn moved(x: f32, y: f32) -> Call {
    Call::Move(p(x, y))
}

fn quad(x1: f32, y1: f32, x2: f32, y2: f32) -> Call {
    Call::Quad(p(x1, y1), p(x2, y2))
}

fn rquad(x1: f32, y1: f32, x2: f32, y2: f32, w: f32) -> Call {
    Call::RatQuad(p(x1, y1), p(x2, y2), w)
}

fn cubic(c: [f32; 6]) -> Call {
    Call::Cubic(p(c[0], c[1]), p(c[2], c[3]), p(c[4], c[5]))
}

fn rcubic(c: [f32; 6], w1: f32, w2: f32) -> Call {
    Call::RatCubic(p(c[0], c[1]), p(c[2], c[3]), p(c[4], c[5]), w1, w2)
}

/// n lines that turn at each corner.
fn lines(n: usize) -> Vec<Call> {
    (0..n).map(|i| line((i + 1) as f32, (i % 2) as f32)).collect()
}

/// n lines in one direction, one spline.
fn straight(n: usize) -> Vec<Call> {
    (0..n).map(|i| line((i + 1) as f32, 0.0)).collect()
}

/// n quarter rounds on a square, each running smoothly into the next: one spline.
fn rounds(n: usize, weight: f32, size: f32) -> Vec<Call> {
    let s = size;
    let corners = [(s, s, 0.0, s), (-s, s, -s, 0.0), (-s, -s, 0.0, -s), (s, -s, s, 0.0)];
    let round = |i: usize| {
        let (x1, y1, x2, y2) = corners[i % 4];
        rquad(x1, y1, x2, y2, weight)
    };
    [moved(s, 0.0)].into_iter().chain((0..n).map(round)).collect()
}

fn then(mut calls: Vec<Call>, more: &[Call]) -> Vec<Call> {
    calls.extend(more);
    calls
}

fn doubled() -> String {
    text(&[moved(0.0, 0.0), line(10.0, 0.0), line(10.0, 0.0), line(10.0, 10.0)])
}

/// A name, which begins with the answer where that is not 0, and the listing; a byte above ASCII is written as its code point.
fn cases() -> Vec<(&'static str, String)> {
    let bits = f32::from_bits;
    let nan = bits(0x7fc0_0000);
    let above = bits(0x4780_0001); // the next f32 up from 65,536
    let square = [line(10.0, 0.0), line(10.0, 10.0), line(0.0, 10.0)];
    let round = |w1, w2| rcubic([1.0, 0.0, 1.0, 1.0, 0.0, 1.0], w1, w2);
    let one = text(&[line(1.0, 1.0)]);
    let start = text(&[moved(0.0, 0.0)]);
    let whole_round = text(&[round(1.0, 1.0)]);
    let contours = [moved(1.0, 1.0), line(9.0, 1.0), line(9.0, 9.0), moved(3.0, 3.0), quad(5.0, 3.0, 5.0, 5.0)];
    let s = 65_536.0;
    vec![
        // ---- done
        ("the program's example, the doubled point", doubled()),
        ("no command at all", String::new()),
        ("a square", text(&square)),
        ("out and back", text(&[line(10.0, 0.0), line(4.0, 0.0)])),
        ("a straight quad", text(&[quad(5.0, 0.0, 10.0, 0.0)])),
        ("a quad without length", text(&[quad(0.0, 0.0, 0.0, 0.0)])),
        ("a quarter round, plain", text(&[quad(10.0, 0.0, 10.0, 10.0)])),
        ("a quarter round, rational", text(&[rquad(100.0, 0.0, 100.0, 100.0, 0.5f64.sqrt() as f32)])),
        ("a cubic", text(&[cubic([60.0, 20.0, 90.0, 34.0, 150.0, 36.0])])),
        ("a rational cubic", text(&[rcubic([60.0, 20.0, 90.0, 34.0, 150.0, 36.0], 1.5, 0.75)])),
        ("two contours", text(&contours)),
        ("a move after a move", text(&[moved(1.0, 1.0), moved(2.0, 2.0)])),
        ("-0 closes on +0", text(&[moved(-0.0, 0.0), line(5.0, 5.0), line(0.0, -0.0)])),
        ("the largest coordinates pass", text(&[moved(s, -s), line(-s, s)])),
        ("the largest weights pass", text(&[rquad(1.0, 0.0, 1.0, 1.0, 64.0), rcubic([2.0, 1.0, 3.0, 1.0, 3.0, 4.0], 1.0 / 64.0, 64.0)])),
        // ---- 1 and 2, with the op line; a refused command comes before a later fault
        ("1: a coordinate above 65,536", text(&[moved(0.0, 0.0), line(above, 0.0)])),
        ("1: a NaN is good text", text(&[line(1.0, 1.0), quad(0.0, nan, 1.0, 1.0)]) + "op=no\n"),
        ("1: minus infinity in a control point", text(&[cubic([0.0, 0.0, f32::NEG_INFINITY, 0.0, 1.0, 1.0])])),
        ("2: a weight above 64", text(&[rquad(1.0, 0.0, 1.0, 1.0, bits(0x4280_0001))])),
        ("2: a NaN weight", text(&[line(1.0, 1.0), round(1.0, bits(0x7fff_ffff))])),
        ("1: before 2", text(&[rquad(above, 0.0, 1.0, 1.0, 0.0)])),
        // ---- 4: 512 points
        ("4: the store is full", text(&lines(512))),
        ("4: a move's closing line is counted", text(&then(lines(510), &[moved(1.0, 1.0)]))),
        ("4 at the final build, with line 0", text(&lines(511))),
        ("a move after a move fits a full store", text(&then(straight(509), &[line(0.0, 0.0), moved(1.0, 1.0), moved(2.0, 2.0)]))),
        ("a full store, closed", text(&straight(510))),
        // ---- 5 to 9, all with line 0
        ("5: a cubic of too many pieces", text(&[rcubic([s, s, -s, -s, s, 0.0], 64.0, 64.0)])),
        ("6: the quad table is full", text(&[cubic([s, s, -s, -s, s, -s]); 8])),
        ("7: the spline table is full", text(&lines(300))),
        ("all 256 splines", text(&lines(255))),
        ("7: 257 splines", text(&lines(256))),
        ("8: a sum above 65,536", text(&rounds(120, 64.0, s))),
        ("9: a walk of more than 512", text(&rounds(4, 1.0, s))),
        ("all 512 words", text(&rounds(4, 1.0, 3150.0))),
        ("9: a little more", text(&rounds(4, 1.0, 3200.0))),
        // ---- 10: faults of the text, on the line where the wrong or missing byte is due
        ("10: the last line end is missing", doubled().strip_suffix('\n').unwrap().into()),
        ("10: the line end of the op line is missing", "op=move".into()),
        ("10: CR before the line end", doubled().replace('\n', "\r\n")),
        ("10: CR in a field", start.clone() + "op=line\nx=41200000\r\ny=00000000\n"),
        ("10: a blank line at the start", "\n".to_string() + &doubled()),
        ("10: a blank line between commands", start.clone() + "\n" + &one),
        ("10: a blank line between fields", "op=move\nx=00000000\n\ny=00000000\n".into()),
        ("10: a blank line at the end", doubled() + "\n"),
        ("10: an upper-case digit", start.clone() + "op=line\nx=41200000\ny=0000000A\n"),
        ("10: a digit that is none", "op=line\nx=4120000g\ny=00000000\n".into()),
        ("10: seven digits", "op=line\nx=4120000\ny=00000000\n".into()),
        ("10: nine digits", "op=line\nx=412000000\ny=00000000\n".into()),
        ("10: a wrong key", "op=line\nx=41200000\nz=00000000\n".into()),
        ("10: a key of the other ops", "op=quad\nx=41200000\n".into()),
        ("10: an upper-case key", "op=line\nX=41200000\ny=00000000\n".into()),
        ("10: no equals sign", "op=line\nx:41200000\ny=00000000\n".into()),
        ("10: the wrong order", "op=line\ny=41200000\nx=00000000\n".into()),
        ("10: the weight before the points", "op=rquad\nw=3f800000\nx1=00000000\ny1=00000000\nx2=00000000\ny2=00000000\n".into()),
        ("10: an unknown op", start + "op=arc\nx=00000000\ny=00000000\n"),
        ("10: an op name cut short", "op=mov\nx=00000000\ny=00000000\n".into()),
        ("10: an op name too long", "op=moves\nx=00000000\ny=00000000\n".into()),
        ("10: no op key", "move\n".into()),
        ("10: the input ends after the op line", one.clone() + "op=cubic\n"),
        ("10: the input ends inside the fields", one.clone() + &whole_round[..whole_round.len() - 12]),
        ("10: the input ends inside a number", one + "op=move\nx=0000"),
        ("10: the missing line end comes before the command's 1", text(&[line(above, 0.0)]).strip_suffix('\n').unwrap().into()),
        ("10: a blank behind a value", "op=line\nx=41200000 \ny=00000000\n".into()),
        ("10: a zero byte at the end", doubled() + "\0"),
        ("10: a byte above ASCII", "op=line\nx=4120000\u{e9}\ny=00000000\n".into()),
        // ---- 11
        ("10: exactly 16,384 bytes, a fault in the last", text(&[moved(1.0, 1.0); 546])[..16_380].to_string() + "\n\n\n\n"),
        ("exactly 16,384 bytes, all commands", text(&then(vec![round(1.0, 1.0); 4], &[moved(1.0, 1.0); 532]))),
        ("11: one byte more", "\n".repeat(16_385)),
        ("11 comes before any fault", "x".repeat(16_385)),
    ]
}

/// Each character is one byte.
fn encoded(text: &str) -> Vec<u8> {
    text.chars().map(|c| u8::try_from(c as u32).unwrap()).collect()
}

pub fn fixed() -> Listings {
    let mut all = Listings { given: Vec::new(), due: Vec::new() };
    for (name, text) in cases() {
        let text = encoded(&text);
        let out = program(&text);
        let answer: u8 = name.split([':', ' ']).next().unwrap().parse().unwrap_or(0);
        assert_eq!(out.lines().next(), Some(format!("answer={answer}").as_str()), "{name}");
        all.given.extend(format!("{:06}\n", text.len()).bytes());
        all.given.extend(text);
        all.due.extend(out.bytes());
    }
    // with 20 bytes for the output, too short for any
    for text in [doubled(), "op=mov\n".into(), "\n".repeat(16_385)] {
        all.given.extend(format!("{:06}s{text}", text.len()).bytes());
        all.due.extend(b"short\n");
    }
    all
}

/// The program's example, the doubled point (docs/PROMISES.md, Examples), and what the program must write for it.
pub fn example() -> (Vec<u8>, Vec<u8>) {
    let text = doubled().into_bytes();
    let out = program(&text).into_bytes();
    (text, out)
}
