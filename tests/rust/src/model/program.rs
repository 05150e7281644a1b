//! The small program: a listing of key=value lines in, answer, line and points out.

use super::{draw, flatten, fresh, Columns, Output, QuadTable, Setting, SplineTable};
use crate::call::{p, Call};

const OPS: [(&str, &[&str]); 6] = [
    ("move", &["x", "y"]),
    ("line", &["x", "y"]),
    ("quad", &["x1", "y1", "x2", "y2"]),
    ("rquad", &["x1", "y1", "x2", "y2", "w"]),
    ("cubic", &["x1", "y1", "x2", "y2", "x3", "y3"]),
    ("rcubic", &["x1", "y1", "x2", "y2", "x3", "y3", "w1", "w2"]),
];

/// The bytes of the next line without its 0x0A, or none if the input ends before one.
fn line<'a>(rest: &mut &'a [u8]) -> Option<&'a [u8]> {
    let end = rest.iter().position(|b| *b == b'\n')?;
    let (line, after) = rest.split_at(end);
    *rest = &after[1..];
    Some(line)
}

fn field(line: &[u8], key: &str) -> Option<f32> {
    let digits = line.strip_prefix(key.as_bytes())?.strip_prefix(b"=")?;
    if digits.len() != 8 || !digits.iter().all(|d| matches!(d, b'0'..=b'9' | b'a'..=b'f')) {
        return None;
    }
    Some(f32::from_bits(u32::from_str_radix(std::str::from_utf8(digits).unwrap(), 16).unwrap()))
}

/// The answer, the line and the finished points: x, y, end.
type Answered = (u8, usize, Vec<(f32, f32, u8)>);

fn answered(input: &[u8]) -> Answered {
    if input.len() > 16_384 {
        return (11, 0, vec![]);
    }
    let room = 512;
    let mut c = Columns { x: vec![0.0; room], y: vec![0.0; room], weight: vec![0.0; room], commands: vec![0; room] };
    let (_, mut st) = fresh(&mut c);
    let mut rest = input;
    let mut at = 0;
    while !rest.is_empty() {
        at += 1;
        let op_line = at;
        let Some(keys) = line(&mut rest).and_then(|l| l.strip_prefix(b"op=")).and_then(|name| OPS.iter().find(|(n, _)| n.as_bytes() == name)) else {
            return (10, at, vec![]);
        };
        let mut v = Vec::new();
        for key in keys.1 {
            at += 1;
            let Some(number) = line(&mut rest).and_then(|l| field(l, key)) else {
                return (10, at, vec![]);
            };
            v.push(number);
        }
        let q = |i: usize| p(v[2 * i], v[2 * i + 1]);
        let call = match keys.0 {
            "move" => Call::Move(q(0)),
            "line" => Call::Line(q(0)),
            "quad" => Call::Quad(q(0), q(1)),
            "rquad" => Call::RatQuad(q(0), q(1), v[4]),
            "cubic" => Call::Cubic(q(0), q(1), q(2)),
            _ => Call::RatCubic(q(0), q(1), q(2), v[6], v[7]),
        };
        let (answer, next) = draw(&call, st, &mut c);
        if answer != 0 {
            return (answer, op_line, vec![]);
        }
        st = next;
    }
    let (answer, st) = draw(&Call::Build, st, &mut c);
    if answer != 0 {
        return (answer, 0, vec![]);
    }
    let (mut q, mut s, mut o) = (QuadTable::with_room(256), SplineTable::with_room(256), Output::with_room(512));
    let f = flatten(Setting::Screen, st, &c, &mut q, &mut s, &mut o);
    (f.answer, 0, (0..f.points).map(|i| (o.x[i], o.y[i], o.end[i])).collect())
}

pub fn program(input: &[u8]) -> String {
    let (answer, line, points) = answered(input);
    let mut text = format!("answer={answer}\nline={line}\npoints={}\n", points.len());
    for (x, y, end) in points {
        text.push_str(&format!("x={:08x}\ny={:08x}\nend={end}\n", x.to_bits(), y.to_bits()));
    }
    text
}

/// The listing of a drawing, whose builds are left out.
pub fn listing(calls: &[Call]) -> String {
    let mut text = String::new();
    for call in calls {
        let (op, v): (usize, Vec<f32>) = match *call {
            Call::Move(a) => (0, vec![a.x, a.y]),
            Call::Line(a) => (1, vec![a.x, a.y]),
            Call::Quad(a, b) => (2, vec![a.x, a.y, b.x, b.y]),
            Call::RatQuad(a, b, w) => (3, vec![a.x, a.y, b.x, b.y, w]),
            Call::Cubic(a, b, c) => (4, vec![a.x, a.y, b.x, b.y, c.x, c.y]),
            Call::RatCubic(a, b, c, v, w) => (5, vec![a.x, a.y, b.x, b.y, c.x, c.y, v, w]),
            Call::Build => continue,
        };
        text.push_str(&format!("op={}\n", OPS[op].0));
        for (key, value) in OPS[op].1.iter().zip(v) {
            text.push_str(&format!("{key}={:08x}\n", value.to_bits()));
        }
    }
    text
}

#[cfg(test)]
mod tests {
    use super::*;

    #[test]
    fn the_doubled_point() {
        let input = "op=move\nx=00000000\ny=00000000\nop=line\nx=41200000\ny=00000000\nop=line\nx=41200000\ny=00000000\nop=line\nx=41200000\ny=41200000\n";
        let output = "answer=0\nline=0\npoints=3\nx=00000000\ny=00000000\nend=0\nx=41200000\ny=41200000\nend=0\nx=00000000\ny=00000000\nend=1\n";
        assert_eq!(program(input.as_bytes()), output);
    }

    #[test]
    fn faults() {
        let head = |t: &str| program(t.as_bytes()).lines().take(2).collect::<Vec<_>>().join(" ");
        assert_eq!(head(""), "answer=0 line=0");
        assert_eq!(head("op=move\n"), "answer=10 line=2");
        assert_eq!(head("op=move"), "answer=10 line=1");
        assert_eq!(head("op=move\nx=00000000\ny=00000000"), "answer=10 line=3");
        assert_eq!(head("op=move\nx=7fc00000\ny=00000000\nop=no"), "answer=1 line=1");
        assert_eq!(head("op=move\nx=0000000A\ny=00000000\n"), "answer=10 line=2");
        assert_eq!(head("op=rquad\nx1=00000000\ny1=00000000\nx2=00000000\ny2=00000000\nw=00000000\n"), "answer=2 line=1");
        assert_eq!(head(&"\n".repeat(16_384)), "answer=10 line=1");
        assert_eq!(head(&"\n".repeat(16_385)), "answer=11 line=0");
    }
}
