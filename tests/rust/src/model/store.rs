//! The drawing store and its calls.

use crate::call::{Call, P};

/// The lent columns, of any lengths and with anything in them.
#[derive(Clone, Debug, Default)]
pub struct Columns {
    pub x: Vec<f32>,
    pub y: Vec<f32>,
    pub weight: Vec<f32>,
    pub commands: Vec<u8>,
}

#[derive(Clone, Copy, Debug, Default, PartialEq, Eq)]
pub struct State {
    pub points: usize,
    pub commands: usize,
    pub opening: usize,
}

pub const MOVE: u8 = 0;
pub const LINE: u8 = 1;
pub const QUAD: u8 = 2;
pub const CUBIC: u8 = 3;

/// All NaNs are one.
pub fn canon(v: f32) -> f32 {
    if v.is_nan() {
        f32::from_bits(0x7fc0_0000)
    } else {
        v
    }
}

fn uneven(c: &Columns) -> bool {
    c.y.len() != c.x.len() || c.weight.len() != c.x.len()
}

/// What a drawing call finds unusable.
pub fn unusable(st: State, c: &Columns) -> bool {
    uneven(c)
        || st.points == 0
        || st.points > c.x.len()
        || st.commands == 0
        || st.commands > c.commands.len()
        || st.opening >= st.points
        || c.commands[st.commands - 1] > CUBIC
}

/// What flattening finds unusable in addition.
pub fn undrawable(st: State, c: &Columns) -> bool {
    if unusable(st, c) {
        return true;
    }
    let commands = &c.commands[..st.commands];
    let mut used = 0usize;
    for &k in commands {
        used += match k {
            MOVE | LINE => 1,
            QUAD => 2,
            CUBIC => 3,
            _ => return true,
        };
    }
    if commands[0] != MOVE || used != st.points {
        return true;
    }
    (0..st.points).any(|i| {
        !(c.weight[i] >= 1.0 / 64.0 && c.weight[i] <= 64.0) || !(c.x[i].abs() <= 4_194_304.0) || !(c.y[i].abs() <= 4_194_304.0)
    })
}

fn applied(c: &Columns, i: usize) -> P {
    let r = 1.0 / c.weight[i];
    P { x: c.x[i] * r, y: c.y[i] * r }
}

pub fn fresh(c: &mut Columns) -> (u8, State) {
    if uneven(c) {
        return (3, State::default());
    }
    if c.x.is_empty() || c.commands.is_empty() {
        return (4, State::default());
    }
    c.x[0] = 0.0;
    c.y[0] = 0.0;
    c.weight[0] = 1.0;
    c.commands[0] = MOVE;
    (0, State { points: 1, commands: 1, opening: 0 })
}

/// The points that a call gives, with the weights it gives them.
fn given(call: &Call) -> (Vec<(P, Option<f32>)>, u8) {
    match *call {
        Call::Move(a) => (vec![(a, None)], MOVE),
        Call::Line(a) => (vec![(a, None)], LINE),
        Call::Quad(a, b) => (vec![(a, None), (b, None)], QUAD),
        Call::Cubic(a, b, d) => (vec![(a, None), (b, None), (d, None)], CUBIC),
        Call::RatQuad(a, b, w) => (vec![(a, Some(w)), (b, None)], QUAD),
        Call::RatCubic(a, b, d, v, w) => (vec![(a, Some(v)), (b, Some(w)), (d, None)], CUBIC),
        Call::Build => (vec![], LINE),
    }
}

pub fn draw(call: &Call, st: State, c: &mut Columns) -> (u8, State) {
    if unusable(st, c) {
        return (3, st);
    }
    let (points, command) = given(call);
    let bad = |v: f32| v.is_nan() || v < -65_536.0 || v > 65_536.0;
    if points.iter().any(|(p, _)| bad(p.x) || bad(p.y)) {
        return (1, st);
    }
    if points.iter().any(|(_, w)| matches!(w, Some(w) if w.is_nan() || *w < 0.015625 || *w > 64.0)) {
        return (2, st);
    }

    // a move after a Move overwrites the last point
    if let Call::Move(a) = *call {
        if c.commands[st.commands - 1] == MOVE {
            let last = st.points - 1;
            c.x[last] = a.x;
            c.y[last] = a.y;
            c.weight[last] = 1.0;
            return (0, st);
        }
    }

    let closes = match call {
        Call::Move(_) | Call::Build => {
            let (last, open) = (applied(c, st.points - 1), applied(c, st.opening));
            !(last.x == open.x && last.y == open.y)
        }
        _ => false,
    };
    let appends = !matches!(call, Call::Build);
    let more_points = closes as usize + points.len();
    let more_commands = closes as usize + appends as usize;
    if c.x.len() - st.points < more_points || c.commands.len() - st.commands < more_commands {
        return (4, st);
    }

    let mut st = st;
    let push = |c: &mut Columns, st: &mut State, x: f32, y: f32, w: f32| {
        c.x[st.points] = canon(x);
        c.y[st.points] = canon(y);
        c.weight[st.points] = canon(w);
        st.points += 1;
    };
    if closes {
        let (x, y, w) = (c.x[st.opening], c.y[st.opening], c.weight[st.opening]);
        push(c, &mut st, x, y, w);
        c.commands[st.commands] = LINE;
        st.commands += 1;
    }
    if appends {
        if let Call::Move(_) = call {
            st.opening = st.points;
        }
        for (p, w) in points {
            match w {
                None => push(c, &mut st, p.x, p.y, 1.0),
                Some(w) => push(c, &mut st, p.x * w, p.y * w, w),
            }
        }
        c.commands[st.commands] = command;
        st.commands += 1;
    }
    (0, st)
}
