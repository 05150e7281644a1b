//! Drawing calls as values.

#[derive(Clone, Copy, Debug, PartialEq)]
pub struct P {
    pub x: f32,
    pub y: f32,
}

pub fn p(x: f32, y: f32) -> P {
    P { x, y }
}

#[derive(Clone, Copy, Debug, PartialEq)]
pub enum Call {
    Move(P),
    Line(P),
    Quad(P, P),
    Cubic(P, P, P),
    RatQuad(P, P, f32),
    RatCubic(P, P, P, f32, f32),
    Build,
}

impl Call {
    pub fn points(&self) -> Vec<P> {
        match *self {
            Call::Move(a) | Call::Line(a) => vec![a],
            Call::Quad(a, b) | Call::RatQuad(a, b, _) => vec![a, b],
            Call::Cubic(a, b, c) | Call::RatCubic(a, b, c, ..) => vec![a, b, c],
            Call::Build => vec![],
        }
    }

    pub fn coordinates(&self) -> Vec<f32> {
        self.points().iter().flat_map(|q| [q.x, q.y]).collect()
    }

    pub fn weights(&self) -> Vec<f32> {
        match *self {
            Call::RatQuad(_, _, w) => vec![w],
            Call::RatCubic(.., v, w) => vec![v, w],
            _ => vec![],
        }
    }

    pub fn name(&self) -> &'static str {
        match self {
            Call::Move(_) => "move",
            Call::Line(_) => "line",
            Call::Quad(..) => "quad",
            Call::Cubic(..) => "cubic",
            Call::RatQuad(..) => "rquad",
            Call::RatCubic(..) => "rcubic",
            Call::Build => "build",
        }
    }
}

/// Calls as text, for messages: each number as its bits, so that a drawing can be made again exactly.
pub fn written(calls: &[Call]) -> String {
    let mut text = String::new();
    for call in calls {
        text.push_str("  ");
        text.push_str(call.name());
        for v in call.coordinates().into_iter().chain(call.weights()) {
            text.push_str(&format!(" {:08x}({v:?})", v.to_bits()));
        }
        text.push('\n');
    }
    text
}
