//! A list of finished points, and what plots one: the library, or a mistake.

use kermezhul as lib;

#[derive(Clone, Debug, Default)]
pub struct Points {
    pub x: Vec<f32>,
    pub y: Vec<f32>,
    pub end: Vec<u8>,
}

impl Points {
    pub fn of(all: &[(f32, f32, u8)]) -> Points {
        Points { x: all.iter().map(|p| p.0).collect(), y: all.iter().map(|p| p.1).collect(), end: all.iter().map(|p| p.2).collect() }
    }

    pub fn len(&self) -> usize {
        self.x.len().min(self.y.len()).min(self.end.len())
    }

    /// A list as a failure names it: floats by their bits, since -0 and the neighbours of a half matter.
    pub fn told(&self) -> String {
        let bits = |v: &[f32]| v.iter().take(6).map(|v| format!("{v}={:08x}", v.to_bits())).collect::<Vec<_>>().join(" ");
        format!(
            "x ({}) {}, y ({}) {}, end ({}) {:?}",
            self.x.len(),
            bits(&self.x),
            self.y.len(),
            bits(&self.y),
            self.end.len(),
            &self.end[..self.end.len().min(6)]
        )
    }
}

/// Both calls: the answer, and how many bytes or points were written.
pub trait Writer: Sync {
    fn plot(&self, points: &Points, text: &mut [u8]) -> (u32, usize);
    fn whole(&self, x: &[f32], y: &[f32], whole_x: &mut [i32], whole_y: &mut [i32]) -> (u32, usize);
}

pub struct Library;

impl Writer for Library {
    fn plot(&self, points: &Points, text: &mut [u8]) -> (u32, usize) {
        let p = lib::plot(lib::Finished { x: &points.x, y: &points.y, end: &points.end }, text);
        (p.answer, p.written)
    }

    fn whole(&self, x: &[f32], y: &[f32], whole_x: &mut [i32], whole_y: &mut [i32]) -> (u32, usize) {
        let r = lib::whole(x, y, whole_x, whole_y);
        (r.answer, r.points)
    }
}
