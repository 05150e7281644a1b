//! Reads a plot text back. It takes exactly what the writer may write: one blank, numbers without leading zeros, and zero without a sign.

use crate::second::Whole;

struct Rest<'a>(&'a [u8]);

impl Rest<'_> {
    fn fixed(&mut self, bytes: &[u8]) -> Option<()> {
        self.0 = self.0.strip_prefix(bytes)?;
        Some(())
    }

    fn number(&mut self) -> Option<i32> {
        let negative = self.fixed(b"-").is_some();
        let digits = self.0.iter().take_while(|b| b.is_ascii_digit()).count();
        let (number, rest) = self.0.split_at(digits);
        self.0 = rest;
        if digits == 0 || digits > 5 || (number[0] == b'0' && (digits > 1 || negative)) {
            return None;
        }
        let size = number.iter().fold(0, |n, d| 10 * n + i32::from(d - b'0'));
        Some(if negative { -size } else { size })
    }

    /// Whether the pen is up, and where it goes.
    fn stroke(&mut self) -> Option<(bool, (i32, i32))> {
        let up = self.fixed(b"PU ").is_some();
        if !up {
            self.fixed(b"PD ")?;
        }
        let x = self.number()?;
        self.fixed(b",")?;
        let y = self.number()?;
        self.fixed(b";")?;
        Some((up, (x, y)))
    }
}

/// The points in their contours, each begun by a PU; or the place of the first byte that does not belong there.
pub fn read(text: &[u8]) -> Result<Whole, usize> {
    let mut rest = Rest(text);
    let place = |rest: &Rest| text.len() - rest.0.len();
    rest.fixed(b"IN;").ok_or(0usize)?;
    let mut contours = Whole::new();
    while !rest.0.is_empty() {
        let begun = place(&rest);
        let (up, point) = rest.stroke().ok_or_else(|| place(&rest))?;
        if up {
            contours.push(vec![]);
        }
        contours.last_mut().ok_or(begun)?.push(point);
    }
    Ok(contours)
}
