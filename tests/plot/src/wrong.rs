//! Mistakes that a plot writer could have. The comparison must find each of them: what it cannot find it would not find in the library either.

use crate::points::{Points, Writer};

#[derive(Clone, Copy, Debug, PartialEq, Eq)]
pub enum Mistake {
    Right,
    HalfAddedInF32,
    HalvesToEven,
    HalvesUp,
    Cut,
    MinusZero,
    RangeBeforeRounding,
    RangeOneMore,
    RangeOneLess,
    InfinityAtTheEnd,
    NanIsZero,
    OnlyXTested,
    LastNotTested,
    TestedPastTheShortest,
    LengthOfX,
    FlagIsOne,
    ContourBeginsAtFlag,
    PenStaysUp,
    OneContour,
    OnePointTwice,
    BlankAfterComma,
    NoBlank,
    LineEnd,
    ClosingZero,
    LeadingPlus,
    NoHeadWithoutPoints,
    ShortBeforeUnprintable,
    ByteOnUnprintable,
    ByteOnShort,
    ExactIsShort,
    OneByteShortPasses,
    CountOnRefusal,
    WholeShortBeforeUnprintable,
    WholeTestsXAlone,
    WholeWritesBeforeTesting,
    WholeWritesOneMore,
    WholeCountOnRefusal,
    WholeExchanged,
}
use Mistake::*;

pub const ALL: [(Mistake, &str); 37] = [
    (HalfAddedInF32, "a half is added in f32 and the rest cut off"),
    (HalvesToEven, "halves go to the even number"),
    (HalvesUp, "halves go up, also below zero"),
    (Cut, "the fraction is cut off"),
    (MinusZero, "-0 is printed"),
    (RangeBeforeRounding, "the range is tested before rounding"),
    (RangeOneMore, "32768 passes"),
    (RangeOneLess, "-32768 is refused"),
    (InfinityAtTheEnd, "an infinity is the range's end"),
    (NanIsZero, "a NaN is 0"),
    (OnlyXTested, "only x is tested"),
    (LastNotTested, "the last point is not tested"),
    (TestedPastTheShortest, "x and y are tested past the shortest column"),
    (LengthOfX, "the list is as long as x and y, whatever end has"),
    (FlagIsOne, "only the byte 1 is a flag"),
    (ContourBeginsAtFlag, "a contour begins at the flagged point itself"),
    (PenStaysUp, "after the first flag the pen stays up"),
    (OneContour, "flags are not looked at"),
    (OnePointTwice, "a contour of one point gets a PD too"),
    (BlankAfterComma, "a blank after a comma"),
    (NoBlank, "no blank after PU and PD"),
    (LineEnd, "a line end at the end"),
    (ClosingZero, "a zero byte after the text"),
    (LeadingPlus, "a plus before a number"),
    (NoHeadWithoutPoints, "no IN; without points"),
    (ShortBeforeUnprintable, "13 before 12"),
    (ByteOnUnprintable, "a byte is written on 12"),
    (ByteOnShort, "a byte is written on 13"),
    (ExactIsShort, "a buffer of exactly the text is refused"),
    (OneByteShortPasses, "a text that is cut by a byte passes"),
    (CountOnRefusal, "the needed length is given on 13"),
    (WholeShortBeforeUnprintable, "whole units: 13 before 12"),
    (WholeTestsXAlone, "whole units: the second column's length is not tested"),
    (WholeWritesBeforeTesting, "whole units: points are written up to the refused one"),
    (WholeWritesOneMore, "whole units: an entry past the count is written"),
    (WholeCountOnRefusal, "whole units: a count on a refusal"),
    (WholeExchanged, "whole units: x and y are exchanged"),
];

pub struct Wrong(pub Mistake);

impl Wrong {
    fn nearest(&self, v: f32) -> Option<i32> {
        let w = f64::from(v);
        match self.0 {
            NanIsZero if v.is_nan() => return Some(0),
            InfinityAtTheEnd if v.is_infinite() => return Some(if v > 0.0 { 32767 } else { -32768 }),
            RangeBeforeRounding if !(-32768.0..=32767.0).contains(&w) => return None,
            _ => {}
        }
        let whole = match self.0 {
            HalfAddedInF32 => f64::from((v.abs() + 0.5).trunc().copysign(v)),
            HalvesToEven => w.round_ties_even(),
            HalvesUp => (w + 0.5).floor(),
            Cut => w.trunc(),
            _ => w.round(),
        };
        let range = match self.0 {
            RangeOneMore => -32768.0..=32768.0,
            RangeOneLess => -32767.0..=32767.0,
            _ => -32768.0..=32767.0,
        };
        range.contains(&whole).then_some(whole as i32)
    }

    /// The text; a coordinate that is not tested is printed as 0.
    fn text(&self, points: &Points) -> Option<Vec<u8>> {
        let n = if self.0 == LengthOfX { points.x.len().min(points.y.len()) } else { points.len() };
        let mut text = if n == 0 && self.0 == NoHeadWithoutPoints { String::new() } else { "IN;".to_string() };
        let flag = |i: usize| match points.end.get(i) {
            Some(end) if self.0 == FlagIsOne => *end == 1,
            Some(end) => *end != 0 && self.0 != OneContour,
            None => false,
        };
        let (mut up, mut flags) = (true, 0);
        for i in 0..n {
            let tested = self.0 != LastNotTested || i + 1 < n;
            let x = self.nearest(points.x[i]).or((!tested).then_some(0))?;
            let y = self.nearest(points.y[i]).or((!tested || self.0 == OnlyXTested).then_some(0))?;
            let sign = |v: f32, whole: i32| match self.0 {
                MinusZero if whole == 0 && v.is_sign_negative() => "-",
                LeadingPlus if whole > 0 => "+",
                _ => "",
            };
            let begins = match self.0 {
                ContourBeginsAtFlag => i == 0 || flag(i),
                PenStaysUp => up || flags > 0,
                _ => up,
            };
            let (blank, second) = (if self.0 == NoBlank { "" } else { " " }, if self.0 == BlankAfterComma { " " } else { "" });
            let mut stroke = |pen: &str| text += &format!("{pen}{blank}{}{x},{second}{}{y};", sign(points.x[i], x), sign(points.y[i], y));
            stroke(if begins { "PU" } else { "PD" });
            if self.0 == OnePointTwice && up && flag(i) {
                stroke("PD");
            }
            up = flag(i);
            flags += u32::from(up);
        }
        if self.0 == TestedPastTheShortest && points.x.iter().chain(&points.y).any(|v| self.nearest(*v).is_none()) {
            return None;
        }
        match self.0 {
            LineEnd => text.push('\n'),
            ClosingZero => text.push('\0'),
            _ => {}
        }
        Some(text.into_bytes())
    }
}

impl Writer for Wrong {
    fn plot(&self, points: &Points, text: &mut [u8]) -> (u32, usize) {
        let Some(all) = self.text(points) else {
            if self.0 == ShortBeforeUnprintable && text.len() < 3 + 8 * points.len() {
                return (13, 0);
            }
            if self.0 == ByteOnUnprintable && !text.is_empty() {
                text[0] = b'I';
            }
            return (12, 0);
        };
        // the closing zero is written where there is room, and not counted
        let counted = if self.0 == ClosingZero { all.len() - 1 } else { all.len() };
        let needed = match self.0 {
            ExactIsShort => counted + 1,
            OneByteShortPasses => counted - 1,
            _ => counted,
        };
        if text.len() < needed {
            if self.0 == ByteOnShort && !text.is_empty() {
                let last = text.len() - 1;
                text[last] = b';';
            }
            return (13, if self.0 == CountOnRefusal { counted } else { 0 });
        }
        let put = all.len().min(text.len());
        text[..put].copy_from_slice(&all[..put]);
        (0, counted.min(put))
    }

    fn whole(&self, x: &[f32], y: &[f32], whole_x: &mut [i32], whole_y: &mut [i32]) -> (u32, usize) {
        let n = x.len().min(y.len());
        let room = if self.0 == WholeTestsXAlone { whole_x.len() } else { whole_x.len().min(whole_y.len()) };
        let refused = |answer: u32| (answer, if self.0 == WholeCountOnRefusal { n } else { 0 });
        if self.0 == WholeShortBeforeUnprintable && room < n {
            return refused(13);
        }
        let mut all = Vec::new();
        for i in 0..n {
            let (Some(a), Some(b)) = (self.nearest(x[i]), self.nearest(y[i])) else {
                return refused(12);
            };
            if self.0 == WholeWritesBeforeTesting && i < room {
                whole_x[i] = a;
            }
            all.push(if self.0 == WholeExchanged { (b, a) } else { (a, b) });
        }
        if room < n {
            return refused(13);
        }
        for (i, (a, b)) in all.iter().enumerate().take(whole_y.len()) {
            whole_x[i] = *a;
            whole_y[i] = *b;
        }
        if self.0 == WholeWritesOneMore && n < whole_x.len() {
            whole_x[n] = 0;
        }
        (0, n)
    }
}
