//! One call beside the second implementation: its answer, its count and every byte or entry that was lent, and some on both sides of that.

use crate::{
    points::{Points, Writer},
    reader, second,
};

/// So many entries lie on either side of what is lent.
const AROUND: usize = 24;

/// What was compared.
#[derive(Clone, Default)]
pub struct Seen {
    pub plots: u64,
    pub bytes: u64,
    pub read_back: u64,
    pub wholes: u64,
    pub numbers: u64,
    /// of plots and of wholes: 0, 12, 13
    pub answers: [[u64; 3]; 2],
}

fn place(answer: u32) -> usize {
    match answer {
        0 => 0,
        12 => 1,
        _ => 2,
    }
}

impl Seen {
    pub fn add(&mut self, other: &Seen) {
        self.plots += other.plots;
        self.bytes += other.bytes;
        self.read_back += other.read_back;
        self.wholes += other.wholes;
        self.numbers += other.numbers;
        for (ours, theirs) in self.answers.iter_mut().flatten().zip(other.answers.iter().flatten()) {
            *ours += theirs;
        }
    }

    /// A plot with a buffer of `room` bytes. It is made twice: what is lent once has a byte in it by chance, the other time it has not.
    pub fn plot(&mut self, writer: &dyn Writer, points: &Points, room: usize) -> Result<u32, String> {
        let (answer, text) = second::plot(points, room);
        for salt in [0x00, 0xff] {
            let lent: Vec<u8> = (0..room + 2 * AROUND).map(|i| (i * 37 + 11) as u8 ^ salt).collect();
            let mut ours = lent.clone();
            let got = writer.plot(points, &mut ours[AROUND..AROUND + room]);
            let mut theirs = lent;
            theirs[AROUND..AROUND + text.len()].copy_from_slice(text.as_bytes());
            let told = |what: String| format!("{what}\n  for {} in {room} bytes, expected {answer} and {text:?}", points.told());
            if got != (answer, text.len()) {
                return Err(told(format!("the answer is {} and {} bytes are written", got.0, got.1)));
            }
            if let Some(i) = (0..ours.len()).find(|i| ours[*i] != theirs[*i]) {
                let kind = if i < AROUND || i >= AROUND + room {
                    "outside the buffer"
                } else if i < AROUND + text.len() {
                    "of the text"
                } else {
                    "past the text"
                };
                return Err(told(format!("byte {} {kind} is {:?}", i as isize - AROUND as isize, ours[i] as char)));
            }
            if answer == 0 {
                let back = reader::read(&ours[AROUND..AROUND + got.1]).map_err(|i| told(format!("it cannot be read back: byte {i}")))?;
                if Some(back) != second::whole_contours(points) {
                    return Err(told("it is read back as other points or contours".to_string()));
                }
                self.read_back += 1;
            }
            self.plots += 1;
            self.bytes += ours.len() as u64;
        }
        self.answers[0][place(answer)] += 1;
        Ok(answer)
    }

    /// With no room, too little, one byte too few, just enough, and more.
    pub fn plot_in_rooms(&mut self, writer: &dyn Writer, points: &Points) -> Result<(), String> {
        let needed = second::text(points).map_or(40, |t| t.len());
        for room in [0, 1, 2, 3, needed / 2, needed - 1, needed, needed + 1, needed + 40] {
            self.plot(writer, points, room)?;
        }
        Ok(())
    }

    /// Whole units in columns of these lengths.
    pub fn whole(&mut self, writer: &dyn Writer, x: &[f32], y: &[f32], rooms: (usize, usize)) -> Result<u32, String> {
        let (answer, points) = second::whole(x, y, rooms.0.min(rooms.1));
        let lent = |room: usize, salt: i32| -> Vec<i32> { (0..room + 2 * AROUND).map(|i| (0x5a5a_0000 + i as i32) ^ salt).collect() };
        let (mut ours_x, mut ours_y) = (lent(rooms.0, 0), lent(rooms.1, -1));
        let (mut theirs_x, mut theirs_y) = (ours_x.clone(), ours_y.clone());
        let got = writer.whole(x, y, &mut ours_x[AROUND..AROUND + rooms.0], &mut ours_y[AROUND..AROUND + rooms.1]);
        for (i, (a, b)) in points.iter().enumerate() {
            theirs_x[AROUND + i] = *a;
            theirs_y[AROUND + i] = *b;
        }
        let list = || Points { x: x.to_vec(), y: y.to_vec(), end: vec![] };
        let told =
            |what: String| format!("{what}\n  for {} in columns of {} and {}, expected {answer} and {} points", list().told(), rooms.0, rooms.1, points.len());
        if got != (answer, points.len()) {
            return Err(told(format!("whole: the answer is {} and {} points are written", got.0, got.1)));
        }
        for (name, ours, theirs, from) in [("whole_x", &ours_x, &theirs_x, x), ("whole_y", &ours_y, &theirs_y, y)] {
            if let Some(i) = (0..ours.len()).find(|i| ours[*i] != theirs[*i]) {
                let of = i.checked_sub(AROUND).and_then(|i| from.get(i)).map_or(String::new(), |v| format!(" of {v}={:08x}", v.to_bits()));
                return Err(told(format!("{name}[{}]{of} is {}, not {}", i as isize - AROUND as isize, ours[i], theirs[i])));
            }
        }
        self.wholes += 1;
        self.numbers += 2 * points.len() as u64;
        self.answers[1][place(answer)] += 1;
        Ok(answer)
    }

    pub fn whole_in_rooms(&mut self, writer: &dyn Writer, x: &[f32], y: &[f32]) -> Result<(), String> {
        let n = x.len().min(y.len());
        for rooms in [(0, 0), (n, n), (n + 3, n), (n, n + 3), (n + 7, n + 7), (n.saturating_sub(1), n), (n, n.saturating_sub(1)), (n / 2, n + 9), (n + 9, 0)] {
            self.whole(writer, x, y, rooms)?;
        }
        Ok(())
    }
}
