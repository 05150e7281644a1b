//! Drawing calls on columns of a given length, and what must be seen after each, for `store_cases`.
//! Which calls are refused is decided here, from the table of docs/RULES.md, Answers; what an accepted call stores is the original's.

use super::{bits, row};
use crate::{
    call::{p, Call},
    original::screen,
    seen::Store,
};

const ROOM: usize = 16;
const MAX: usize = 0xffff_ffff; // written for the largest count

fn letter(call: &Call) -> char {
    match call {
        Call::Move(_) => 'm',
        Call::Line(_) => 'l',
        Call::Quad(..) => 'q',
        Call::Cubic(..) => 'u',
        Call::RatQuad(..) => 'r',
        Call::RatCubic(..) => 'v',
        Call::Build => 'b',
    }
}

// The same call with one number replaced: its coordinates come first, then its weights.
fn with(call: &Call, slot: usize, v: f32) -> Call {
    let (mut c, mut w) = (call.coordinates(), call.weights());
    match slot.checked_sub(c.len()) {
        None => c[slot] = v,
        Some(i) => w[i] = v,
    }
    let q = |i: usize| p(c[2 * i], c[2 * i + 1]);
    match call {
        Call::Move(_) => Call::Move(q(0)),
        Call::Line(_) => Call::Line(q(0)),
        Call::Quad(..) => Call::Quad(q(0), q(1)),
        Call::Cubic(..) => Call::Cubic(q(0), q(1), q(2)),
        Call::RatQuad(..) => Call::RatQuad(q(0), q(1), w[0]),
        Call::RatCubic(..) => Call::RatCubic(q(0), q(1), q(2), w[0], w[1]),
        Call::Build => Call::Build,
    }
}

// The whole columns as the program has them, and how much of them is lent. All that is written goes to the list.
struct Case<'a> {
    list: &'a mut String,
    x: Vec<f32>,
    y: Vec<f32>,
    weight: Vec<f32>,
    commands: Vec<u8>,
    lent: [usize; 4],
    points: usize,
    count: usize,
    opening: usize,
}

impl Case<'_> {
    fn new(list: &mut String, lent: [usize; 4]) -> Case<'_> {
        let filled = |from: f32| (0..ROOM).map(|i| from + i as f32).collect::<Vec<_>>();
        let commands = (0..ROOM).map(|i| 100 + i as u8).collect();
        let mut case = Case { list, x: filled(1000.0), y: filled(2000.0), weight: filled(3000.0), commands, lent, points: 0, count: 0, opening: 0 };
        case.line('c', &lent.map(|n| n as u32));
        case
    }

    fn sized(list: &mut String, points: usize, commands: usize) -> Case<'_> {
        Case::new(list, [points, points, points, commands])
    }

    // A letter and its words.
    fn line(&mut self, letter: char, words: &[u32]) {
        self.list.extend([letter, ' ']);
        row(self.list, words);
    }

    fn state_by_hand(&mut self, points: usize, count: usize, opening: usize) {
        (self.points, self.count, self.opening) = (points, count, opening);
        self.line('h', &self.state_words());
    }

    fn point_by_hand(&mut self, i: usize, x: f32, y: f32, weight: f32) {
        (self.x[i], self.y[i], self.weight[i]) = (x, y, weight);
        self.line('s', &self.point_words(i));
    }

    fn command_by_hand(&mut self, i: usize, c: u8) {
        self.commands[i] = c;
        self.line('k', &[i as u32, c as u32]);
    }

    fn state_words(&self) -> [u32; 3] {
        [self.points as u32, self.count as u32, self.opening as u32]
    }

    fn point_words(&self, i: usize) -> [u32; 4] {
        [i as u32, bits(self.x[i]), bits(self.y[i]), bits(self.weight[i])]
    }

    fn even(&self) -> bool {
        self.lent[0] == self.lent[1] && self.lent[0] == self.lent[2]
    }

    fn usable(&self) -> bool {
        self.even()
            && self.points != 0
            && self.points <= self.lent[0]
            && self.count != 0
            && self.count <= self.lent[3]
            && self.opening < self.points
            && self.commands[self.count - 1] <= 3
    }

    // Flattening's test for answer 3.
    fn drawable(&self) -> bool {
        if !self.usable() {
            return false;
        }
        let commands = &self.commands[..self.count];
        let in_range = |l: &[f32]| l.iter().all(|v| v.abs() <= 4_194_304.0);
        commands[0] == 0
            && commands.iter().all(|&c| c <= 3)
            && commands.iter().map(|&c| [1, 1, 2, 3][c as usize]).sum::<usize>() == self.points
            && self.weight[..self.points].iter().all(|w| (1.0 / 64.0..=64.0).contains(w))
            && in_range(&self.x[..self.points])
            && in_range(&self.y[..self.points])
    }

    fn fresh(&mut self) {
        let answer = if !self.even() {
            3
        } else if self.lent[0] == 0 || self.lent[3] == 0 {
            4
        } else {
            0
        };
        self.line('f', &[answer]);
        (self.points, self.count, self.opening) = (0, 0, 0);
        if answer == 0 {
            self.hold(&screen::store(&[]));
        }
    }

    // The store as the original takes it. A command that it does not have becomes a Line: it looks at the last command only.
    fn store(&self) -> Store {
        Store {
            x: self.x[..self.points].to_vec(),
            y: self.y[..self.points].to_vec(),
            weight: self.weight[..self.points].to_vec(),
            commands: self.commands[..self.count].iter().map(|&c| if c <= 3 { c } else { 1 }).collect(),
            opening: self.opening,
        }
    }

    fn hold(&mut self, store: &Store) {
        let n = store.x.len();
        self.x[..n].copy_from_slice(&store.x);
        self.y[..n].copy_from_slice(&store.y);
        self.weight[..n].copy_from_slice(&store.weight);
        let count = store.commands.len();
        self.commands[self.count..count].copy_from_slice(&store.commands[self.count..]);
        (self.points, self.count, self.opening) = (n, count, store.opening);
    }

    // The answer, and on 0 the store that the original makes of it.
    fn answer(&self, call: &Call) -> (u32, Option<Store>) {
        if !self.usable() {
            return (3, None);
        }
        if call.coordinates().iter().any(|v| v.is_nan() || v.abs() > 65_536.0) {
            return (1, None);
        }
        if call.weights().iter().any(|w| w.is_nan() || *w < 1.0 / 64.0 || *w > 64.0) {
            return (2, None);
        }
        let store = screen::draw_on(&self.store(), &[*call]);
        if store.x.len() > self.lent[0] || store.commands.len() > self.lent[3] {
            return (4, None);
        }
        (0, Some(store))
    }

    fn call(&mut self, call: Call) {
        let (answer, store) = self.answer(&call);
        let mut words: Vec<u32> = call.coordinates().into_iter().chain(call.weights()).map(bits).collect();
        words.push(answer);
        self.line(letter(&call), &words);
        if let Some(store) = store {
            self.hold(&store);
        }
    }

    fn calls(&mut self, calls: &[Call]) {
        calls.iter().for_each(|c| self.call(*c));
    }

    fn state(&mut self) {
        self.line('t', &self.state_words());
    }

    fn tested(&mut self) {
        self.line('d', &[self.drawable() as u32]);
    }

    // All entries that are lent, and one more of each.
    fn seen(&mut self) {
        self.state();
        self.tested();
        let most = *self.lent[..3].iter().max().unwrap();
        for i in 0..(most + 1).min(ROOM) {
            self.line('p', &self.point_words(i));
        }
        for i in 0..(self.lent[3] + 1).min(ROOM) {
            self.line('o', &[i as u32, self.commands[i] as u32]);
        }
    }
}

struct Random(u64);

impl Random {
    fn next(&mut self) -> u32 {
        self.0 = self.0.wrapping_mul(6364136223846793005).wrapping_add(1442695040888963407);
        (self.0 >> 33) as u32
    }

    fn below(&mut self, n: u32) -> u32 {
        self.next() % n
    }

    // small whole numbers, so that contours close; zeros of both signs; any digits up to the limit
    fn coordinate(&mut self) -> f32 {
        match self.below(8) {
            0 => -0.0,
            1 => 0.0,
            2 => f32::from_bits(0x3000_0000 + self.below(0x1780_0001)) * if self.below(2) == 0 { 1.0 } else { -1.0 },
            _ => self.below(5) as f32 - 2.0,
        }
    }

    fn weight(&mut self) -> f32 {
        f32::from_bits(0x3c80_0000 + self.below(0x0600_0001))
    }

    fn call(&mut self) -> Call {
        let [a, b, c] = [(); 3].map(|_| p(self.coordinate(), self.coordinate()));
        match self.below(9) {
            0 | 1 => Call::Move(a),
            2 | 3 => Call::Line(a),
            4 => Call::Quad(a, b),
            5 => Call::Cubic(a, b, c),
            6 => Call::RatQuad(a, b, self.weight()),
            7 => Call::RatCubic(a, b, c, self.weight(), self.weight()),
            _ => Call::Build,
        }
    }
}

// One of each, none of which closes a contour by itself.
fn each() -> [Call; 7] {
    [
        Call::Move(p(1.0, 2.0)),
        Call::Line(p(3.0, 4.0)),
        Call::Quad(p(5.0, 6.0), p(7.0, 8.0)),
        Call::Cubic(p(9.0, 10.0), p(11.0, 12.0), p(13.0, 14.0)),
        Call::RatQuad(p(15.0, 16.0), p(17.0, 18.0), 0.5),
        Call::RatCubic(p(19.0, 20.0), p(21.0, 22.0), p(23.0, 24.0), 2.0, 0.1),
        Call::Build,
    ]
}

// Random sequences on ample columns, on columns that just hold them, and on columns that are one entry too short.
fn sequences(list: &mut String, r: &mut Random) {
    for _ in 0..40 {
        let calls: Vec<Call> = (0..2 + r.below(6)).map(|_| r.call()).collect();
        let mut run = |points: usize, commands: usize| {
            let mut case = Case::sized(list, points, commands);
            case.fresh();
            case.calls(&calls);
            case.seen();
            (case.points, case.count)
        };
        let (points, commands) = run(ROOM, ROOM);
        run(points, commands);
        run(points - 1, commands);
        run(points, commands - 1);
    }
}

// Each number of each call at and beside the limits.
fn limits(list: &mut String) {
    let up = |v: f32| f32::from_bits(v.to_bits() + 1);
    let coordinates =
        [65_536.0, up(65_536.0), -65_536.0, up(-65_536.0), f32::NAN, f32::INFINITY, f32::NEG_INFINITY, -0.0, f32::from_bits(1)];
    let least = 1.0f32 / 64.0;
    let weights = [64.0, up(64.0), least, f32::from_bits(least.to_bits() - 1), f32::NAN, f32::INFINITY, 0.0, -1.0, -0.0, 1.0];
    for call in each() {
        let (n, m) = (call.coordinates().len(), call.weights().len());
        for slot in 0..n + m {
            for v in if slot < n { &coordinates[..] } else { &weights[..] } {
                let mut case = Case::sized(list, 5, 3);
                case.fresh();
                case.call(Call::Line(p(1.0, 1.0)));
                case.call(with(&call, slot, *v));
                case.seen();
            }
        }
    }
    // the largest product, of each sign
    let mut case = Case::sized(list, 8, 8);
    case.fresh();
    case.call(Call::RatCubic(p(65_536.0, -65_536.0), p(-65_536.0, 65_536.0), p(0.0, 0.0), 64.0, 64.0));
    case.call(Call::RatQuad(p(up(65_535.0), 1.0e-40), p(0.0, 0.0), least));
    case.seen();
}

// More than one thing is wrong: the order of the answers.
fn orders(list: &mut String) {
    let bad = [
        Call::RatQuad(p(f32::NAN, 0.0), p(0.0, 0.0), 65.0),
        Call::RatCubic(p(0.0, 0.0), p(0.0, 0.0), p(0.0, 1.0e9), 1.0, f32::NAN),
        Call::RatQuad(p(0.0, 0.0), p(0.0, 0.0), 65.0),
        Call::RatCubic(p(0.0, 0.0), p(0.0, 0.0), p(0.0, 0.0), 1.0, 0.0),
        Call::Line(p(f32::INFINITY, 0.0)),
        Call::Move(p(0.0, f32::NAN)),
        Call::Line(p(0.0, 0.0)),
        Call::Build,
    ];
    for unusable in [false, true] {
        let mut case = Case::sized(list, 2, 2);
        case.fresh();
        case.call(Call::Line(p(5.0, 5.0)));
        if unusable {
            case.command_by_hand(1, 4);
        }
        case.calls(&bad);
        case.seen();
    }
}

// States made by hand, most of them unusable, with each call.
fn states(list: &mut String) {
    for (points, count, opening) in [
        (0, 1, 0), (1, 0, 0), (1, 1, 1), (2, 1, 2), (5, 1, 0), (1, 5, 0), (MAX, 1, 0), (1, MAX, 0), (1, 1, MAX), (MAX, MAX, MAX), (4, 4, 3), (4, 4, 4),
        (3, 2, 2), (2, 2, 0),
    ] {
        let mut case = Case::sized(list, 4, 4);
        case.fresh();
        (1..4).for_each(|i| case.command_by_hand(i, 1));
        for call in each() {
            case.state_by_hand(points, count, opening);
            case.call(call);
            case.state();
        }
        case.seen();
    }
    // columns of unequal length
    for lent in [[4, 3, 4, 4], [4, 4, 3, 4], [3, 4, 4, 4], [4, 5, 4, 4], [4, 4, 5, 4], [5, 4, 4, 4]] {
        let mut case = Case::new(list, lent);
        case.fresh();
        case.command_by_hand(0, 0);
        case.state_by_hand(1, 1, 0);
        case.calls(&each());
        case.seen();
    }
    // a last command that is over 3, and one before it that no call looks at
    for c in [4, 255] {
        let mut case = Case::sized(list, 6, 6);
        case.fresh();
        case.command_by_hand(1, c);
        case.state_by_hand(2, 2, 0);
        case.calls(&each());
        case.command_by_hand(2, 1);
        case.state_by_hand(3, 3, 0);
        case.call(Call::Line(p(1.0, 1.0)));
        case.seen();
    }
}

fn fresh(list: &mut String) {
    for lent in [[0, 0, 0, 0], [0, 0, 0, 1], [1, 1, 1, 0], [1, 1, 1, 1], [1, 1, 2, 1], [1, 0, 1, 1], [0, 1, 0, 0], [2, 1, 1, 0], [16, 16, 16, 16]] {
        let mut case = Case::new(list, lent);
        case.state_by_hand(7, MAX, 3);
        case.fresh();
        case.call(Call::Move(p(1.0, 1.0)));
        case.call(Call::Build);
        case.seen();
    }
}

// A store that is full: a move after a Move needs no room, and a build of a closed contour none either.
fn full(list: &mut String) {
    let mut case = Case::sized(list, 1, 1);
    case.fresh();
    case.calls(&[Call::Move(p(3.0, 4.0)), Call::Build, Call::Move(p(-0.0, 2.0)), Call::Line(p(0.0, 0.0)), Call::Move(p(5.0, 6.0))]);
    case.seen();
    for (points, commands) in [(2, 2), (3, 3), (4, 4), (3, 4), (4, 3), (5, 5)] {
        let mut case = Case::sized(list, points, commands);
        case.fresh();
        for c in [Call::Line(p(1.0, 0.0)), Call::Move(p(2.0, 2.0)), Call::Move(p(3.0, 3.0)), Call::Line(p(3.0, 3.0)), Call::Build, Call::Move(p(9.0, 9.0))] {
            case.call(c);
            case.state();
        }
        case.seen();
    }
}

// Contents made by hand: what closing compares.
fn closing(list: &mut String) {
    let nan = f32::NAN;
    let inf = f32::INFINITY;
    let pairs = [
        // the same point, with another weight
        ([1.0, 2.0, 1.0], [2.0, 4.0, 2.0]),
        ([3.0, 3.0, 3.0], [1.0, 1.0, 1.0]),
        // stored alike, with another weight
        ([1.0, 2.0, 1.0], [1.0, 2.0, 2.0]),
        ([0.0, -0.0, 1.0], [-0.0, 0.0, 5.0]),
        // 1/w is rounded, and so is the product
        ([1.0, 1.0, 1.0], [3.0, 7.0, 3.0]),
        ([1.0, 1.0, 1.0], [49.0, 49.0, 49.0]),
        ([nan, 1.0, 1.0], [nan, 1.0, 1.0]),
        ([1.0, 1.0, nan], [1.0, 1.0, 1.0]),
        ([1.0, 1.0, 0.0], [1.0, 1.0, 0.0]),
        ([0.0, 0.0, 0.0], [0.0, 0.0, 0.0]),
        ([inf, 1.0, 1.0], [inf, 1.0, 1.0]),
        ([inf, 1.0, 1.0], [-inf, 1.0, 1.0]),
        ([1.0, 1.0, inf], [2.0, 2.0, -inf]),
        ([1.0e-45, 0.0, 1.0], [1.0e-45, 0.0, 1.0e-45]),
        ([65_536.0, 1.0, 1.0], [4_194_304.0, 64.0, 64.0]),
    ];
    for (open, last) in pairs {
        for call in [Call::Build, Call::Move(p(8.0, 9.0))] {
            for room in [3, 4, 5] {
                let mut case = Case::sized(list, room, room);
                case.fresh();
                case.point_by_hand(1, open[0], open[1], open[2]);
                case.point_by_hand(2, last[0], last[1], last[2]);
                case.command_by_hand(1, 0);
                case.command_by_hand(2, 1);
                case.state_by_hand(3, 3, 1);
                case.call(call);
                case.seen();
            }
        }
    }
}

// Flattening's test for answer 3, on contents made by hand.
fn drawables(list: &mut String) {
    let mut test = |change: &dyn Fn(&mut Case)| {
        let mut case = Case::sized(list, 8, 5);
        case.fresh();
        case.call(Call::Quad(p(1.0, 1.0), p(2.0, 2.0)));
        case.call(Call::Cubic(p(1.0, 1.0), p(2.0, 2.0), p(3.0, 3.0)));
        case.call(Call::Build);
        change(&mut case);
        case.tested();
    };
    test(&|_| ());
    for i in 0..5 {
        for c in [0, 1, 2, 3, 4, 255] {
            test(&|case| case.command_by_hand(i, c));
        }
    }
    let edges = [4_194_304.0, 4_194_304.5, -4_194_304.0, -4_194_304.5, f32::NAN, f32::INFINITY, f32::NEG_INFINITY, 0.0];
    let weights = [64.0, 64.000_01, 0.015625, 0.015624999, f32::NAN, f32::INFINITY, 0.0, -1.0];
    for i in [0, 3, 6, 7] {
        for k in 0..8 {
            test(&|case| case.point_by_hand(i, edges[k], 0.0, 1.0));
            test(&|case| case.point_by_hand(i, 0.0, edges[k], 1.0));
            test(&|case| case.point_by_hand(i, 0.0, 0.0, weights[k]));
        }
    }
    for (points, count, opening) in [
        (7, 4, 0), (6, 3, 5), (3, 2, 2), (3, 2, 3), (1, 1, 0), (2, 1, 0), (8, 4, 0), (8, 5, 0), (7, 4, 7), (0, 0, 0), (7, 3, 0), (9, 5, 0), (MAX, MAX, 0),
    ] {
        test(&|case| case.state_by_hand(points, count, opening));
    }
}

pub fn fixed() -> String {
    let mut list = String::new();
    sequences(&mut list, &mut Random(2022));
    for group in [limits, orders, states, fresh, full, closing, drawables] {
        group(&mut list);
    }
    list
}
