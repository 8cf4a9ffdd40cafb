//! Random files and questions, the same in every run.

use crate::reference::{File, BOUND, TICKS, UNIT};

/// xorshift64*, from a fixed seed.
pub struct Random(u64);

impl Random {
    pub fn new(seed: u64) -> Random {
        Random(seed)
    }

    pub fn next(&mut self) -> u64 {
        self.0 ^= self.0 >> 12;
        self.0 ^= self.0 << 25;
        self.0 ^= self.0 >> 27;
        self.0.wrapping_mul(0x2545_f491_4f6c_dd1d)
    }

    /// A number below another.
    pub fn below(&mut self, n: u64) -> u64 {
        (self.next() >> 11) % n
    }

    /// A number of at most this size, either way.
    pub fn within(&mut self, size: i64) -> i64 {
        self.below(2 * size as u64 + 1) as i64 - size
    }

    pub fn one_in(&mut self, n: u64) -> bool {
        self.below(n) == 0
    }

    pub fn pick<T: Copy>(&mut self, of: &[T]) -> T {
        of[self.below(of.len() as u64) as usize]
    }
}

const EXTREME: i64 = BOUND as i64;

/// What kind of spans a file is made of.
#[derive(Clone, Copy, PartialEq, Eq, Debug)]
pub enum Kind {
    Small,
    Smooth,
    Extreme,
    Touching,
    Straight,
    Pulse,
    Level,
    Refused,
}

pub const KINDS: [Kind; 8] = [
    Kind::Small,
    Kind::Smooth,
    Kind::Extreme,
    Kind::Touching,
    Kind::Straight,
    Kind::Pulse,
    Kind::Level,
    Kind::Refused,
];

fn clamped(x: i64) -> i32 {
    x.clamp(-EXTREME, EXTREME) as i32
}

/// A span of a kind that has something to do with a line.
fn span(random: &mut Random, kind: Kind, line: i64) -> [i32; 4] {
    let span = match kind {
        // A few thousandths of height and bend, so that crossings fall between whole thousandths.
        Kind::Small | Kind::Refused => {
            let size = random.pick(&[1, 3, 10, 100, 3000]);
            [
                line + random.within(size),
                random.within(2 * size),
                random.within(2 * size),
                random.within(2 * size),
            ]
        }
        // Tens of degrees, as of real bodies.
        Kind::Smooth => [
            line + random.within(40_000),
            random.within(90_000),
            random.within(60_000),
            random.within(30_000),
        ],
        Kind::Extreme => {
            let mut one = || {
                let edge = random.pick(&[EXTREME, -EXTREME, EXTREME - 1, 1 - EXTREME, 0]);
                if random.one_in(2) {
                    edge
                } else {
                    random.within(EXTREME)
                }
            };
            [one(), one(), one(), one()]
        }
        // A parabola whose top or bottom is on the line, or a thousandth off it, in a tick: -k (q x - p)².
        Kind::Touching => {
            let q = random.pick(&[2i64, 4, 8, 16, 32, 64]);
            let p = random.below(q as u64 + 1) as i64;
            let k = random.pick(&[-1i64, 1]) * (1 + random.below(300) as i64);
            let off = random.pick(&[0i64, 0, 0, 1, -1]);
            let d = if random.one_in(6) {
                random.within(2)
            } else {
                0
            };
            [line + off - k * p * p, 2 * k * p * q, -k * q * q, d]
        }
        // A straight line through the line, just in a tick.
        Kind::Straight => {
            let k = random.within(40);
            let tick = random.below(TICKS as u64) as i64;
            let off = random.pick(&[0i64, 0, 0, 1, -1]);
            [line + off - k * tick, TICKS as i64 * k, 0, 0]
        }
        // On the line in the last or the first tick alone, or in all but one of these.
        Kind::Pulse => {
            let k = random.pick(&[-1i64, 1]) * (1 + random.below(20) as i64);
            let off = random.pick(&[0i64, 0, 0, 1, -1]);
            if random.one_in(2) {
                let last = TICKS as i64 - 1;
                [line + off - k * last, TICKS as i64 * k, 0, 0]
            } else {
                [line + off, TICKS as i64 * k, 0, 0]
            }
        }
        // Level on the line, or a thousandth off it, or a hair off it in all ticks but the first.
        Kind::Level => {
            let off = random.pick(&[0i64, 0, 1, -1]);
            let hair = random.pick(&[0i64, 0, 0, 1, -1]);
            [line + off, 0, 0, hair]
        }
    };
    span.map(clamped)
}

/// A line that a file is made to have something to do with.
pub fn any_line(random: &mut Random, kind: Kind) -> i64 {
    match kind {
        Kind::Extreme => random.pick(&[0, EXTREME, -EXTREME, EXTREME - 1, 12_345_678]),
        _ => random.pick(&[0, 0, 1, -1, -833, 6000, 250_000]),
    }
}

/// A file of one to three spans of a kind, or of mixed kinds.
pub fn any_file(random: &mut Random, kind: Kind, line: i64) -> File {
    let spans = 1 + random.below(3);
    let mixed = random.one_in(4);
    let mut numbers = Vec::new();
    for _ in 0..spans {
        let kind = if mixed { random.pick(&KINDS) } else { kind };
        numbers.extend(span(random, kind, line));
        // Often a span goes on where the one before it ended, to a whole thousandth.
        let at = numbers.len();
        if at > 4 && random.one_in(3) {
            let end: i64 = numbers[at - 8..at - 4].iter().map(|&x| x as i64).sum();
            numbers[at - 4] = clamped(end + random.pick(&[0, 0, 1, -1]));
        }
    }
    if kind == Kind::Refused {
        spoil(random, &mut numbers);
    }
    File::new(numbers)
}

/// A file of as many spans as asked for.
pub fn long_file(random: &mut Random, spans: usize, line: i64) -> File {
    let mut numbers = Vec::new();
    for _ in 0..spans {
        let kind = random.pick(&[Kind::Small, Kind::Smooth, Kind::Touching, Kind::Level]);
        numbers.extend(span(random, kind, line));
    }
    File::new(numbers)
}

/// Makes a file one that is refused, mostly.
fn spoil(random: &mut Random, numbers: &mut Vec<i32>) {
    let beyond = [
        EXTREME as i32 + 1,
        -EXTREME as i32 - 1,
        i32::MIN,
        i32::MAX,
        EXTREME as i32,
    ];
    match random.below(4) {
        0 => numbers.truncate(random.below(numbers.len() as u64) as usize),
        1 => numbers.push(0),
        2 => {
            let at = random.below(numbers.len() as u64) as usize;
            numbers[at] = random.pick(&beyond);
        }
        _ => {
            for _ in 0..2 {
                let at = random.below(numbers.len() as u64) as usize;
                numbers[at] = random.pick(&beyond);
            }
            if random.one_in(2) {
                numbers.pop();
            }
        }
    }
}

/// A line to ask about: mostly the file's own, a neighbour of it, one that a height lies on or near, or one that is refused.
pub fn line_for(random: &mut Random, file: &File, line: i64) -> i64 {
    match random.below(12) {
        0..=5 => line,
        6 => line + random.within(2),
        7..=9 if file.ticks() > 0 => {
            let height = file.heights[random.below(file.ticks()) as usize];
            let near = height.div_euclid(UNIT) as i64 + random.within(1);
            near.clamp(-EXTREME, EXTREME)
        }
        10 => random.within(EXTREME),
        _ => random.pick(&[
            EXTREME,
            -EXTREME,
            EXTREME + 1,
            -EXTREME - 1,
            i64::MIN,
            i64::MAX,
            0,
        ]),
    }
}

/// A tick to ask about: any, one at a join, at either end, or one that is not in the file.
pub fn tick_for(random: &mut Random, file: &File) -> u64 {
    let ticks = file.ticks().max(TICKS as u64);
    match random.below(20) {
        0..=6 => random.below(ticks),
        7..=9 => {
            let join = TICKS as u64 * random.below(ticks / TICKS as u64);
            (join + random.below(4)).saturating_sub(2)
        }
        10..=17 => random.below(3),
        18 => ticks - 1 - random.below(2),
        _ => ticks + random.pick(&[0, 0, 1, 1 << 40, u64::MAX - (1 << 23)]),
    }
}

/// What to ask for: mostly above, rising or setting.
pub fn what_for(random: &mut Random) -> u64 {
    if random.one_in(40) {
        random.pick(&[3, 4, u64::MAX, 1 << 32])
    } else {
        random.below(3)
    }
}
