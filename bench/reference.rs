//! The rules of docs/ALMANAC.md, written down once more: every tick is looked at, in 128 bits, and no code is shared with the proved crates.
//! Not on that page, and taken from the library's contracts: that a table over no ticks evaluates none, the count of ticks, the highest tick.

/// A tick of a span is 1/1024 of it, so a height times 1024³ is a whole number.
pub const TICKS: usize = 1024;
pub const UNIT: i128 = 1 << 30;
pub const BOUND: i128 = 1 << 24;
pub const MOST_SPANS: usize = 4096;

#[derive(Clone, Copy, PartialEq, Eq, Debug)]
pub struct Refusal {
    pub number: u64,
    pub place: i128,
}

/// A rising, or else a setting.
#[derive(Clone, Copy, PartialEq, Eq, Debug)]
pub struct Crossing {
    pub tick: u64,
    pub rises: bool,
}

#[derive(Clone, PartialEq, Eq, Debug)]
pub struct First {
    pub tick: Option<u64>,
    pub evaluations: u64,
}

#[derive(Clone, PartialEq, Eq, Debug)]
pub struct Table {
    pub crossings: Vec<Crossing>,
    pub evaluations: u64,
}

/// The height of a span in its tick u, times 2^30.
pub fn height_in(span: &[i32], u: i128) -> i128 {
    let (a, b, c, d) = (
        span[0] as i128,
        span[1] as i128,
        span[2] as i128,
        span[3] as i128,
    );
    (a << 30) + ((b * u) << 20) + ((c * u * u) << 10) + d * u * u * u
}

/// How much the height of a span, times 2^30, changes from a tick to the next at most.
pub fn slope_of(span: &[i32]) -> i128 {
    let size = |x: i32| (x as i128).abs();
    (size(span[1]) + 2 * size(span[2]) + 3 * size(span[3])) << 20
}

/// The nearest whole thousandth; the upper one of two that are as near.
pub fn rounded(height: i128) -> i128 {
    (height + UNIT / 2).div_euclid(UNIT)
}

fn leading_bit(size: u128) -> i64 {
    127 - size.leading_zeros() as i64
}

/// The bits of the binary64 number nearest to height / 2^30, ties to even, put together from whole numbers.
pub fn nearest_bits(height: i128) -> u64 {
    if height == 0 {
        return 0;
    }
    let size = height.unsigned_abs();
    let mut lead = leading_bit(size);
    let mut digits = if lead <= 52 {
        size << (52 - lead)
    } else {
        let cut = lead - 52;
        let kept = size >> cut;
        let rest = size & ((1 << cut) - 1);
        let half = 1u128 << (cut - 1);
        let up = rest > half || (rest == half && kept % 2 == 1);
        kept + up as u128
    };
    if digits == 1 << 53 {
        digits = 1 << 52;
        lead += 1;
    }
    let sign = if height < 0 { 1u64 << 63 } else { 0 };
    sign | (((lead - 30 + 1023) as u64) << 52) | (digits as u64 & ((1 << 52) - 1))
}

/// The bits of 2^(e-53), where 2^e is the largest power of two that is not above the size of height / 2^30; of 0 at 0.
pub fn error_bits(height: i128) -> u64 {
    if height == 0 {
        return 0;
    }
    let e = leading_bit(height.unsigned_abs()) - 30;
    ((e - 53 + 1023) as u64) << 52
}

/// Why a row of numbers is no file, if it is none.
pub fn check(numbers: &[i32]) -> Option<Refusal> {
    let place = numbers
        .iter()
        .position(|&x| (x as i128).abs() > BOUND)
        .unwrap_or(numbers.len());
    let spans = numbers.len() / 4;
    let taken =
        place == numbers.len() && numbers.len() % 4 == 0 && spans >= 1 && spans <= MOST_SPANS;
    if taken {
        None
    } else {
        Some(Refusal {
            number: 1,
            place: place as i128,
        })
    }
}

/// A file with the height in each of its ticks.
pub struct File {
    pub numbers: Vec<i32>,
    pub refusal: Option<Refusal>,
    /// Times 2^30; none where the file is refused.
    pub heights: Vec<i128>,
}

impl File {
    pub fn new(numbers: Vec<i32>) -> File {
        let refusal = check(&numbers);
        let mut heights = Vec::new();
        if refusal.is_none() {
            for span in numbers.chunks_exact(4) {
                for u in 0..TICKS {
                    heights.push(height_in(span, u as i128));
                }
            }
        }
        File {
            numbers,
            refusal,
            heights,
        }
    }

    pub fn ticks(&self) -> u64 {
        self.heights.len() as u64
    }

    pub fn span_at(&self, tick: u64) -> &[i32] {
        let i = tick as usize / TICKS;
        &self.numbers[4 * i..4 * i + 4]
    }

    /// The refusal of a question about a line and a tick, by a number: the smallest number that applies.
    fn refuse(&self, line: i64, tick: u64, what: u64) -> Option<Refusal> {
        if self.refusal.is_some() {
            return self.refusal;
        }
        if (line as i128).abs() > BOUND {
            return Some(Refusal {
                number: 2,
                place: 0,
            });
        }
        if tick >= self.ticks() {
            return Some(Refusal {
                number: 3,
                place: tick as i128,
            });
        }
        if what > 2 {
            return Some(Refusal {
                number: 4,
                place: what as i128,
            });
        }
        None
    }

    pub fn above(&self, line: i64, tick: u64) -> bool {
        self.heights[tick as usize] >= line as i128 * UNIT
    }

    pub fn rises(&self, line: i64, tick: u64) -> bool {
        tick > 0 && self.above(line, tick) && !self.above(line, tick - 1)
    }

    pub fn sets(&self, line: i64, tick: u64) -> bool {
        tick > 0 && !self.above(line, tick) && self.above(line, tick - 1)
    }

    /// The tick that a search evaluates after this one.
    fn next(&self, line: i64, tick: u64) -> u64 {
        let distance = (self.heights[tick as usize] - line as i128 * UNIT).abs();
        let slope = slope_of(self.span_at(tick));
        let left = TICKS as u64 - 1 - tick % TICKS as u64;
        let mut skipped = 0;
        if distance != 0 {
            while skipped < left && (skipped as i128 + 1) * slope < distance {
                skipped += 1;
            }
        }
        tick + skipped + 1
    }

    /// How many ticks a search evaluates that starts in one tick and ends with another, or before the end of a row.
    fn walk(&self, line: i64, start: u64, last: Option<u64>, end: u64) -> u64 {
        let mut tick = start;
        let mut evaluations = 0;
        while tick < end {
            evaluations += 1;
            if last == Some(tick) {
                return evaluations;
            }
            tick = self.next(line, tick);
        }
        assert!(last.is_none(), "a walk passes the tick that is found");
        evaluations
    }

    pub fn first(&self, line: i64, from: u64, what: u64) -> Result<First, Refusal> {
        if let Some(refusal) = self.refuse(line, from, what) {
            return Err(refusal);
        }
        let tick = (from..self.ticks()).find(|&t| match what {
            0 => self.above(line, t),
            1 => self.rises(line, t),
            _ => self.sets(line, t),
        });
        let start = if what == 0 {
            from
        } else {
            from.saturating_sub(1)
        };
        Ok(First {
            tick,
            evaluations: self.walk(line, start, tick, self.ticks()),
        })
    }

    /// All risings and settings from a tick up to another, without it, or up to the end of the file.
    pub fn table(&self, line: i64, from: u64, end: u64) -> Result<Table, Refusal> {
        if let Some(refusal) = self.refuse(line, from, 0) {
            return Err(refusal);
        }
        let end = end.min(self.ticks());
        let mut crossings = Vec::new();
        for tick in from..end {
            if self.rises(line, tick) {
                crossings.push(Crossing { tick, rises: true });
            }
            if self.sets(line, tick) {
                crossings.push(Crossing { tick, rises: false });
            }
        }
        // A row of no ticks is not walked at all.
        let evaluations = if from < end {
            self.walk(line, from.saturating_sub(1), None, end)
        } else {
            0
        };
        Ok(Table {
            crossings,
            evaluations,
        })
    }

    /// The first of the ticks in which the body is highest.
    pub fn highest(&self) -> Result<u64, Refusal> {
        if let Some(refusal) = self.refusal {
            return Err(refusal);
        }
        let top = self.heights.iter().max().unwrap();
        Ok(self
            .heights
            .iter()
            .position(|height| height == top)
            .unwrap() as u64)
    }

    /// In how many ticks the body is above the line.
    pub fn count(&self, line: i64) -> Result<u64, Refusal> {
        match self.refuse(line, 0, 0) {
            Some(refusal) => Err(refusal),
            None => Ok((0..self.ticks()).filter(|&t| self.above(line, t)).count() as u64),
        }
    }

    pub fn height(&self, tick: u64) -> Result<i128, Refusal> {
        match self.refuse(0, tick, 0) {
            Some(refusal) => Err(refusal),
            None => Ok(rounded(self.heights[tick as usize])),
        }
    }

    /// The bits of the binary64 number and of its error.
    pub fn near(&self, tick: u64) -> Result<(u64, u64), Refusal> {
        match self.refuse(0, tick, 0) {
            Some(refusal) => Err(refusal),
            None => {
                let height = self.heights[tick as usize];
                Ok((nearest_bits(height), error_bits(height)))
            }
        }
    }

    /// The bits of how far the body is above the line, if it is seen.
    pub fn sighting(&self, line: i64, tick: u64) -> Result<Option<u64>, Refusal> {
        if let Some(refusal) = self.refuse(line, tick, 0) {
            return Err(refusal);
        }
        let over = self.heights[tick as usize] - line as i128 * UNIT;
        Ok(if over >= 0 {
            Some(nearest_bits(over))
        } else {
            None
        })
    }

    /// The numbers of the spans from one up to another, without it.
    pub fn part(&self, first: u64, end: u64) -> &[i32] {
        let spans = self.ticks() / TICKS as u64;
        if self.refusal.is_some() || first > end || end > spans {
            return &[];
        }
        &self.numbers[4 * first as usize..4 * end as usize]
    }

    /// The first span that does not meet the next one.
    pub fn gap(&self) -> Result<Option<u64>, Refusal> {
        if let Some(refusal) = self.refusal {
            return Err(refusal);
        }
        let spans: Vec<&[i32]> = self.numbers.chunks_exact(4).collect();
        for i in 1..spans.len() {
            let jump = self.heights[TICKS * i] - self.heights[TICKS * i - 1];
            if jump.abs() > slope_of(spans[i - 1]).max(slope_of(spans[i])) {
                return Ok(Some(i as u64 - 1));
            }
        }
        Ok(None)
    }
}
