//! The same in plain Rust, as one would write it for speed: the search that skips, and two that look at every tick.

const TICKS: usize = 1024;
const BOUND: u32 = 1 << 24;

#[derive(Clone, Copy)]
struct Span {
    a: i64,
    b: i64,
    c: i64,
    d: i64,
}

impl Span {
    fn of(numbers: &[i32], at: usize) -> Span {
        let xs = &numbers[4 * at..4 * at + 4];
        Span {
            a: xs[0] as i64,
            b: xs[1] as i64,
            c: xs[2] as i64,
            d: xs[3] as i64,
        }
    }

    fn height(self, u: u64) -> i64 {
        let u = u as i64;
        (self.a << 30) + self.b * (u << 20) + self.c * ((u * u) << 10) + self.d * (u * u * u)
    }

    fn slope(self) -> u64 {
        (self.b.unsigned_abs() + 2 * self.c.unsigned_abs() + 3 * self.d.unsigned_abs()) << 20
    }
}

/// Whether the numbers are a file.
pub fn check(numbers: &[i32]) -> bool {
    numbers.iter().all(|x| x.unsigned_abs() <= BOUND)
        && numbers.len() % 4 == 0
        && (1..=4096).contains(&(numbers.len() / 4))
}

/// Whether the body is above the level in a tick, and the tick to look at next.
#[inline]
fn look(numbers: &[i32], level: i64, end: u64, tick: u64) -> (bool, u64) {
    let span = Span::of(numbers, tick as usize / TICKS);
    let u = tick % TICKS as u64;
    let height = span.height(u);
    let distance = height.abs_diff(level);
    let slope = span.slope();
    let room = (TICKS as u64 - 1 - u).min(end - 1 - tick);
    let skipped = if distance == 0 {
        0
    } else if slope == 0 {
        room
    } else {
        ((distance - 1) / slope).min(room)
    };
    (height >= level, tick + skipped + 1)
}

/// The first tick from one on in which the body is above, rises or sets, and how many heights were worked out.
pub fn first_skipping(
    numbers: &[i32],
    line: i64,
    from: u64,
    what: u64,
) -> Option<(Option<u64>, u64)> {
    if !check(numbers) {
        return None;
    }
    let level = line << 30;
    let end = (numbers.len() / 4 * TICKS) as u64;
    let wanted = what != 2;
    let mut ready = what == 0;
    let mut tick = if what == 0 {
        from
    } else {
        from.saturating_sub(1)
    };
    let mut evaluations = 0;
    while tick < end {
        let (above, next) = look(numbers, level, end, tick);
        evaluations += 1;
        if above == wanted {
            if ready {
                return Some((Some(tick), evaluations));
            }
        } else {
            ready = true;
        }
        tick = next;
    }
    Some((None, evaluations))
}

/// The ticks written so far; those for which there is no room are only counted.
struct Ticks<'a> {
    into: &'a mut [u64],
    entries: usize,
}

impl Ticks<'_> {
    fn push(&mut self, tick: u64) {
        if let Some(at) = self.into.get_mut(self.entries) {
            *at = tick;
        }
        self.entries += 1;
    }
}

/// All risings and settings of a file: how many heights were worked out, and how many there are.
pub fn table_skipping(numbers: &[i32], line: i64, into: &mut [u64]) -> Option<(u64, u64)> {
    if !check(numbers) {
        return None;
    }
    let level = line << 30;
    let end = (numbers.len() / 4 * TICKS) as u64;
    let mut ticks = Ticks { into, entries: 0 };
    let (mut was, mut tick) = look(numbers, level, end, 0);
    let mut evaluations = 1;
    while tick < end {
        let (above, next) = look(numbers, level, end, tick);
        evaluations += 1;
        if above != was {
            ticks.push(tick);
            was = above;
        }
        tick = next;
    }
    Some((evaluations, ticks.entries as u64))
}

/// The same, with every tick looked at and its height worked out by products.
pub fn table_by_products(numbers: &[i32], line: i64, into: &mut [u64]) -> Option<(u64, u64)> {
    if !check(numbers) {
        return None;
    }
    let level = line << 30;
    let spans = numbers.len() / 4;
    let mut ticks = Ticks { into, entries: 0 };
    let mut was = Span::of(numbers, 0).height(0) >= level;
    for at in 0..spans {
        let span = Span::of(numbers, at);
        for u in 0..TICKS as u64 {
            let above = span.height(u) >= level;
            if above != was {
                ticks.push((at * TICKS) as u64 + u);
                was = above;
            }
        }
    }
    Some(((spans * TICKS) as u64, ticks.entries as u64))
}

/// A height with its three differences.
struct Differences {
    height: i64,
    first: i64,
    second: i64,
    third: i64,
}

impl Differences {
    /// Those of a span in its first tick.
    fn of(span: Span) -> Differences {
        Differences {
            height: span.a << 30,
            first: (span.b << 20) + (span.c << 10) + span.d,
            second: (span.c << 11) + 6 * span.d,
            third: 6 * span.d,
        }
    }

    fn onward(&mut self) {
        self.height += self.first;
        self.first += self.second;
        self.second += self.third;
    }
}

/// The same, with every tick looked at and its height made by three additions.
pub fn table_by_differences(numbers: &[i32], line: i64, into: &mut [u64]) -> Option<(u64, u64)> {
    if !check(numbers) {
        return None;
    }
    let level = line << 30;
    let spans = numbers.len() / 4;
    let mut ticks = Ticks { into, entries: 0 };
    let mut was = Span::of(numbers, 0).height(0) >= level;
    for at in 0..spans {
        let mut differences = Differences::of(Span::of(numbers, at));
        for u in 0..TICKS as u64 {
            let above = differences.height >= level;
            if above != was {
                ticks.push((at * TICKS) as u64 + u);
                was = above;
            }
            differences.onward();
        }
    }
    Some(((spans * TICKS) as u64, ticks.entries as u64))
}

/// In how many ticks the body is above the line.
pub fn count_by_differences(numbers: &[i32], line: i64) -> Option<u64> {
    if !check(numbers) {
        return None;
    }
    let level = line << 30;
    let mut count = 0;
    for at in 0..numbers.len() / 4 {
        let mut differences = Differences::of(Span::of(numbers, at));
        for _ in 0..TICKS {
            count += (differences.height >= level) as u64;
            differences.onward();
        }
    }
    Some(count)
}

/// The first of the ticks in which the body is highest.
pub fn highest_by_differences(numbers: &[i32]) -> Option<u64> {
    if !check(numbers) {
        return None;
    }
    let mut tick = 0;
    let mut height = Span::of(numbers, 0).height(0);
    for at in 0..numbers.len() / 4 {
        let mut differences = Differences::of(Span::of(numbers, at));
        for u in 0..TICKS as u64 {
            if differences.height > height {
                height = differences.height;
                tick = (at * TICKS) as u64 + u;
            }
            differences.onward();
        }
    }
    Some(tick)
}
