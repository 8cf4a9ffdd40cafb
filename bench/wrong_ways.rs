//! Ways to answer that look right and are not. Each is asked what the library is asked, and some question has to tell it from the right answer.

use crate::reference::{rounded, slope_of, File, TICKS, UNIT};

/// A question that is taken: the first tick of what is asked for, or a height.
#[derive(Clone, Copy, Debug)]
pub enum Question {
    First { line: i64, from: u64, what: u64 },
    Height { tick: u64 },
}

#[derive(Clone, Copy, PartialEq, Eq, Debug)]
pub enum Answer {
    At(u64),
    Never,
    Height(i128),
}

fn found(tick: Option<u64>) -> Answer {
    tick.map_or(Answer::Never, Answer::At)
}

pub fn right(file: &File, question: Question) -> Answer {
    match question {
        Question::First { line, from, what } => found(file.first(line, from, what).unwrap().tick),
        Question::Height { tick } => Answer::Height(file.height(tick).unwrap()),
    }
}

pub struct Way {
    pub name: &'static str,
    pub answer: fn(&File, Question) -> Answer,
}

pub const WAYS: [Way; 9] = [
    Way {
        name: "halving between two looks",
        answer: |file, q| searched(file, q, halving),
    },
    Way {
        name: "the height rounded, then compared",
        answer: |file, q| searched(file, q, rounded_first),
    },
    Way {
        name: "the slope taken in the tick, not of the span",
        answer: |file, q| searched(file, q, slope_in_tick),
    },
    Way {
        name: "a span's last tick skipped with the next one's first",
        answer: |file, q| searched(file, q, over_the_join),
    },
    Way {
        name: "rounding toward 0",
        answer: toward_zero,
    },
    Way {
        name: "a touch of the line not seen",
        answer: |file, q| searched(file, q, no_touch),
    },
    Way {
        name: "<= for < in what may be skipped",
        answer: |file, q| searched(file, q, one_too_many),
    },
    Way {
        name: "joins disregarded",
        answer: |file, q| searched(file, q, no_joins),
    },
    Way {
        name: "the asked tick left out",
        answer: |file, q| searched(file, q, asked_left_out),
    },
];

type Search = fn(&File, i64, u64, u64) -> Option<u64>;

/// Another search, with heights as they are.
fn searched(file: &File, question: Question, search: Search) -> Answer {
    match question {
        Question::First { line, from, what } => found(search(file, line, from, what)),
        Question::Height { .. } => right(file, question),
    }
}

/// The half is added, and the quotient then cut toward 0, as the division of most languages does.
fn toward_zero(file: &File, question: Question) -> Answer {
    match question {
        Question::First { .. } => right(file, question),
        Question::Height { tick } => {
            Answer::Height((file.heights[tick as usize] + UNIT / 2) / UNIT)
        }
    }
}

/// The first tick of what is asked for, where `above` says in which ticks the body is above.
fn every_tick(file: &File, above: impl Fn(u64) -> bool, from: u64, what: u64) -> Option<u64> {
    (from..file.ticks()).find(|&t| match what {
        0 => above(t),
        1 => t > 0 && above(t) && !above(t - 1),
        _ => t > 0 && !above(t) && above(t - 1),
    })
}

/// A search that goes from each tick to the one that `next` says.
fn walk(file: &File, line: i64, from: u64, what: u64, next: impl Fn(u64) -> u64) -> Option<u64> {
    let mut tick = if what == 0 {
        from
    } else {
        from.saturating_sub(1)
    };
    let wanted = what != 2;
    let mut ready = what == 0;
    while tick < file.ticks() {
        let is = file.above(line, tick);
        if is == wanted && ready {
            return Some(tick);
        }
        ready = ready || is != wanted;
        tick = next(tick);
    }
    None
}

fn distance(file: &File, line: i64, tick: u64) -> i128 {
    (file.heights[tick as usize] - line as i128 * UNIT).abs()
}

fn left(tick: u64) -> u64 {
    TICKS as u64 - 1 - tick % TICKS as u64
}

/// How many ticks may be skipped, by a slope.
fn skip(distance: i128, slope: i128, most: u64) -> u64 {
    if distance == 0 {
        0
    } else if slope == 0 {
        most
    } else {
        most.min(((distance - 1) / slope) as u64)
    }
}

/// Looks at both ends of each span, and between two looks that differ halves.
fn halving(file: &File, line: i64, from: u64, what: u64) -> Option<u64> {
    let start = if what == 0 {
        from
    } else {
        from.saturating_sub(1)
    };
    let wanted = what != 2;
    if what == 0 && file.above(line, start) {
        return Some(start);
    }
    let mut low = start;
    while low + 1 < file.ticks() {
        let high = if left(low) == 0 {
            low + 1
        } else {
            low + left(low)
        };
        if file.above(line, low) != wanted && file.above(line, high) == wanted {
            let (mut before, mut after) = (low, high);
            while before + 1 < after {
                let middle = (before + after) / 2;
                if file.above(line, middle) == wanted {
                    after = middle;
                } else {
                    before = middle;
                }
            }
            return Some(after);
        }
        low = high;
    }
    None
}

fn rounded_first(file: &File, line: i64, from: u64, what: u64) -> Option<u64> {
    let above = |t: u64| rounded(file.heights[t as usize]) >= line as i128;
    every_tick(file, above, from, what)
}

fn slope_in_tick(file: &File, line: i64, from: u64, what: u64) -> Option<u64> {
    let next = |t: u64| {
        let span = file.span_at(t);
        let u = t as i128 % TICKS as i128;
        let (b, c, d) = (span[1] as i128, span[2] as i128, span[3] as i128);
        let slope = ((b << 20) + ((2 * c * u) << 10) + 3 * d * u * u).abs();
        t + 1 + skip(distance(file, line, t), slope, left(t))
    };
    walk(file, line, from, what, next)
}

fn over_the_join(file: &File, line: i64, from: u64, what: u64) -> Option<u64> {
    let next = |t: u64| {
        let slope = slope_of(file.span_at(t));
        t + 1 + skip(distance(file, line, t), slope, left(t) + 1)
    };
    walk(file, line, from, what, next)
}

fn no_touch(file: &File, line: i64, from: u64, what: u64) -> Option<u64> {
    let above = |t: u64| file.heights[t as usize] > line as i128 * UNIT;
    every_tick(file, above, from, what)
}

fn one_too_many(file: &File, line: i64, from: u64, what: u64) -> Option<u64> {
    let next = |t: u64| {
        let slope = slope_of(file.span_at(t));
        t + 1 + skip(distance(file, line, t) + 1, slope, left(t))
    };
    walk(file, line, from, what, next)
}

fn no_joins(file: &File, line: i64, from: u64, what: u64) -> Option<u64> {
    (from..file.ticks()).find(|&t| match what {
        0 => file.above(line, t),
        1 => t % TICKS as u64 > 0 && file.rises(line, t),
        _ => t % TICKS as u64 > 0 && file.sets(line, t),
    })
}

fn asked_left_out(file: &File, line: i64, from: u64, what: u64) -> Option<u64> {
    let above = |t: u64| file.above(line, t);
    every_tick(file, above, from + 1, what)
}
