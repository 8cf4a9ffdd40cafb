//! Asks the proved library and the reference the same questions, and stops at the first that they answer differently.
//! Then counts how many of the questions tell each of nine wrong ways from the right answer.

mod library;
mod questions;
mod reference;
mod wrong_ways;

use questions::{any_file, any_line, line_for, long_file, tick_for, what_for, Kind, Random, KINDS};
use reference::{File, Refusal};
use std::fmt::Debug;
use std::process::exit;
use std::time::Instant;
use wrong_ways::{right, Question, WAYS};

const SEED: u64 = 0x0070_6f63_6b65_746d;
const FILES: u64 = 24_000;
const PER_FILE: u64 = 20;

fn main() {
    let started = Instant::now();
    let mut witness = Witness {
        random: Random::new(SEED),
        counts: Counts::default(),
        told: [0; WAYS.len()],
    };
    for i in 0..FILES {
        let kind = KINDS[i as usize % KINDS.len()];
        let line = any_line(&mut witness.random, kind);
        let file = any_file(&mut witness.random, kind, line);
        witness.ask(&file, kind, line, PER_FILE);
    }
    for spans in [16, 64, 64, 256, 4096] {
        let line = any_line(&mut witness.random, Kind::Small);
        let file = long_file(&mut witness.random, spans, line);
        witness.ask(&file, Kind::Small, line, PER_FILE);
    }
    // One span more than there may be.
    let file = long_file(&mut witness.random, 4097, 0);
    witness.ask(&file, Kind::Refused, 0, PER_FILE);

    let counts = &witness.counts;
    println!(
        "{} questions over {} files: {} first ticks, {} heights, {} binary64 numbers, {} sightings, {} parts, {} counts of ticks, {} tables, {} checks, gaps and highest ticks",
        counts.all(),
        FILES + 6,
        counts.first,
        counts.height,
        counts.near,
        counts.sighting,
        counts.part,
        counts.count,
        counts.table,
        counts.file
    );
    println!(
        "{} of them refused, as 1, 2, 3, 4: {} {} {} {}",
        counts.refused.iter().sum::<u64>(),
        counts.refused[0],
        counts.refused[1],
        counts.refused[2],
        counts.refused[3]
    );
    println!(
        "{} ticks found, {} answers that there is none, {} risings and settings listed, {} tables with room for some only",
        counts.found, counts.never, counts.listed, counts.short
    );
    println!("the library and the reference agree in every answer, refusal, bit and count");
    println!();
    println!("questions that tell a wrong way from the right answer:");
    let mut missed = false;
    for (way, told) in WAYS.iter().zip(witness.told) {
        println!("{told:>9}  {}", way.name);
        missed = missed || told == 0;
    }
    println!("{:.1} s", started.elapsed().as_secs_f64());
    if missed {
        eprintln!("witness: no question tells one of the wrong ways from the right answer");
        exit(1);
    }
}

#[derive(Default)]
struct Counts {
    first: u64,
    height: u64,
    near: u64,
    sighting: u64,
    part: u64,
    count: u64,
    table: u64,
    file: u64,
    refused: [u64; 4],
    found: u64,
    never: u64,
    listed: u64,
    short: u64,
}

impl Counts {
    fn all(&self) -> u64 {
        self.first
            + self.height
            + self.near
            + self.sighting
            + self.part
            + self.count
            + self.table
            + self.file
    }
}

struct Witness {
    random: Random,
    counts: Counts,
    told: [u64; WAYS.len()],
}

/// Stops the run where two answers differ.
fn same<T: PartialEq + Debug>(file: &File, question: &str, proved: T, looked: T) {
    if proved == looked {
        return;
    }
    eprintln!("witness: the library and the reference differ");
    eprintln!("  question   {question}");
    eprintln!("  library    {proved:?}");
    eprintln!("  reference  {looked:?}");
    let shown = &file.numbers[..file.numbers.len().min(64)];
    eprintln!("  file       {} numbers, {shown:?}", file.numbers.len());
    exit(1);
}

/// A refusal as the library hands it out.
fn refused(refusal: Refusal) -> library::Refused {
    library::Refused {
        number: refusal.number,
        place: u64::try_from(refusal.place).expect("no place is below 0 here"),
    }
}

const NOTHING: library::Refused = library::Refused {
    number: 0,
    place: 0,
};

impl Witness {
    fn ask(&mut self, file: &File, kind: Kind, line: i64, questions: u64) {
        self.ask_file(file);
        for i in 0..questions {
            let line = line_for(&mut self.random, file, line);
            let tick = tick_for(&mut self.random, file);
            match i % 10 {
                0..=3 => self.ask_first(file, line, tick),
                4 => self.ask_height(file, tick),
                5 => self.ask_near(file, tick),
                6 => self.ask_sighting(file, line, tick),
                7 => self.ask_part(file),
                8 => self.ask_count(file, line),
                _ => self.ask_table(file, line, tick),
            }
            if i == 0 && kind != Kind::Refused {
                self.ask_first(file, line, 0);
            }
        }
    }

    fn count_refusal(&mut self, refusal: Refusal) {
        self.counts.refused[refusal.number as usize - 1] += 1;
    }

    fn tell(&mut self, file: &File, question: Question) {
        let answer = right(file, question);
        for (way, told) in WAYS.iter().zip(&mut self.told) {
            if (way.answer)(file, question) != answer {
                *told += 1;
            }
        }
    }

    fn ask_file(&mut self, file: &File) {
        self.counts.file += 3;
        let numbers = &file.numbers;
        let looked = file.refusal.map_or(NOTHING, refused);
        same(file, "check", library::check(numbers), looked);
        let looked = match file.gap() {
            Ok(gap) => library::GapAnswer {
                refused: NOTHING,
                found: gap.is_some(),
                span: gap.unwrap_or(0),
            },
            Err(refusal) => {
                self.count_refusal(refusal);
                library::GapAnswer {
                    refused: refused(refusal),
                    found: false,
                    span: 0,
                }
            }
        };
        same(file, "gap", library::gap(numbers), looked);
        let looked = match file.highest() {
            Ok(tick) => (NOTHING, tick),
            Err(refusal) => (refused(refusal), 0),
        };
        let highest = library::highest(numbers);
        same(file, "highest", (highest.refused, highest.tick), looked);
        let (span, tick) = (self.random.next() as u16, self.random.next() as u16);
        same(
            file,
            "tick",
            library::tick(span, tick),
            1024 * u64::from(span) + u64::from(tick),
        );
    }

    fn ask_first(&mut self, file: &File, line: i64, from: u64) {
        self.counts.first += 1;
        let what = what_for(&mut self.random);
        let looked = match file.first(line, from, what) {
            Ok(first) => {
                if first.tick.is_some() {
                    self.counts.found += 1;
                } else {
                    self.counts.never += 1;
                }
                self.tell(file, Question::First { line, from, what });
                library::FirstAnswer {
                    refused: NOTHING,
                    found: first.tick.is_some(),
                    tick: first.tick.unwrap_or(0),
                    evaluations: first.evaluations,
                }
            }
            Err(refusal) => {
                self.count_refusal(refusal);
                library::FirstAnswer {
                    refused: refused(refusal),
                    found: false,
                    tick: 0,
                    evaluations: 0,
                }
            }
        };
        let question = format!("first, line {line}, from {from}, what {what}");
        let proved = library::first(&file.numbers, line, from, what);
        same(file, &question, proved, looked);
    }

    fn ask_height(&mut self, file: &File, tick: u64) {
        self.counts.height += 1;
        let looked = match file.height(tick) {
            Ok(height) => {
                self.tell(file, Question::Height { tick });
                library::HeightAnswer {
                    refused: NOTHING,
                    height: height as i64,
                }
            }
            Err(refusal) => {
                self.count_refusal(refusal);
                library::HeightAnswer {
                    refused: refused(refusal),
                    height: 0,
                }
            }
        };
        let question = format!("height, tick {tick}");
        same(
            file,
            &question,
            library::height(&file.numbers, tick),
            looked,
        );
    }

    fn ask_near(&mut self, file: &File, tick: u64) {
        self.counts.near += 1;
        let looked = match file.near(tick) {
            Ok((height, error)) => (NOTHING, height, error),
            Err(refusal) => {
                self.count_refusal(refusal);
                (refused(refusal), 0, 0)
            }
        };
        let near = library::near(&file.numbers, tick);
        let proved = (near.refused, near.height.to_bits(), near.error.to_bits());
        same(file, &format!("near, tick {tick}"), proved, looked);
    }

    fn ask_sighting(&mut self, file: &File, line: i64, tick: u64) {
        self.counts.sighting += 1;
        let looked = match file.sighting(line, tick) {
            Ok(seen) => (NOTHING, seen.is_some(), seen.unwrap_or(0)),
            Err(refusal) => {
                self.count_refusal(refusal);
                (refused(refusal), false, 0)
            }
        };
        let sighting = library::sighting(&file.numbers, line, tick);
        let proved = (sighting.refused, sighting.seen, sighting.above.to_bits());
        let question = format!("sighting, line {line}, tick {tick}");
        same(file, &question, proved, looked);
    }

    fn ask_count(&mut self, file: &File, line: i64) {
        self.counts.count += 1;
        let looked = match file.count(line) {
            Ok(ticks) => (NOTHING, ticks),
            Err(refusal) => {
                self.count_refusal(refusal);
                (refused(refusal), 0)
            }
        };
        let count = library::count(&file.numbers, line);
        let proved = (count.refused, count.ticks);
        same(file, &format!("count, line {line}"), proved, looked);
    }

    fn ask_part(&mut self, file: &File) {
        self.counts.part += 1;
        let mut some = || {
            if self.random.one_in(20) {
                self.random.next()
            } else {
                self.random.below(5)
            }
        };
        let (first, end) = (some(), some());
        let looked = file.part(first, end);
        let part = library::spans(&file.numbers, first, end);
        let (place, length) = (part.place as usize, part.length as usize);
        let question = format!("spans {first} up to {end}");
        let proved = file.numbers.get(place..place + length);
        same(file, &question, proved, Some(looked));
        let place = if looked.is_empty() { 0 } else { 4 * first };
        same(file, &question, part.place, place);
    }

    fn ask_table(&mut self, file: &File, line: i64, from: u64) {
        self.counts.table += 1;
        let end = match self.random.below(4) {
            0 => u64::MAX,
            1 => from.saturating_add(1024),
            2 => self.random.below(file.ticks() + 2),
            _ => file.ticks(),
        };
        // A mark that no tick is, to see what is written.
        const MARK: u64 = u64::MAX;
        let looked = file.table(line, from, end);
        let entries = looked.as_ref().map_or(0, |table| table.crossings.len());
        let room = match self.random.below(3) {
            0 => entries.saturating_sub(1),
            1 => entries,
            _ => entries + 3,
        };
        let mut expected = vec![MARK; room];
        let looked = match looked {
            Ok(table) => {
                self.counts.listed += entries as u64;
                if entries > room {
                    self.counts.short += 1;
                }
                for (at, crossing) in expected.iter_mut().zip(&table.crossings) {
                    *at = crossing.tick;
                }
                for (i, crossing) in table.crossings.iter().enumerate() {
                    assert_eq!(crossing.rises, table.crossings[0].rises == (i % 2 == 0));
                }
                library::TableAnswer {
                    refused: NOTHING,
                    entries: entries as u64,
                    rises: table.crossings.first().is_some_and(|c| c.rises),
                    evaluations: table.evaluations,
                }
            }
            Err(refusal) => {
                self.count_refusal(refusal);
                library::TableAnswer {
                    refused: refused(refusal),
                    entries: 0,
                    rises: false,
                    evaluations: 0,
                }
            }
        };
        let mut into = vec![MARK; room];
        let proved = library::table(&file.numbers, line, from, end, &mut into);
        let question = format!("table, line {line}, from {from}, end {end}, room {room}");
        same(file, &question, proved, looked);
        same(file, &question, into, expected);
    }
}
