//! How the proved library compares with the same in plain Rust: heights worked out, time, and instructions counted by callgrind.

#[allow(dead_code)]
mod library;
mod plain;

use std::env::{args, current_exe};
use std::fs;
use std::hint::black_box;
use std::process::{exit, Command};
use std::time::{Duration, Instant};

fn main() {
    let words: Vec<String> = args().collect();
    match words.len() {
        2 => figures(&words[1]),
        // One run of one case in one way, for callgrind.
        4 => {
            let case = cases(&words[1]).swap_remove(words[2].parse().unwrap());
            let way = WAYS[words[3].parse::<usize>().unwrap()];
            let mut room = vec![0; 1 << 16];
            black_box(measured(way, &case, &mut room));
        }
        _ => {
            eprintln!("figures: the folder of the example files is wanted");
            exit(2);
        }
    }
}

/// What is asked of a file.
#[derive(Clone, Copy, PartialEq, Eq)]
enum Asked {
    /// All risings and settings.
    Table,
    /// The first setting.
    Set,
    /// In how many ticks it is above: a loop over spans, and in it one over a span's ticks.
    Count,
    /// In which tick it is highest: one loop of a cursor over all ticks.
    Highest,
}

struct Case {
    name: String,
    numbers: Vec<i32>,
    asked: Asked,
}

/// How it is answered.
#[derive(Clone, Copy, PartialEq, Eq)]
enum Way {
    Proved,
    Skipping,
    Products,
    Differences,
}

const WAYS: [Way; 4] = [Way::Proved, Way::Skipping, Way::Products, Way::Differences];

/// The numbers of an example file.
fn read(folder: &str, name: &str) -> Vec<i32> {
    let path = format!("{folder}/{name}");
    let text = fs::read_to_string(&path).unwrap_or_else(|error| {
        eprintln!("figures: {path}: {error}");
        exit(1);
    });
    text.lines()
        .filter(|line| line.starts_with(|c: char| c == '-' || c.is_ascii_digit()))
        .flat_map(|line| line.split_whitespace())
        .map(|word| word.parse().unwrap())
        .collect()
}

fn cases(folder: &str) -> Vec<Case> {
    let sun = read(folder, "sun-arctic-2026.txt");
    let moon = read(folder, "moon-arctic-2026.txt");
    let mut cases = vec![
        Case {
            name: "sun, table".into(),
            numbers: sun.clone(),
            asked: Asked::Table,
        },
        Case {
            name: "moon, table".into(),
            numbers: moon,
            asked: Asked::Table,
        },
        Case {
            name: "level on the line, set".into(),
            numbers: vec![0; 4],
            asked: Asked::Set,
        },
        Case {
            name: "level on the line, table".into(),
            numbers: vec![0; 4 * 4096],
            asked: Asked::Table,
        },
    ];
    for spans in [1, 64, 1024, 4096] {
        let numbers = sun.iter().copied().cycle().take(4 * spans).collect();
        cases.push(Case {
            name: format!("sun, {spans} spans, table"),
            numbers,
            asked: Asked::Table,
        });
    }
    for spans in [1, 4096] {
        let numbers = sun.iter().copied().cycle().take(4 * spans).collect();
        cases.push(Case {
            name: format!("cursor by spans, {spans} spans"),
            numbers,
            asked: Asked::Count,
        });
        let numbers = sun.iter().copied().cycle().take(4 * spans).collect();
        cases.push(Case {
            name: format!("cursor at a run, {spans} spans"),
            numbers,
            asked: Asked::Highest,
        });
    }
    cases
}

/// How many heights were worked out, and how many entries, or what tick or count, came out.
type Outcome = Option<(u64, u64)>;

/// The one function whose instructions are counted.
#[no_mangle]
#[inline(never)]
fn measured(way: Way, case: &Case, room: &mut [u64]) -> Outcome {
    let numbers = &case.numbers[..];
    match (case.asked, way) {
        (Asked::Table, Way::Proved) => {
            let answer = library::table(numbers, 0, 0, u64::MAX, room);
            Some((answer.evaluations, answer.entries))
        }
        (Asked::Table, Way::Skipping) => plain::table_skipping(numbers, 0, room),
        (Asked::Table, Way::Products) => plain::table_by_products(numbers, 0, room),
        (Asked::Table, Way::Differences) => plain::table_by_differences(numbers, 0, room),
        (Asked::Set, Way::Proved) => {
            let answer = library::first(numbers, 0, 0, 2);
            Some((answer.evaluations, answer.found as u64))
        }
        (Asked::Set, Way::Skipping) => {
            let (tick, evaluations) = plain::first_skipping(numbers, 0, 0, 2)?;
            Some((evaluations, tick.is_some() as u64))
        }
        (Asked::Count, Way::Proved) => {
            let answer = library::count(numbers, 0);
            Some((numbers.len() as u64 * 256, answer.ticks))
        }
        (Asked::Count, Way::Differences) => {
            let count = plain::count_by_differences(numbers, 0)?;
            Some((numbers.len() as u64 * 256, count))
        }
        (Asked::Highest, Way::Proved) => {
            let answer = library::highest(numbers);
            Some((numbers.len() as u64 * 256, answer.tick))
        }
        (Asked::Highest, Way::Differences) => {
            let tick = plain::highest_by_differences(numbers)?;
            Some((numbers.len() as u64 * 256, tick))
        }
        _ => None,
    }
}

/// The shortest of many runs.
fn time(way: Way, case: &Case, room: &mut [u64]) -> Duration {
    let started = Instant::now();
    let mut best = Duration::MAX;
    let mut runs = 0;
    while runs < 5 || started.elapsed() < Duration::from_millis(150) {
        let one = Instant::now();
        black_box(measured(way, black_box(case), room));
        best = best.min(one.elapsed());
        runs += 1;
    }
    best
}

/// The instructions of one run, by callgrind.
fn instructions(folder: &str, case: usize, way: usize) -> u64 {
    let run = Command::new("valgrind")
        .args(["--tool=callgrind", "--callgrind-out-file=/dev/null"])
        .args(["--collect-atstart=no", "--toggle-collect=measured"])
        .arg(current_exe().unwrap())
        .args([folder, &case.to_string(), &way.to_string()])
        .output()
        .unwrap_or_else(|error| {
            eprintln!("figures: valgrind: {error}");
            exit(1);
        });
    let said = String::from_utf8_lossy(&run.stderr).into_owned();
    said.lines()
        .find_map(|line| line.split("Collected :").nth(1))
        .and_then(|number| number.trim().parse().ok())
        .unwrap_or_else(|| {
            eprintln!("figures: callgrind counted nothing:\n{said}");
            exit(1);
        })
}

fn ratio(one: f64, other: Option<f64>) -> String {
    match other {
        Some(other) => format!("{:.3}", one / other),
        None => "-".into(),
    }
}

fn figures(folder: &str) {
    let mut room = vec![0; 1 << 16];
    println!("The proved library against plain Rust at -O3. A ratio below 1 says that the library needs less.");
    println!("Every run starts from numbers in memory and checks the file first.");
    println!();
    println!(
        "{:30} {:>9} {:>9} {:>8}   {:^26}   {:^26}",
        "", "ticks", "looked at", "share", "time against", "instructions against"
    );
    println!(
        "{:30} {:>9} {:>9} {:>8}   {:>8} {:>8} {:>8}   {:>8} {:>8} {:>8}   {:>12} {:>11}",
        "",
        "",
        "",
        "",
        "skipping",
        "products",
        "differ.",
        "skipping",
        "products",
        "differ.",
        "instructions",
        "time"
    );
    for (i, case) in cases(folder).iter().enumerate() {
        let ticks = case.numbers.len() as u64 * 256;
        let mut outcomes = Vec::new();
        let mut times = Vec::new();
        let mut counts = Vec::new();
        for (j, way) in WAYS.into_iter().enumerate() {
            let outcome = measured(way, case, &mut room);
            outcomes.push(outcome);
            times.push(outcome.map(|_| time(way, case, &mut room).as_secs_f64()));
            counts.push(outcome.map(|_| instructions(folder, i, j) as f64));
        }
        // All ways come to the same, and the two that skip work out the same heights.
        let (looked, answer) = outcomes[0].expect("every case is answered by the library");
        for outcome in outcomes.iter().flatten() {
            if outcome.1 != answer {
                eprintln!("figures: {}: the answers differ: {outcomes:?}", case.name);
                exit(1);
            }
        }
        if outcomes[1].is_some_and(|outcome| outcome.0 != looked) {
            eprintln!("figures: {}: the heights differ: {outcomes:?}", case.name);
            exit(1);
        }
        let (our_time, our_count) = (times[0].unwrap(), counts[0].unwrap());
        println!(
            "{:30} {:>9} {:>9} {:>7.3}%   {:>8} {:>8} {:>8}   {:>8} {:>8} {:>8}   {:>12} {:>8.1} us",
            case.name,
            ticks,
            looked,
            100.0 * looked as f64 / ticks as f64,
            ratio(our_time, times[1]),
            ratio(our_time, times[2]),
            ratio(our_time, times[3]),
            ratio(our_count, counts[1]),
            ratio(our_count, counts[2]),
            ratio(our_count, counts[3]),
            our_count,
            our_time * 1e6
        );
    }
}
