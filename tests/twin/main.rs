// The twin: runs case after case with the plain implementation and with the proved code, and compares all that they give and change.
//
//     twin SEED cases COUNT
//     twin SEED minutes MINUTES
//
// The order of the cases depends on the seed only. Exits with 1 at the first difference, and also if a long enough run never met one of the kinds.

mod cases;
mod check;
mod direct;
mod graphs;
mod lent;
mod ours;
mod plain;
mod random;
mod small;
mod systematic;
mod texts;

use std::process::exit;
use std::sync::atomic::{AtomicU64, Ordering};
use std::thread;
use std::time::{Duration, Instant};

use cases::Case;
use check::{Met, KINDS, OF_THESE};
use random::Random;
use systematic::Systematic;

/// A run of so many cases has to meet every kind.
const LONG_ENOUGH: u64 = 20_000;

/// A case that takes so long is taken for one that does not end.
const MOST_SECONDS: u64 = 120;

/// The number of the case that is running.
static RUNNING: AtomicU64 = AtomicU64::new(0);

enum Until {
    Cases(u64),
    Time(Duration),
}

fn arguments() -> Option<(u64, Until)> {
    let arguments: Vec<String> = std::env::args().skip(1).collect();
    let [seed, unit, number] = arguments.as_slice() else { return None };
    let number: u64 = number.parse().ok()?;
    let until = match unit.as_str() {
        "cases" => Until::Cases(number),
        "minutes" => Until::Time(Duration::from_secs(number.checked_mul(60)?)),
        _ => return None,
    };
    Some((seed.parse().ok()?, until))
}

/// The case of a number: every second one is systematic while there are such cases left, all others are random.
fn case(systematic: &Systematic, seed: u64, number: u64) -> Case {
    if number % 2 == 1 && number / 2 < systematic.count() {
        systematic.case(seed, number / 2)
    } else {
        cases::random_case(&mut Random::new(seed, number))
    }
}

fn main() {
    let Some((seed, until)) = arguments() else {
        eprintln!("usage: twin SEED cases COUNT | twin SEED minutes MINUTES");
        exit(2);
    };
    for side in [small::PLAIN, small::OURS] {
        if let Err(fault) = small::hold(&side) {
            println!("01's small graphs: {fault}");
            exit(1);
        }
    }
    thread::spawn(move || watch(seed));
    let started = Instant::now();
    let (met, total) = run_cases(seed, &until, started);
    report(seed, &met, total, started.elapsed());
}

fn run_cases(seed: u64, until: &Until, started: Instant) -> (Met, u64) {
    let systematic = Systematic::new();
    let mut met = Met { counts: [0; KINDS.len()] };
    let mut number = 0;
    while match until {
        Until::Cases(count) => number < *count,
        Until::Time(time) => started.elapsed() < *time,
    } {
        RUNNING.store(number, Ordering::Relaxed);
        let case = case(&systematic, seed, number);
        if let Err(fault) = check::check(&case, &mut met) {
            println!("seed {seed}, case {number}: {fault}\n{case}");
            exit(1);
        }
        number += 1;
    }
    (met, number)
}

/// Ends the program if a case does not end: a run to the end may not.
fn watch(seed: u64) {
    let (mut last, mut since) = (u64::MAX, Instant::now());
    loop {
        thread::sleep(Duration::from_secs(1));
        let running = RUNNING.load(Ordering::Relaxed);
        if running != last {
            (last, since) = (running, Instant::now());
        } else if since.elapsed() > Duration::from_secs(MOST_SECONDS) {
            println!("seed {seed}, case {running}: no end after {MOST_SECONDS} seconds\n{}", case(&Systematic::new(), seed, running));
            exit(1);
        }
    }
}

fn report(seed: u64, met: &Met, total: u64, took: Duration) {
    for (kind, count) in KINDS.iter().zip(met.counts) {
        println!("{kind}: {count}");
    }
    println!("seed {seed}: {total} cases, no difference, {:.0} cases a second", total as f64 / took.as_secs_f64());
    assert_eq!(met.counts[..OF_THESE].iter().sum::<u64>(), total, "each case is of one kind");
    let never: Vec<&str> = KINDS.iter().zip(met.counts).filter(|&(_, count)| count == 0).map(|(&kind, _)| kind).collect();
    if total >= LONG_ENOUGH && !never.is_empty() {
        println!("never met: {}", never.join("; "));
        exit(1);
    }
}
