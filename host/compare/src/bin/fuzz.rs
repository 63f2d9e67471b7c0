//! A fuzz run of any length: random and damaged calls, each answer of the unit compared with the expected one.

use compare::case::{KINDS, UNIT};
use compare::fuzz::{Fuzz, Tally};
use std::ops::Range;
use std::process::ExitCode;
use std::time::{Duration, Instant, SystemTime, UNIX_EPOCH};

const USAGE: &str = "\
fuzz [--seed N] [--seconds S | --cases N | --case N]

Puts random and damaged calls to the unit and compares status, attempts and every byte with what is expected.

    --seed N      the cases of this seed; else a seed from the clock, which is printed
    --seconds S   for so long (60)
    --cases N     so many cases
    --case N      this case alone

Status: 0 all alike, 1 a difference (the last line says how to put the case again), 2 bad usage.";

/// The seed, the numbers of the cases, and when to stop.
struct Options {
    seed: u64,
    cases: Range<u64>,
    time: Duration,
}

/// The options, or nothing where help is asked for.
fn options(arguments: &[String]) -> Result<Option<Options>, String> {
    let clock = SystemTime::now().duration_since(UNIX_EPOCH).map_or(0, |time| time.as_nanos() as u64);
    let mut options = Options { seed: clock, cases: 0..u64::MAX, time: Duration::from_secs(60) };
    let (mut seeded, mut ended) = (false, false);
    let mut arguments = arguments.iter();
    while let Some(name) = arguments.next() {
        if name == "--help" {
            return Ok(None);
        }
        let once = match name.as_str() {
            "--seed" => &mut seeded,
            "--seconds" | "--cases" | "--case" => &mut ended,
            _ => return Err(format!("{name}: no such option")),
        };
        let number = arguments.next().and_then(|value| value.parse::<u64>().ok()).ok_or(format!("{name} needs a number"))?;
        if std::mem::replace(once, true) {
            return Err(format!("{name}: one seed, and one of --seconds, --cases and --case"));
        }
        match name.as_str() {
            "--seed" => options.seed = number,
            "--seconds" => options.time = Duration::from_secs(number),
            "--cases" => (options.cases, options.time) = (0..number, Duration::MAX),
            _ => (options.cases, options.time) = (number..number.saturating_add(1), Duration::MAX),
        }
    }
    Ok(Some(options))
}

/// Puts the cases until the time is up, with a word on the way once a second; else the case that differs, and how.
fn run(options: &Options, tally: &mut Tally) -> Result<(), (u64, String)> {
    let fuzz = Fuzz::new(options.seed);
    let (start, mut said) = (Instant::now(), 0);
    for number in options.cases.clone() {
        let time = start.elapsed();
        if time >= options.time {
            break;
        }
        if time.as_secs() > said {
            said = time.as_secs();
            eprintln!("{said} s, {} cases", number - options.cases.start);
        }
        fuzz.put(number, &UNIT, tally).map_err(|difference| (number, difference))?;
    }
    Ok(())
}

/// How often each call gave each status.
fn print_table(tally: &Tally) {
    let statuses = 0..=20;
    print!("{:<22}", "status");
    statuses.clone().for_each(|status| print!("{status:>7}"));
    println!();
    for kind in KINDS {
        print!("{:<22}", format!("{kind:?}"));
        for status in statuses.clone() {
            let count: u64 = tally.range((kind, status, 0)..=(kind, status, u32::MAX)).map(|(_, count)| count).sum();
            if count == 0 { print!("{:>7}", "-") } else { print!("{count:>7}") }
        }
        println!();
    }
    println!("{} cases", tally.values().sum::<u64>());
}

fn main() -> ExitCode {
    let arguments: Vec<String> = std::env::args().skip(1).collect();
    let options = match options(&arguments) {
        Ok(Some(options)) => options,
        Ok(None) => {
            println!("{USAGE}");
            return ExitCode::SUCCESS;
        }
        Err(fault) => {
            eprintln!("{fault}\n\n{USAGE}");
            return ExitCode::from(2);
        }
    };
    println!("seed {}", options.seed);
    let mut tally = Tally::new();
    let end = run(&options, &mut tally);
    print_table(&tally);
    match end {
        Ok(()) => {
            println!("all alike");
            ExitCode::SUCCESS
        }
        Err((number, difference)) => {
            println!("DIFFERENT: {difference}");
            println!("again: fuzz --seed {} --case {number}", options.seed);
            ExitCode::FAILURE
        }
    }
}
