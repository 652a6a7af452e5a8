//! Calls every proved function and its plain counterpart on the same inputs, and fails where they differ.
#![forbid(unsafe_code)]

use std::process::exit;
use std::time::{Duration, Instant};

use against::kinds::KINDS;
use against::random::Random;
use against::run::{Kind, Run};

const USAGE: &str = "usage: differential [--seed N] [--seconds N] [--only NAME] [--part K/N]
  --seed N      the seed of the made-up cases (1 if not given)
  --seconds N   how long made-up cases are tried behind the fixed ones (90 if not given; 0: without end)
  --only NAME   only the function of this name, as gcf_read
  --part K/N    only every N-th function, from the K-th on: N runs, side by side, try them all";

/// Answers of more kinds than this are counted, not listed.
const LISTED_MOST: usize = 24;

/// What the command line asks for.
struct Options {
    seed: u64,
    seconds: u64,
    only: Option<String>,
    part: (usize, usize),
}

fn main() {
    let options = match options(&mut std::env::args().skip(1)) {
        Some(options) => options,
        None => {
            eprintln!("{USAGE}");
            exit(2);
        }
    };
    let wanted = |kind: &&Kind| options.only.as_ref().map_or(true, |only| only == kind.name);
    let (first, step) = options.part;
    let kinds: Vec<&Kind> = KINDS.iter().skip(first - 1).step_by(step).filter(wanted).collect();
    if kinds.is_empty() {
        eprintln!("{USAGE}");
        exit(2);
    }
    let mut runs: Vec<Run> = kinds.iter().map(|kind| Run::new(kind.name)).collect();
    try_fixed(&kinds, &mut runs);
    try_random(&kinds, &mut runs, &options);
    if !report(&kinds, &mut runs) {
        exit(1);
    }
}

/// Reads the command line; none if it is not understood.
fn options(words: &mut dyn Iterator<Item = String>) -> Option<Options> {
    let mut options = Options { seed: 1, seconds: 90, only: None, part: (1, 1) };
    while let Some(word) = words.next() {
        let value = words.next()?;
        match word.as_str() {
            "--seed" => options.seed = value.parse().ok()?,
            "--seconds" => options.seconds = value.parse().ok()?,
            "--only" => options.only = Some(value),
            "--part" => options.part = part(&value)?,
            _ => return None,
        }
    }
    Some(options)
}

/// K and N of `K/N`, where K is 1 to N.
fn part(value: &str) -> Option<(usize, usize)> {
    let (first, step) = value.split_once('/')?;
    let (first, step) = (first.parse().ok()?, step.parse().ok()?);
    (1..=step).contains(&first).then(|| (first, step))
}

/// Tries the fixed cases of every kind.
fn try_fixed(kinds: &[&Kind], runs: &mut [Run]) {
    for (kind, run) in kinds.iter().zip(runs) {
        let begun = Instant::now();
        kind.cases.try_fixed(run);
        println!("{}: {} fixed cases in {:.1} s", kind.name, run.cases, begun.elapsed().as_secs_f64());
        say_failure(run);
    }
}

/// Tries made-up cases of every kind in turn, until the time is over or something differs.
fn try_random(kinds: &[&Kind], runs: &mut [Run], options: &Options) {
    let begun = Instant::now();
    let mut round = 0;
    while runs.iter().all(|run| run.failure.is_none()) {
        if options.seconds > 0 && begun.elapsed() >= Duration::from_secs(options.seconds) {
            break;
        }
        for (index, kind) in kinds.iter().enumerate() {
            let random = &mut Random::new(options.seed, round, index as u64);
            kind.cases.try_random(&mut runs[index], random);
            say_failure(&runs[index]);
        }
        round += 1;
        if options.seconds == 0 && round.is_power_of_two() {
            println!("{round} rounds");
        }
    }
    println!(
        "{round} rounds of made-up cases with seed {} in {:.0} s",
        options.seed,
        begun.elapsed().as_secs_f64()
    );
}

/// Prints what differed.
fn say_failure(run: &Run) {
    if let Some(failure) = &run.failure {
        println!("DIFFERENT: {failure}");
    }
}

/// Prints what was tried and how it ended; tells whether all agreed and no answer was left out.
fn report(kinds: &[&Kind], runs: &mut [Run]) -> bool {
    let mut passed = 0;
    println!("\n{:<22} {:>9}  answer (times)", "function", "cases");
    for (kind, run) in kinds.iter().zip(runs.iter_mut()) {
        let missing: Vec<u64> =
            (kind.answers)().into_iter().filter(|number| !run.seen.contains_key(number)).collect();
        println!("{:<22} {:>9}  {}", kind.name, run.cases, answers(run));
        if !missing.is_empty() && run.failure.is_none() {
            run.fail(format!("answers never seen: {missing:?}"));
            say_failure(run);
        }
        passed += usize::from(run.failure.is_none());
    }
    let cases: u64 = runs.iter().map(|run| run.cases).sum();
    println!("{cases} cases");
    println!("{passed} passed, {} failed", kinds.len() - passed);
    passed == kinds.len()
}

/// The answers seen, each with how often.
fn answers(run: &Run) -> String {
    if run.seen.len() > LISTED_MOST {
        let ends = run.seen.keys().next().zip(run.seen.keys().last());
        return ends.map_or(String::new(), |(low, high)| format!("{} from {low} to {high}", run.seen.len()));
    }
    let counted: Vec<String> = run.seen.iter().map(|(number, times)| format!("{number} ({times})")).collect();
    counted.join(", ")
}
