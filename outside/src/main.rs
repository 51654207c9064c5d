//! Compares the library with a program that was written from the documents alone, on files of both models made from a seed.

mod buffers;
mod cases;
mod check;
mod compare;
mod damage;
mod files;
mod heads;
mod meter;
mod notes;
mod random;
mod reading;
mod sheet;
mod slim;
mod tally;
#[cfg(test)]
mod tests;
mod texts;
mod title;

use compare::{compare_file, Difference};
use random::own_seed;
use std::panic::{catch_unwind, AssertUnwindSafe};
use std::process::ExitCode;
use std::sync::atomic::{AtomicBool, AtomicU64, Ordering};
use std::time::{Instant, SystemTime, UNIX_EPOCH};
use tally::Tally;

const USAGE: &str = "usage: compare [--files N] [--seed S] [--exact]";

#[derive(Clone, Copy)]
struct Options {
    files: u64,
    seed: u64,
    exact: bool,
}

fn options() -> Option<Options> {
    let clock = SystemTime::now().duration_since(UNIX_EPOCH).map_or(0, |time| time.as_nanos() as u64);
    let mut options = Options { files: 1_000_000, seed: clock, exact: false };
    let mut arguments = std::env::args().skip(1);
    while let Some(argument) = arguments.next() {
        match argument.as_str() {
            "--files" => options.files = arguments.next()?.parse().ok()?,
            "--seed" => options.seed = arguments.next()?.parse().ok()?,
            "--exact" => options.exact = true,
            _ => return None,
        }
    }
    Some(options)
}

/// The indices that a thread takes at once.
const PORTION: u64 = 500;

/// What the threads share.
#[derive(Default)]
struct Shared {
    next: AtomicU64,
    stop: AtomicBool,
}

/// A difference and the index of its file.
type Found = (u64, Difference);

/// Takes portion after portion until there are none left or a difference shows.
fn work(options: Options, shared: &Shared) -> (Tally, Option<Found>) {
    let mut tally = Tally::default();
    while !shared.stop.load(Ordering::Relaxed) {
        let first = shared.next.fetch_add(PORTION, Ordering::Relaxed);
        if first >= options.files {
            break;
        }
        for index in first..options.files.min(first + PORTION) {
            if let Err(difference) = one(options, index, &mut tally) {
                shared.stop.store(true, Ordering::Relaxed);
                return (tally, Some((index, difference)));
            }
        }
    }
    (tally, None)
}

/// One file; a panic counts as a difference.
fn one(options: Options, index: u64, tally: &mut Tally) -> Result<(), Difference> {
    let run = || compare_file(own_seed(options.seed, index), options.exact, tally);
    catch_unwind(AssertUnwindSafe(run)).unwrap_or_else(|_| {
        let what = "stopped by a panic, see above".to_string();
        Err(Difference { call: "compare", what, file: None })
    })
}

fn report(seed: u64, (index, difference): &Found) {
    println!("DIFFERENCE at file {index} of seed {seed} (own seed {})", own_seed(seed, *index));
    println!("call {}: {}", difference.call, difference.what);
    let Some(file) = &difference.file else {
        return;
    };
    let words: Vec<String> =
        file.chunks(2).take(200).map(|pair| pair.iter().rev().map(|byte| format!("{byte:02X}")).collect()).collect();
    println!("{} bytes, the first words: {}", file.len(), words.join(" "));
    let path = format!("difference-{index}.svn");
    match std::fs::write(&path, file) {
        Ok(()) => println!("the file is in {path}"),
        Err(error) => println!("{path} could not be written: {error}"),
    }
}

/// Runs all threads; answers the figures and the first difference. Portions are taken in order and a thread ends the one it has, so
/// that this is the first of the whole run.
fn run(options: Options) -> (Tally, Option<Found>) {
    let threads = std::thread::available_parallelism().map_or(1, usize::from);
    let shared = Shared::default();
    let mut tally = Tally::default();
    let mut found = Vec::new();
    std::thread::scope(|scope| {
        let workers: Vec<_> = (0..threads).map(|_| scope.spawn(|| work(options, &shared))).collect();
        for worker in workers {
            let (part, difference) = worker.join().expect("a thread ends");
            tally.add(part);
            found.extend(difference);
        }
    });
    (tally, found.into_iter().min_by_key(|(index, _)| *index))
}

fn main() -> ExitCode {
    let Some(options) = options() else {
        eprintln!("{USAGE}");
        return ExitCode::from(2);
    };
    println!("seed {}", options.seed);
    let start = Instant::now();
    let (tally, found) = run(options);
    if let Some(found) = found {
        report(options.seed, &found);
        return ExitCode::FAILURE;
    }
    tally.print(start.elapsed().as_secs_f64());
    // A run that did not meet a rule says nothing about it.
    let missing = if options.files >= 100_000 { tally.missing() } else { Vec::new() };
    if !missing.is_empty() {
        tally.print_faults();
        missing.iter().for_each(|name| println!("NOT MET: {name}"));
        return ExitCode::FAILURE;
    }
    println!("no difference");
    ExitCode::SUCCESS
}
