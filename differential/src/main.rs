//! Compares the static library with the reference: `differential SEED CASES [FIRST]`. Every case is drawn from the seed and its own
//! number, so a case that differs can be repeated alone by naming it as FIRST with 1 as CASES.
//!
//! `differential --self SEED CASES` runs the reference against itself, to see what the cases reach; `differential --mistakes SEED
//! CASES` runs implementations with one mistake each, and laws that demand too much, to see that every mistake is found.
#![deny(unsafe_code)]

#[cfg(feature = "library")]
#[allow(unsafe_code)]
mod calls;
mod cases;
mod codes;
mod damage;
mod digit_damage;
mod division;
mod draft;
mod further;
mod interface;
mod kinds;
mod leaf_damage;
mod lifts;
mod looks;
mod mirrors;
mod model;
mod needles;
mod orders;
mod pairs;
mod pool;
mod random;
mod search;
mod systems;
mod tally;
mod wrong;

use std::env;
use std::process::ExitCode;
use std::time::Instant;

use interface::Calls;
use pool::Pool;
use random::Random;
use tally::Comparison;

/// A run ends at the first few differences.
const ENOUGH_DIFFERENCES: usize = 3;

/// What the arguments ask for.
struct Request {
    mode: Mode,
    seed: u64,
    cases: u64,
    first: u64,
}

#[derive(Clone, Copy, PartialEq)]
enum Mode {
    Library,
    Itself,
    Mistakes,
}

fn main() -> ExitCode {
    let Some(request) = read_arguments() else {
        eprintln!("usage: differential [--self | --mistakes] SEED CASES [FIRST]");
        return ExitCode::from(2);
    };
    let pool = Pool::new(request.seed);
    let (bases, depths) = (pool.bases(), pool.depths());
    let [two, three, four] = pool.tables.degrees.each_ref().map(Vec::len);
    println!(
        "seed {}; {two}, {three} and {four} tables of degree 2, 3 and 4 for {bases} bases, by depth 1 to 8: {depths:?}",
        request.seed
    );
    let (single, itself) = (pool.single_pairs.count(), pool.self_pairs.count());
    println!("tables with one refused pair: {single}, with a leaf and itself: {itself}");
    let [two, three, four] = pool.mirrored.degrees.each_ref().map(Vec::len);
    println!("mirrored tables of degree 2, 3 and 4: {two}, {three} and {four}");
    let good = match request.mode {
        Mode::Library => library_run(&pool, &request),
        Mode::Itself => run(&pool, &request, &model::Model),
        Mode::Mistakes => find_mistakes(&pool, &request),
    };
    if good {
        ExitCode::SUCCESS
    } else {
        ExitCode::FAILURE
    }
}

fn read_arguments() -> Option<Request> {
    let mut words: Vec<String> = env::args().skip(1).collect();
    let mode = match words.first()?.as_str() {
        "--self" => Mode::Itself,
        "--mistakes" => Mode::Mistakes,
        _ => Mode::Library,
    };
    if mode != Mode::Library {
        words.remove(0);
    }
    let numbers: Result<Vec<u64>, _> = words.iter().map(|word| word.parse()).collect();
    match numbers.ok()?[..] {
        [seed, cases] => Some(Request {
            mode,
            seed,
            cases,
            first: 0,
        }),
        [seed, cases, first] => Some(Request {
            mode,
            seed,
            cases,
            first,
        }),
        _ => None,
    }
}

#[cfg(feature = "library")]
fn library_run(pool: &Pool, request: &Request) -> bool {
    run(pool, request, &calls::Library)
}

#[cfg(not(feature = "library"))]
fn library_run(_: &Pool, _: &Request) -> bool {
    eprintln!("built without the library: use --self or --mistakes");
    false
}

/// Runs the cases against an implementation and prints what was tried; true if nothing differed.
fn run(pool: &Pool, request: &Request, subject: &dyn Calls) -> bool {
    let start = Instant::now();
    let mut comparison = Comparison::new(subject);
    let mut done = 0;
    while done < request.cases && comparison.differences.len() < ENOUGH_DIFFERENCES {
        run_case(pool, request, done, &mut comparison);
        done += 1;
        if done % 100_000 == 0 {
            eprintln!("{done} cases so far, {} s", start.elapsed().as_secs());
        }
    }
    comparison.print();
    for difference in &comparison.differences {
        println!("{difference}");
    }
    let (calls, differences) = (comparison.calls(), comparison.differences.len());
    let seconds = start.elapsed().as_secs();
    println!("{done} cases, {calls} calls compared, {differences} differences, {seconds} s");
    differences == 0
}

fn run_case(pool: &Pool, request: &Request, done: u64, comparison: &mut Comparison) {
    comparison.case = request.first + done;
    let mut random = Random::of_case(request.seed, comparison.case);
    cases::run(pool, comparison, &mut random);
}

/// Runs every mistake until it is found, one that a law speaks of until the law alone finds it; true if all are.
fn find_mistakes(pool: &Pool, request: &Request) -> bool {
    let mut missed = 0;
    for mistake in wrong::mistakes() {
        let subject = wrong::Wrong::new(mistake);
        let mut comparison = Comparison::new(&subject);
        comparison.orders = mistake.law_of_orders();
        let found = |comparison: &Comparison| match mistake.breaks_a_law() {
            true => comparison.broken_laws > 0,
            false => !comparison.differences.is_empty(),
        };
        let mut done = 0;
        while done < request.cases && !found(&comparison) {
            run_case(pool, request, done, &mut comparison);
            done += 1;
        }
        if !found(&comparison) {
            missed += 1;
            println!("{mistake:?}: missed in {done} cases");
        } else {
            println!("{mistake:?}: found in case {}", comparison.case);
        }
    }
    println!("{missed} mistakes missed");
    missed == 0
}
