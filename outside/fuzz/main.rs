//! The fuzzer: `fuzz [COUNT [SEED [FIRST]]]` draws COUNT cases (without COUNT it runs without end) and compares all
//! that the engine's C interface gives with the reference, every entry of every table. The examples of documents 01
//! and 02 come first. A difference ends it with a failing status and the words that bring the case up again.

mod bounds;
mod cycles;
mod lent;
mod orders;
mod panels;
mod paper;
mod records;
mod replays;
mod routes;
mod searches;
mod tally;

use outside::maps::{cases, drawings};
use outside::random::Random;
use std::process::ExitCode;
use tally::Tally;

/// From so many cases on, every refusal and all that is noted must have come up.
const ENOUGH_FOR_ALL: u64 = 10_000;

fn main() -> ExitCode {
    let numbers: Result<Vec<u64>, _> = std::env::args().skip(1).map(|word| word.parse()).collect();
    let Ok(numbers) = numbers else {
        eprintln!("usage: fuzz [COUNT [SEED [FIRST]]]");
        return ExitCode::from(2);
    };
    let count = numbers.first().copied();
    let seed = numbers.get(1).copied().unwrap_or(1);
    let first = numbers.get(2).copied().unwrap_or(0);
    match paper::compare() {
        Ok(examples) => println!("{examples} examples of documents 01 and 02: as written there"),
        Err(difference) => {
            println!("documents 01 and 02, {difference}");
            return ExitCode::FAILURE;
        }
    }
    run(seed, first, count)
}

fn run(seed: u64, first: u64, count: Option<u64>) -> ExitCode {
    let mut tally = Tally::default();
    let mut case = first;
    while count.is_none_or(|count| case - first < count) {
        if let Err(difference) = one(seed, case, &mut tally) {
            println!("difference at seed {seed}, case {case}: {difference}\nagain: fuzz 1 {seed} {case}");
            return ExitCode::FAILURE;
        }
        case += 1;
        // An engine that crashes says nothing: the last of these lines tells where to look.
        if case % 10_000 == 0 {
            eprintln!("seed {seed}: {case} cases");
        }
    }
    println!("seed {seed}, {} cases from {first} on: no difference\n{tally}", case - first);
    if tally.withdrawn() > 0 {
        println!("refused 13 came up, which no longer occurs");
        return ExitCode::FAILURE;
    }
    let missing = tally.missing();
    if case - first >= ENOUGH_FOR_ALL && !missing.is_empty() {
        println!("never came up: {}", missing.join(", "));
        return ExitCode::FAILURE;
    }
    ExitCode::SUCCESS
}

fn one(seed: u64, number: u64, tally: &mut Tally) -> Result<(), String> {
    let mut random = Random::for_case(seed, number);
    let case = cases::draw(&mut random);
    tally.kind(case.kind);
    let of_case = |difference| format!("{}: {difference}", case.kind);
    let recorded = searches::compare(&case, &mut random, tally).map_err(of_case)?;
    let route = cases::draw_route(&mut random);
    tally.kind(route.kind);
    routes::compare(&route, &mut random, tally).map_err(|difference| format!("{}: {difference}", route.kind))?;
    records::compare_image(&case.image, &mut random, tally).map_err(of_case)?;
    let drawing = drawings::draw(&mut random);
    tally.kind(drawing.kind);
    let written = records::compare_drawing(&drawing, &mut random, tally)
        .map_err(|difference| format!("{}: {difference}", drawing.kind))?;
    orders::compare(&case.image, written, &mut random, tally).map_err(of_case)?;
    replays::compare(recorded, &mut random, tally)
}
