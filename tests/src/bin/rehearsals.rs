//! `rehearsals PROGRAM COUNT [SEED]`: runs PROGRAM and the second program on COUNT generated schedules and ends
//! with 1 where their outputs differ.

use comparisons::programs::Program;
use comparisons::rehearsals::{compare, shrink};
use std::env;
use std::io;
use std::path::Path;
use std::process::ExitCode;

const SEED: u64 = 1;

fn main() -> ExitCode {
    let words: Vec<String> = env::args().skip(1).collect();
    let seed = words.get(2).map_or(Ok(SEED), |seed| seed.parse());
    let asked = match words.as_slice() {
        [program, count] | [program, count, _] => count.parse().ok().zip(seed.ok()).map(|(count, seed)| (program, count, seed)),
        _ => None,
    };
    let Some((program, count, seed)) = asked else {
        eprintln!("usage: rehearsals PROGRAM COUNT [SEED]");
        return ExitCode::from(2);
    };
    rehearsals(Path::new(program), count, seed).unwrap_or_else(|error| {
        eprintln!("{program}: {error}");
        ExitCode::from(2)
    })
}

fn rehearsals(path: &Path, count: usize, seed: u64) -> io::Result<ExitCode> {
    let program = Program::new(path)?;
    let mut tally = compare(&program, seed, count, false)?;
    let smallest = tally.smallest.take();
    if let Some(difference) = &smallest {
        println!("{difference}");
    }
    println!("{tally}");
    let Some(difference) = smallest else {
        return Ok(ExitCode::SUCCESS);
    };
    let length = difference.input.len();
    let shrunk = shrink(&program, difference)?;
    if shrunk.input.len() < length {
        println!("and made smaller, {shrunk}");
    }
    Ok(ExitCode::FAILURE)
}
