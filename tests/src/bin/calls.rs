//! `calls [--kinds] [TURNS [SEED]]`: compares every call of libhost.a with the same call of the second program, on fixed
//! boundaries and on TURNS turns of generated inputs. Ends with 1 where outcomes differ, and where some refusal of some call
//! was never reached. With --kinds it also counts the kinds of inputs.

use comparisons::calls::run::{quiet_second_program, Run};
use comparisons::calls::{compare, examples, CALLS};
use std::env;
use std::process::ExitCode;

const SEED: u64 = 1;
const TURNS: usize = 20_000;

fn main() -> ExitCode {
    let (flags, words): (Vec<String>, Vec<String>) = env::args().skip(1).partition(|word| word.starts_with("--"));
    let numbers: Option<Vec<u64>> = words.iter().map(|word| word.parse().ok()).collect();
    let with_kinds = flags.iter().any(|flag| flag == "--kinds");
    match numbers.as_deref() {
        Some([]) => calls(TURNS, SEED, with_kinds),
        Some([turns]) => calls(*turns as usize, SEED, with_kinds),
        Some([turns, seed]) => calls(*turns as usize, *seed, with_kinds),
        _ => {
            eprintln!("usage: calls [--kinds] [TURNS [SEED]]");
            ExitCode::from(2)
        }
    }
}

fn calls(turns: usize, seed: u64, with_kinds: bool) -> ExitCode {
    quiet_second_program();
    let mut run = Run::default();
    if let Err(difference) = compare(&mut run, seed, turns) {
        println!("DIFFERENT in {difference}");
        return ExitCode::FAILURE;
    }
    examples::NAMES.iter().for_each(|name| println!("document 01: {name}: both sides"));
    if with_kinds {
        run.tally.kinds.iter().for_each(|((call, kind), count)| println!("{count:>7} {call}: {kind}"));
    }
    println!("{}", run.tally.table(&CALLS));
    let missing = run.tally.never_reached(&CALLS);
    missing.iter().for_each(|(call, number)| println!("NEVER REACHED: {call}, {number}"));
    if missing.is_empty() {
        ExitCode::SUCCESS
    } else {
        ExitCode::FAILURE
    }
}
