//! `slips [--table] [COUNT] [NAME ..]`: plants each slip of second/slips (or those named) in a copy of second/ and holds the
//! slipped program against libhost.a call by call and against the unslipped program on up to COUNT schedules. Ends with 1
//! where a slip is not found by the comparison that has to find it. With --table it prints docs/SLIPS.md.

use comparisons::programs::Program;
use comparisons::rehearsals::compare;
use comparisons::slips::{Comparison, Copies, Slip};
use std::env;
use std::io;
use std::path::Path;
use std::process::{Command, ExitCode};

const SEED: u64 = 1;
const COUNT: usize = 20_000;
/// Turns of the call comparisons, far fewer than the gate's.
const TURNS: &str = "1000";

/// Where a slip shows first, in each comparison that was run on it.
#[derive(Default)]
struct Found {
    calls: Option<String>,
    rehearsals: Option<String>,
}

fn main() -> ExitCode {
    let (flags, words): (Vec<String>, Vec<String>) = env::args().skip(1).partition(|word| word.starts_with("--"));
    let (counts, names): (Vec<String>, Vec<String>) = words.into_iter().partition(|word| word.parse::<usize>().is_ok());
    let count = counts.first().and_then(|count| count.parse().ok()).unwrap_or(COUNT);
    let copies = Copies::of(&Path::new(env!("CARGO_MANIFEST_DIR")).join(".."));
    match find_all(&copies, &names, count, flags.iter().any(|flag| flag == "--table")) {
        Ok(0) => ExitCode::SUCCESS,
        Ok(_) => ExitCode::FAILURE,
        Err(error) => {
            eprintln!("{error}");
            ExitCode::from(2)
        }
    }
}

/// How many slips were not found.
fn find_all(copies: &Copies, names: &[String], count: usize, as_table: bool) -> io::Result<usize> {
    let slips = copies.slips()?;
    let asked: Vec<&Slip> = slips.iter().filter(|slip| names.is_empty() || names.contains(&slip.name)).collect();
    let (mut missed, mut by_calls) = (0, 0);
    let mut rows = Vec::new();
    for slip in &asked {
        copies.build(slip)?;
        let found = find(copies, slip, count)?;
        let has_to = match slip.found_by {
            Comparison::Calls => &found.calls,
            Comparison::Rehearsals => &found.rehearsals,
        };
        missed += usize::from(has_to.is_none());
        by_calls += usize::from(found.calls.is_some());
        eprintln!("{}: {}", slip.name, has_to.as_deref().unwrap_or("NOT FOUND"));
        rows.push(row(slip, &found));
    }
    if as_table {
        let table = format!("{}\n{}", HEAD.trim_start(), rows.join("\n"));
        println!("{table}\n\n{} slips, {by_calls} of them found against `libhost.a`, {missed} not found.", asked.len());
    }
    eprintln!("{} slips: {} found, {missed} not found", asked.len(), asked.len() - missed);
    Ok(missed)
}

/// The call comparisons where a call can show the slip, the rehearsals where they have to.
fn find(copies: &Copies, slip: &Slip, count: usize) -> io::Result<Found> {
    let mut found = Found::default();
    if slip.concerns_calls() {
        found.calls = called(&copies.program("calls"))?;
    }
    if slip.found_by == Comparison::Rehearsals {
        let tally = compare(&Program::new(&copies.program("second"))?, SEED, count, true)?;
        found.rehearsals = tally.smallest.map(|difference| format!("schedule {}: {}", difference.index, difference.kind));
    }
    Ok(found)
}

/// The first call that shows the slip.
fn called(program: &Path) -> io::Result<Option<String>> {
    let output = Command::new(program).args([TURNS, &SEED.to_string()]).output()?;
    let text = String::from_utf8_lossy(&output.stdout);
    let first = text.lines().find_map(|line| line.strip_prefix("DIFFERENT in "));
    match first {
        None if !output.status.success() => {
            Err(io::Error::other(format!("{}: it ended without a difference", program.display())))
        }
        _ => Ok(first.map(unnumbered)),
    }
}

/// Without the comparison's number, which moves with every comparison that is added before it.
fn unnumbered(difference: &str) -> String {
    match difference.split_once(": comparison ") {
        Some((call, rest)) => format!("{call}: {}", rest.trim_start_matches(|c: char| c.is_ascii_digit() || c == ' ')),
        None => difference.to_string(),
    }
}

fn row(slip: &Slip, found: &Found) -> String {
    let cell = |words: &Option<String>| words.clone().unwrap_or_default();
    format!("| {} | {} | {} | {} |", slip.name, slip.wrong, cell(&found.calls), cell(&found.rehearsals))
}

const HEAD: &str = "
# Slips, and what finds each

Each slip of `second/slips` is a small wrong edit of the second program. `tests/slips` plants them one by one in a copy of it and builds
the copy. The third column is the first comparison with `libhost.a` that differs, in the order in which `tests/run` makes them (seed 1,
the first 1,000 turns). The fourth is the first generated schedule (seed 1, up to 20,000) on which the slipped program and the unslipped
second program print different bytes: the proved rehearsal has no part in that column. What the gate's comparison of the proved rehearsal
with the second program would find follows from it only where these two agree on that schedule.

An empty cell says that the comparison was not run on that slip: no call is run where the edit is in the rehearsal alone, no schedule
where the slip's file names the calls. This page is what `tests/slips --table` printed.

| slip | what is wrong | call comparison that finds it | schedule that finds it |
|---|---|---|---|";
