//! The proved calls timed against the second program, the step also against a plain loop: one run, same inputs, answers held against each other first.
//! `bench PLOT` prints the figures as markdown and draws the growth into the file PLOT.
mod calls;
mod contest;
mod growth;
mod hall;
mod inputs;
mod plain;
mod plot;
mod report;
mod rows;
mod stack;
mod timing;

use contest::time_all;
use std::process::ExitCode;
use std::time::Duration;

fn main() -> ExitCode {
    let Some(file) = std::env::args_os().nth(1) else {
        eprintln!("bench: name the file for the plot");
        return ExitCode::FAILURE;
    };
    let (mut rows, mut growths) = (rows::all(), growth::all());
    time_all(rows.iter_mut().map(|row| &mut row.contest), 6, Duration::from_millis(200));
    let points = growths.iter_mut().flat_map(|growth| &mut growth.points);
    time_all(points.map(|point| &mut point.contest), 6, Duration::from_millis(60));
    print!("{}", report::markdown(&rows, &growths));
    match std::fs::write(&file, plot::svg(&growths)) {
        Ok(()) => ExitCode::SUCCESS,
        Err(error) => {
            eprintln!("bench: {}: {error}", file.display());
            ExitCode::FAILURE
        }
    }
}
