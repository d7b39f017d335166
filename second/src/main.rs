//! The rehearsal program: a schedule on standard input, what the nodes hold on standard output.

use second::rehearsal::{rehearse, MOST_IN_SCHEDULE};
use std::io::{self, Read, Write};
use std::process::ExitCode;

fn main() -> ExitCode {
    let mut schedule = Vec::new();
    // One byte more than a schedule may have tells that it is too long. What came before a read error counts.
    let _ = io::stdin().lock().take(MOST_IN_SCHEDULE as u64 + 1).read_to_end(&mut schedule);
    match io::stdout().lock().write_all(&rehearse(&schedule)) {
        Ok(()) => ExitCode::SUCCESS,
        Err(_) => ExitCode::FAILURE,
    }
}
