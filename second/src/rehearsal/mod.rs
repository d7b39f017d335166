//! The rehearsal: reads a schedule, runs the hall of its nodes and prints what every correct node holds.

pub mod hall;
pub mod print;
pub mod schedule;
pub mod text;

pub use hall::Hall;
pub use schedule::{BadLine, Schedule, Send, MOST_IN_SCHEDULE};

/// What the program prints for this input.
pub fn rehearse(file: &[u8]) -> Vec<u8> {
    match schedule::read(file).and_then(|schedule| run(&schedule)) {
        Ok(hall) => print::outcome(&hall),
        Err(bad) => print::bad(bad),
    }
    .into_bytes()
}

/// Runs all rounds. Sends ascend by round, so the first that breaks the rule on shown votes is found in file order.
fn run(schedule: &Schedule) -> Result<Hall, BadLine> {
    let mut hall = Hall::open(schedule.sizes, &schedule.faulty, &schedule.trays);
    for round in 1..=schedule.sizes.last_round() {
        let sends: Vec<&Send> = schedule.sends.iter().filter(|send| send.round == round).collect();
        if let Some(send) = sends.iter().find(|send| !hall.lawful(&send.message)) {
            return Err(BadLine(send.line));
        }
        hall.step(&sends);
    }
    Ok(hall)
}
