//! The run-only examples of document 01, by name.

use super::logs::{alone, even_log, Close};
use super::run::{Held, Run};
use super::trays::{tray_of, Put};

const ONE: &str = "an old log of 4,095 and one new entry is done";
const TWO: &str = "an old log of 4,095 and two new entries is 8";
const HELD: &str = "a held entry into a full tray is 5";

pub const NAMES: [&str; 3] = [ONE, TWO, HELD];

pub fn compare(run: &mut Run) -> Held {
    let done = run.expect(ONE, 0, &Close { node: alone(&[4095]), old: even_log(4095), room: 4096 })?;
    assert_eq!(done.answer.values, [4096], "{ONE}");
    run.expect(TWO, 8, &Close { node: alone(&[4095, 4097]), old: even_log(4095), room: 4097 })?;
    let full = tray_of(&(1..=16).collect::<Vec<u64>>());
    for entry in 1..=16 {
        run.expect(HELD, 5, &Put { tray: full, entry })?;
    }
    Ok(())
}
