//! Times on a machine that does other things too.
use std::time::{Duration, Instant};

/// What is timed, so many turns of it at a time.
pub type Turns = Box<dyn FnMut(usize) + Send>;

/// The loop stands inside, so that a turn costs no call through a pointer.
pub fn turns(mut turn: impl FnMut() + Send + 'static) -> Turns {
    Box::new(move |many| {
        for _ in 0..many {
            turn();
        }
    })
}

/// Short enough to fall between two interruptions, long enough that reading the clock counts little.
const SLICE: Duration = Duration::from_micros(30);

fn time(turns: &mut Turns, many: usize) -> Duration {
    let start = Instant::now();
    turns(many);
    start.elapsed()
}

/// How many turns make a slice.
pub fn slice_of(turns: &mut Turns) -> usize {
    let mut many = 1;
    while time(turns, many) < SLICE {
        many *= 2;
    }
    many
}

/// Microseconds of one turn of each, if less than the least so far. Slices of all are taken by turns until the time is over: what else the machine does
/// makes a slice longer, never shorter.
pub fn least_micros(all: &mut [Turns], slices: &[usize], least: &mut [f64], over: Duration) {
    let start = Instant::now();
    while start.elapsed() < over {
        for ((turns, &many), least) in all.iter_mut().zip(slices).zip(least.iter_mut()) {
            *least = least.min(time(turns, many).as_secs_f64() * 1e6 / many as f64);
        }
    }
}
