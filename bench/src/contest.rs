//! The same work by each program, to be timed side by side.
use crate::stack::high_water;
use crate::timing::{least_micros, slice_of, turns, Turns};
use std::time::Duration;

/// The proved program first, then the second one, then the plain loop where there is one.
pub struct Contest {
    pub name: String,
    all: Vec<Turns>,
    /// How many turns of each make a slice.
    slices: Vec<usize>,
    /// Microseconds of a turn of each, the least seen so far.
    least: Vec<f64>,
}

impl Contest {
    /// The two have been held against each other by whoever hands them in.
    pub fn new(name: impl Into<String>, proved: impl FnMut() + Send + 'static, second: impl FnMut() + Send + 'static) -> Contest {
        let contest = Contest { name: name.into(), all: Vec::new(), slices: Vec::new(), least: Vec::new() };
        contest.and(proved).and(second)
    }

    pub fn and(mut self, turn: impl FnMut() + Send + 'static) -> Contest {
        let mut its = turns(turn);
        self.slices.push(slice_of(&mut its));
        self.all.push(its);
        self.least.push(f64::MAX);
        self
    }

    /// Times all of them, for so long.
    pub fn time(&mut self, over: Duration) {
        least_micros(&mut self.all, &self.slices, &mut self.least, over);
    }

    pub fn proved(&self) -> f64 {
        self.least[0]
    }

    pub fn second(&self) -> f64 {
        self.least[1]
    }

    pub fn plain(&self) -> Option<f64> {
        self.least.get(2).copied()
    }

    /// Bytes of stack of a turn by the proved program, and by the second one.
    pub fn stacks(&mut self) -> (usize, usize) {
        (high_water(&mut self.all[0]), high_water(&mut self.all[1]))
    }
}

/// Times every contest over and over, a little each time: a while in which the machine is busy then falls on all of them, and none has no other.
pub fn time_all<'a>(contests: impl Iterator<Item = &'a mut Contest>, passes: usize, each: Duration) {
    let mut contests: Vec<&mut Contest> = contests.collect();
    for _ in 0..passes {
        contests.iter_mut().for_each(|contest| contest.time(each));
    }
}
