//! How much stack a call uses, by a painted stack: on a thread of its own the free part of the stack is filled with a pattern, the call is run, and the
//! lowest byte that no longer holds the pattern tells how far down it wrote. A turn that does nothing is measured the same way and taken off, so that what is
//! left is the call's own, its arguments and its answer included.
use crate::timing::{turns, Turns};
use std::hint::black_box;
use std::thread;

const STACK: usize = 1 << 20;
/// What is painted, from a little below the painting function's own frame downwards. The thread's stack ends well below it.
const PAINTED: usize = STACK / 2;
const MARGIN: usize = 1024;
const PATTERN: u8 = 0xa5;

/// Paints below its own frame and answers the lowest place painted. The memory is the thread's own stack: mapped, and used by nobody until a call
/// comes down to it.
#[inline(never)]
fn paint() -> usize {
    let here = 0u8;
    let lowest = black_box(&here) as *const u8 as usize - MARGIN - PAINTED;
    for place in 0..PAINTED {
        unsafe { ((lowest + place) as *mut u8).write_volatile(PATTERN) };
    }
    lowest
}

/// How many of the painted bytes, from the lowest on, still hold the pattern.
#[inline(never)]
fn untouched(lowest: usize) -> usize {
    (0..PAINTED).take_while(|place| unsafe { ((lowest + place) as *const u8).read_volatile() } == PATTERN).count()
}

/// A turn from a frame that reaches below the painting function's margin, so that all of the turn falls on painted bytes.
#[inline(never)]
fn turn_below(turns: &mut Turns) {
    let space = [0u8; 2 * MARGIN];
    black_box(&space);
    turns(1);
    black_box(&space);
}

fn touched(turns: &mut Turns) -> usize {
    thread::scope(|scope| {
        let measure = || {
            let lowest = paint();
            turn_below(turns);
            PAINTED - untouched(lowest)
        };
        let thread = thread::Builder::new().stack_size(STACK).spawn_scoped(scope, measure).expect("a thread");
        thread.join().expect("a turn that ends")
    })
}

/// Bytes of stack that one turn uses.
pub fn high_water(of: &mut Turns) -> usize {
    touched(of).saturating_sub(touched(&mut turns(|| {})))
}
