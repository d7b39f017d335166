//! Each call on both programs: the two answers are held against each other, whole, before a contest of them is handed out.
pub mod hall;
pub mod log;
pub mod node;
pub mod wire;

/// An input or an output for as long as the program runs, so that contests can share it and be timed again and again.
pub fn for_good<T>(value: T) -> &'static mut T {
    Box::leak(Box::new(value))
}
