//! Seeded days, written as day indexes, and times for their numbers.
//!
//! The same seed gives the same day on every machine, so that a case can be named by its seed.

#![forbid(unsafe_code)]

mod apart;
#[cfg(test)]
mod deepest;
mod halves;
mod index;
mod lift;
mod nested;
mod seeded;
mod small;
mod times;

pub use apart::apart_day;
pub use halves::halves_day;
pub use index::{is_inside, Day, Label};
pub use lift::lift_day;
pub use nested::nested_day;
pub use seeded::Seeded;
pub use small::{small_day, small_times};
pub use times::{rising, rising_times};
