//! Accesses that drive a card: planned ones, faults and random ones, and what they reach; and lists
//! of calls.

pub mod builder;
pub mod calls;
mod choice;
pub mod coverage;
pub mod faults;
pub mod plans;
pub mod scripts;
pub mod sides;
