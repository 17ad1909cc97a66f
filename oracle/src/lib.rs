//! An independent model of the PCI dual-port memory card, written from document 01 and the requests
//! of document 02 alone. Its answers are compared with those of the proved definitions and programs.

pub mod access;
pub mod arbitrary;
pub mod bays;
pub mod bursts;
pub mod call;
pub mod card;
pub mod convert;
mod decimal;
pub mod dma;
mod drive;
pub mod dword;
mod input;
pub mod interrupts;
pub mod list;
pub mod pins;
mod programs;
pub mod refusal;
pub mod registers;
pub mod replay;
pub mod rescue;
pub mod rng;
mod seeds;
pub mod settings;
pub mod source;
pub mod stored;
pub mod trace;
pub mod transfer;
mod vectors;
pub mod why;
pub mod world;

pub use drive::calls::{narrow_bus, zero_in_registers};
pub use programs::{long_list, long_trace, FEWEST_RECORDS};
