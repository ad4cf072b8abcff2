//! The original Rust as the judge of decoding: its files built unmodified over stand-ins (`standins.rs`), and what it
//! answers for a phrase record, as document 01's result words.

extern crate self as tonekit_core;
extern crate self as tonekit_pack;
extern crate self as tonekit_segment;
extern crate self as tonekit_shape;

pub mod arguments;
pub mod bad;
pub mod brute;
pub mod calls;
pub mod damage;
pub mod distance;
pub mod entry;
pub mod every;
pub mod exact;
pub mod figure;
pub mod generate;
pub mod hard;
pub mod listing;
pub mod maker;
pub mod most_units;
pub mod ours;
pub mod parts;
pub mod phrase;
pub mod random;
pub mod rates;
pub mod reference;
pub mod refusal;
pub mod replay;
pub mod search;
pub mod stage;
mod standins;
pub mod tally;
pub mod track;
pub mod walks;
pub mod wanted;
pub mod whole;

pub use joins::{Joins, JOIN_TRIM_FRAMES};
pub use standins::*;

include!(concat!(env!("OUT_DIR"), "/original.rs"));
