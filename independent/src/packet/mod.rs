//! Packets: the fixed table of elements, the reader it drives, and the writers.

pub mod read;
pub mod table;
pub mod write;

pub use read::{
    check_prefix, read, read_watched, Data, HopLimit, Interest, Meaning, Packet, Refusal, Verdict,
};
pub use write::{data_as_it_leaves, interest_as_it_leaves, write_nack, Asked};
