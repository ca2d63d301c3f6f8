//! The independent program: a Named Data Networking forwarder written from document 01 alone, with
//! the class of each send from request 4 of document 02.
//!
//! Its use is comparison. The same input goes through the product and through this library, and
//! the two texts must be equal line by line.

pub mod answer;
pub mod build;
pub mod facts;
pub mod fingerprint;
pub mod ground;
pub mod ground_gen;
pub mod hex;
pub mod name;
pub mod node;
pub mod packet;
pub mod packet_gen;
pub mod packets;
pub mod prng;
pub mod sizes;
pub mod tape;
pub mod tape_gen;
pub mod tape_number;
pub mod tlv;
pub mod tree;
