//! The node's rules one by one: a module for each group of document 01's rules, and one for the
//! class of each send.

#[path = "../common/mod.rs"]
mod common;

mod ageing;
mod answers;
mod classes;
mod data;
mod faces;
mod interest;
mod loops;
mod nack;
mod routes;
mod send_classes;
mod store;
