//! The original's map and its allocator, unchanged, with their own warnings and their own format.
#![allow(warnings)]

#[rustfmt::skip]
#[path = "../../../shared/docs/src/src/critbit.rs"]
pub mod critbit;

#[rustfmt::skip]
#[path = "../../../shared/docs/src/src/node_allocator.rs"]
pub mod node_allocator;
