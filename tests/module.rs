//! The module for Rust, with nothing of it used.

#[path = "../include/nnef.rs"]
mod nnef;

fn main() {}
