//! A model of document 01 with request Q-1, written without a look at the crates (D-n: docs/DECISIONS.md),
//! and what is needed to hold the programs `listing`, `flight` and `desk` to it. The first four modules are
//! the model.

pub mod kinds;
pub mod log;
pub mod reader;
pub mod rules;

pub mod cases;
pub mod demand3;
pub mod expected;
pub mod forge;
pub mod programs;
pub mod shapes;
pub mod shrink;
pub mod streams;
pub mod walk;
