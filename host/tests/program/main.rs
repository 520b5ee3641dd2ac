//! The program `zibewoka`, run as a process, against the second program.

mod audit;
mod calls;
#[allow(dead_code)] // the other tests use the rest
#[path = "../second/definition.rs"]
mod definition;
mod files;
mod lists;
mod process;
#[allow(dead_code)]
#[path = "../second/random.rs"]
mod random;
mod streams;
mod tables;
