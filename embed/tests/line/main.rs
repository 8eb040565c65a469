//! The command line, run as a program on files of its own.

#[path = "../model/mod.rs"]
mod model;
#[path = "../support/mod.rs"]
mod support;

mod commands;
mod desks;
