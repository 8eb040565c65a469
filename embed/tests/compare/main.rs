//! The proved code against the model, word for word: pools that are grown, laid by hand, damaged or rubbish, every call, and
//! slices of every length.

#[path = "../model/mod.rs"]
mod model;
#[path = "../support/mod.rs"]
mod support;

mod boundary;
mod carried;
mod damaged;
mod edges;
mod grown;
mod sums;
mod tall;
