//! Cuts by the rule of loss: what is promised is kept, wrong orders of events are caught, and the crate's simulated medium
//! follows the same rule.

#[path = "../model/mod.rs"]
mod model;
#[path = "../support/mod.rs"]
mod support;

mod kept;
mod simulated;
mod wrong_orders;
