//! What the calls with a walk share: file sets, limits, what has to be answered,
//! and the comparison.

pub mod comparing;
pub mod expected;
pub mod lent;
pub mod limits;
pub mod lines;
pub mod links;
pub mod naming;
pub mod null;
pub mod reading;
pub mod set;
pub mod shorter;
pub mod source;
pub mod steps;
