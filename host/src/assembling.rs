//! The assembly: cases, and what has to be answered.

pub mod case;
pub mod checking;
pub mod examples;
pub mod links;
pub mod model;
pub mod oracle;
pub mod sets;
pub mod shorter;
pub mod texts;
pub mod timed;
pub mod underscored;
