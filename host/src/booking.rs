//! The book: cases, which are those of an assembly, and what has to be answered.

pub mod chains;
pub mod examples;
pub mod model;
pub mod oracle;
pub mod sets;
pub mod texts;
pub mod timed;
