//! What the host programs share. Nothing here calls the library, so the
//! stored cases are made without it.

pub mod anchor;
pub mod answer;
pub mod assembling;
pub mod booking;
pub mod comparison;
pub mod exhaustive;
pub mod filling;
pub mod generate;
pub mod headed;
pub mod indexed;
pub mod linked;
pub mod notes;
pub mod oracle;
pub mod outline;
pub mod random;
pub mod refusals;
pub mod regions;
pub mod shrink;
pub mod spaced;
pub mod walking;
