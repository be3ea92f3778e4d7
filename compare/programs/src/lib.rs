//! What the programs of the comparison share.
pub mod answers_of;
pub mod traces;
pub mod usage;
