//! Random traces that aim: each profile brings the UART to a kind of edge and asks around it.
mod dates;
mod every_cycle;
mod figures;
mod fills;
mod generator;
mod numbers;
mod odd_lines;
mod profiles;
mod random;
mod registers;
mod rows;
mod steps;

pub use generator::Generator;
pub use profiles::{PROFILES, Profile, named};
