//! A stand-in for inkemu's `cpu_rv32`: the exception that diag.rs names. A UART raises none.
use std::fmt;

/// A CPU exception by its code.
#[derive(Clone, Copy, Debug, PartialEq, Eq)]
pub struct Exception(pub u32);

impl Exception {
    #[must_use]
    pub const fn code(self) -> u32 {
        self.0
    }
}

impl fmt::Display for Exception {
    fn fmt(&self, f: &mut fmt::Formatter<'_>) -> fmt::Result {
        write!(f, "exception {}", self.0)
    }
}
