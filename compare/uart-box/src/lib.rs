//! The published UART, unchanged but for two lines (build/main.rs), over stand-ins for what is missing, and
//! document 01's box over it: the numbers, the answers, the replay format. Beside it the figures of a line, which the
//! Rust lacks.
//! This crate is built with cfg(test): ctx.rs then keeps every notice in order.
mod stand_ins;
pub(crate) use stand_ins::{flash, periph, reset};

// The published files hold much that a UART alone does not use.
#[allow(dead_code, unused_imports, clippy::all)]
mod published {
    include!(concat!(env!("OUT_DIR"), "/published.rs"));
}
pub(crate) use published::{clock, ctx, diag};

pub mod answers;
pub mod calls;
pub mod figures;
pub(crate) mod passes;
pub mod row;
pub mod session;
pub mod the_box;
