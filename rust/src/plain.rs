//! The structs of the static library, field by field as crates/ffi, crates/exports, crates/model and crates/queue declare them.
//! `include/wondraxu.h` has them for C. Sizes and offsets of both are held to `c/layout.out`; `tests/fields.rs` looks at the
//! value that each call gives to each field.

/// Slots of the bytes in flight and of their dates.
pub(crate) const FLIGHT: usize = 129;
/// Slots of the bytes that have left.
pub(crate) const LEFT: usize = 1152;
/// Slots of the host bytes that wait.
pub(crate) const HOST: usize = 1024;
/// Slots of the runs that date them.
pub(crate) const RUNS: usize = 64;
/// Slots of the receive FIFO.
pub(crate) const RECEIVED: usize = 128;

#[repr(C)]
#[derive(Clone, Copy, Debug, PartialEq, Eq)]
pub(crate) struct Words {
    pub int_ena: u32,
    pub clkdiv: u32,
    pub conf0: u32,
    pub conf1: u32,
    pub clk_conf: u32,
    pub idle_conf: u32,
    pub rs485_conf: u32,
    pub at_cmd_char: u32,
    pub mem_conf: u32,
}

#[repr(C)]
#[derive(Clone, Copy, Debug, PartialEq, Eq)]
pub(crate) struct RegisterMap {
    pub offsets: [u32; 16],
    pub reset: Words,
    pub idle_status: u32,
    pub mem_rx_status: u32,
}

#[repr(C)]
#[derive(Clone, Copy, Debug, PartialEq, Eq)]
pub(crate) struct Cursor {
    pub start: usize,
    pub count: usize,
}

/// `at` is 0 while `set` is false.
#[repr(C)]
#[derive(Clone, Copy, Debug, PartialEq, Eq)]
pub(crate) struct PlainDate {
    pub set: bool,
    pub at: u64,
}

/// All of a UART but the slots of its queues.
#[repr(C)]
#[derive(Clone, Copy, Debug, PartialEq, Eq)]
pub(crate) struct PlainCore {
    pub map: RegisterMap,
    pub words: Words,
    pub int_raw: u32,
    pub rx_mistimed: u32,
    pub idle_since: PlainDate,
    pub line_free_at: u64,
    pub period: u64,
    pub last: u64,
    pub wake: PlainDate,
    pub powered_down_at: PlainDate,
    pub timed_on: u32,
    pub on_the_line: bool,
    pub heard: bool,
    pub watched: bool,
    pub level: bool,
    pub flight: Cursor,
    pub tx: Cursor,
    pub host: Cursor,
    pub runs: Cursor,
    pub rx: Cursor,
    pub byte: u8,
}

#[repr(C)]
#[derive(Clone, Copy, Debug, PartialEq, Eq)]
pub(crate) struct PlainReply {
    pub number: u32,
    pub holds: bool,
    pub value: u64,
}

#[repr(C)]
#[derive(Clone, Copy, Debug, PartialEq, Eq)]
pub(crate) struct PlainRow {
    pub number: u32,
    pub made: u64,
    pub first: u64,
    pub second: u64,
}

#[repr(C)]
#[derive(Clone, Copy, Debug, PartialEq, Eq)]
pub(crate) struct PlainNotice {
    pub what: u32,
    pub which: u32,
}

#[repr(C)]
#[derive(Clone, Copy, Debug, PartialEq, Eq)]
pub(crate) struct PlainReport {
    pub level: bool,
    pub wake: PlainDate,
    pub overflows: u64,
    pub passes: u64,
    pub noted: usize,
    pub notices: [PlainNotice; 8],
}

#[repr(C)]
#[derive(Clone, Copy)]
pub(crate) struct PlainAnswer {
    pub core: PlainCore,
    pub reply: PlainReply,
    pub report: PlainReport,
}

#[repr(C)]
#[derive(Clone, Copy)]
pub(crate) struct PlainRowAnswer {
    pub core: PlainCore,
    pub reply: PlainRow,
    pub report: PlainReport,
}

/// `at` is 0 while `placed` is false; of a refusal all but the number is 0.
#[repr(C)]
#[derive(Clone, Copy, Debug, PartialEq, Eq)]
pub(crate) struct PlainFigures {
    pub number: u32,
    pub placed: bool,
    pub busy: u64,
    pub shortest: u64,
    pub longest: u64,
    pub quiet: u64,
    pub at: u64,
    pub mean: u64,
    pub remainder: u64,
}

#[repr(C)]
#[derive(Clone, Copy)]
pub(crate) struct Sixteen {
    pub words: [u32; 16],
}

#[repr(C)]
#[derive(Clone, Copy)]
pub(crate) struct PlainNew {
    pub core: PlainCore,
    pub reply: PlainReply,
}

/// The slots of the queues, which the calls are lent.
#[repr(C)]
#[derive(Clone, PartialEq, Eq)]
pub(crate) struct Slots {
    pub gone_at: [u64; FLIGHT],
    pub flight: [u8; FLIGHT],
    pub tx: [u8; LEFT],
    pub host: [u8; HOST],
    pub run_at: [u64; RUNS],
    pub run_len: [u64; RUNS],
    pub rx: [u8; RECEIVED],
}

impl Slots {
    /// What stands in the slots of an empty queue is free.
    pub const EMPTY: Slots = Slots {
        gone_at: [0; FLIGHT],
        flight: [0; FLIGHT],
        tx: [0; LEFT],
        host: [0; HOST],
        run_at: [0; RUNS],
        run_len: [0; RUNS],
        rx: [0; RECEIVED],
    };
}
