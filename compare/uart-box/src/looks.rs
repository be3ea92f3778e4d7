//! A child module of the published uart.rs: it sees the private fields, and only reads them.
use super::{Ctx, Uart};

/// What document 01's numbers are decided on, before settling.
pub(crate) struct Counts {
    pub(crate) left: usize,
    pub(crate) in_flight: usize,
    pub(crate) received: usize,
    pub(crate) host: usize,
    pub(crate) runs: usize,
    /// The date of the last waiting run, in subcycles.
    pub(crate) last_run_at: Option<u64>,
}

pub(crate) fn counts(uart: &Uart) -> Counts {
    Counts {
        left: uart.tx.len(),
        in_flight: uart.in_flight.len(),
        received: uart.rx.len(),
        host: uart.host.len(),
        runs: uart.host_runs.len(),
        last_run_at: uart.host_runs.back().map(|&(date, _)| date),
    }
}

/// The wake as it is kept, in cycles.
pub(crate) fn wake(uart: &Uart) -> Option<u64> {
    uart.wake.due().map(|due| due.get())
}

/// The instants to come, in subcycles, that a generator of traces aims at.
pub(crate) struct Instants {
    /// The next byte of the host starts.
    pub(crate) start: Option<u64>,
    /// The byte on the line lands, or the next to start would.
    pub(crate) landing: Option<u64>,
    pub(crate) timeout: Option<u64>,
    pub(crate) first_gone: Option<u64>,
    pub(crate) last_gone: Option<u64>,
    /// TXFIFO_EMPTY's threshold is crossed.
    pub(crate) below_threshold: Option<u64>,
    pub(crate) on_the_line: bool,
    /// One byte's time and one bit's, with the settings of now.
    pub(crate) byte_time: u64,
    pub(crate) bit_time: u64,
}

pub(crate) fn instants(uart: &Uart, ctx: &Ctx) -> Instants {
    let period = uart.source_period(ctx);
    Instants {
        start: uart.next_host_byte().map(|(date, _)| date.max(uart.line_free_at)),
        landing: uart.next_landing(ctx),
        timeout: uart.timeout_at(ctx),
        first_gone: uart.in_flight.front().map(|&(gone_at, _)| gone_at),
        last_gone: uart.in_flight.back().map(|&(gone_at, _)| gone_at),
        below_threshold: uart.tx_below_threshold_at(),
        on_the_line: uart.receiving.is_some(),
        byte_time: uart.byte_time(period),
        bit_time: uart.bit_time(period),
    }
}
