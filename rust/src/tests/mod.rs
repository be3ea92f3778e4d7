//! What the compiler cannot see: that the two sides place each field alike, and that `Uart` keeps what the calls give.
mod declared;
mod fields;
mod figures;
mod header;
mod layout;
mod notices;
mod refusals;
mod rows;

use crate::plain::{Cursor, PlainCore};
use crate::{Answered, Report, Uart};

pub(crate) const FIFO: u32 = 0;
pub(crate) const INT_RAW: u32 = 4;
pub(crate) const INT_ENA: u32 = 12;
pub(crate) const CLKDIV: u32 = 20;
pub(crate) const STATUS: u32 = 24;
pub(crate) const CONF0: u32 = 32;
pub(crate) const CONF1: u32 = 36;
pub(crate) const CLK_CONF: u32 = 40;
pub(crate) const RS485_CONF: u32 = 48;
pub(crate) const MEM_CONF: u32 = 56;

/// Document 01's bench settings: a byte takes 420 cycles, 13,440 subcycles.
pub(crate) fn bench() -> Uart {
    let mut resets = [0; 16];
    for (place, word) in [(5, 0x0080_000A), (8, 0x1C), (9, 0xC060), (10, 0x0230_0000), (14, 0x000A_0012)] {
        resets[place] = word;
    }
    Uart::new(std::array::from_fn(|place| 4 * place as u32), resets).expect("the offsets are all different")
}

/// The result and the report of a call that must be carried out.
pub(crate) fn done<T>(answered: Answered<T>) -> (T, Report) {
    let answer = answered.expect("the call is carried out");
    (answer.result, answer.report)
}

/// The core without what is the port's own matter: where its queues begin, and the byte of a line with nothing on it.
pub(crate) fn counted(uart: &Uart) -> PlainCore {
    let mut core = uart.core;
    for cursor in [&mut core.flight, &mut core.tx, &mut core.host, &mut core.runs, &mut core.rx] {
        cursor.start = 0;
    }
    if !core.on_the_line {
        core.byte = 0;
    }
    core
}

/// What the queues hold, which also tells where each begins.
#[derive(Debug, Default, PartialEq, Eq)]
pub(crate) struct Queues {
    pub flight: Vec<(u64, u8)>,
    pub tx: Vec<u8>,
    pub host: Vec<u8>,
    pub runs: Vec<(u64, u64)>,
    pub rx: Vec<u8>,
}

pub(crate) fn queues(uart: &Uart) -> Queues {
    fn held<T: Copy>(slots: &[T], cursor: Cursor) -> Vec<T> {
        (0..cursor.count).map(|n| slots[(cursor.start + n) % slots.len()]).collect()
    }
    let (core, slots) = (&uart.core, &uart.slots);
    Queues {
        flight: held(&slots.gone_at, core.flight).into_iter().zip(held(&slots.flight, core.flight)).collect(),
        tx: held(&slots.tx, core.tx),
        host: held(&slots.host, core.host),
        runs: held(&slots.run_at, core.runs).into_iter().zip(held(&slots.run_len, core.runs)).collect(),
        rx: held(&slots.rx, core.rx),
    }
}
