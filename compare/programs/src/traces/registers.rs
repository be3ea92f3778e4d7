//! The sixteen places by name, and words for each register that reach its fields' edges.
use super::random::Random;
use uart_box::calls::Setup;

pub const FIFO: usize = 0;
pub const INT_RAW: usize = 1;
pub const INT_ST: usize = 2;
pub const INT_ENA: usize = 3;
pub const INT_CLR: usize = 4;
pub const CLKDIV: usize = 5;
pub const STATUS: usize = 6;
pub const FSM_STATUS: usize = 7;
pub const CONF0: usize = 8;
pub const CONF1: usize = 9;
pub const CLK_CONF: usize = 10;
pub const IDLE_CONF: usize = 11;
pub const RS485_CONF: usize = 12;
pub const AT_CMD_CHAR: usize = 13;
pub const MEM_CONF: usize = 14;
pub const MEM_RX_STATUS: usize = 15;

pub const RX_SCLK_EN: u32 = 1 << 25;
pub const RX_TOUT_EN: u32 = 1 << 21;
/// The bits of INT_RAW that the UART sets.
pub const INTERRUPT_BITS: [u32; 5] = [1, 1 << 1, 1 << 4, 1 << 8, 1 << 14];

/// Document 01's bench settings.
#[must_use]
pub fn bench() -> Setup {
    let mut reset_words = [0; 16];
    reset_words[CLKDIV] = 0x0080_000A;
    reset_words[CONF0] = 0x1C;
    reset_words[CONF1] = 0xC060;
    reset_words[CLK_CONF] = 0x0230_0000;
    reset_words[MEM_CONF] = 0x000A_0012;
    Setup { offsets: std::array::from_fn(|place| 4 * place as u32), reset_words }
}

/// Mostly short bit times, so that a trace moves; the field's ends, 0 and noise besides.
pub fn clkdiv(random: &mut Random) -> u32 {
    let fraction = random.u32() & 0x00F0_0000;
    match random.below(12) {
        0 => random.u32() & 0xFF0F_F000,
        1 => fraction,
        2..=5 => (1 + random.below(4) as u32) | fraction,
        6 | 7 => 0x0080_000A,
        8 => 0x0030_015B,
        9 => 0x00F0_0FFF,
        10 => random.below(4096) as u32 | fraction,
        _ => random.u32(),
    }
}

/// The source, its divider, the receiver's clock mostly on, and noise in the bits that the Rust ignores.
pub fn clk_conf(random: &mut Random, receiver_on: u64) -> u32 {
    let source = random.pick(&[3, 3, 3, 1, 1, 1, 0, 2]) << 20;
    let any = random.u32() & 0xFF;
    let divider = random.pick(&[0, 0, 0, 0, 1, 2, any, 0xFF]) << 12;
    let noise = if random.chance(30) { random.u32() & 0xFDC0_0FFF } else { 0 };
    let receiver = if random.chance(receiver_on) { RX_SCLK_EN } else { 0 };
    source | divider | noise | receiver
}

/// A frame, and now and then a refused mode, a FIFO reset or noise.
pub fn conf0(random: &mut Random) -> u32 {
    let frame = random.u32() & 0x3E;
    match random.below(10) {
        0 => frame | (random.u32() & 0x0849_C100),
        1 => frame | 1 << 17,
        2 => frame | 1 << 18,
        3 => frame | 3 << 17,
        4 => random.u32(),
        5 => frame | random.pick(&[1 << 8, 1 << 14, 1 << 15, 1 << 16, 1 << 19, 1 << 22, 1 << 27]),
        _ => frame,
    }
}

/// Thresholds near what the queues hold, and the three switches.
pub fn conf1(random: &mut Random) -> u32 {
    let any = random.u32() & 0x1FF;
    let full = random.pick(&[0, 1, 2, 96, 126, 127, 128, 256, 257, 511, any, any >> 4]);
    let empty = random.pick(&[0, 1, 2, 96, 126, 127, 128, 129, 130, 256, 257, 511, any >> 2]);
    let mut word = full | empty << 9;
    if random.chance(60) {
        word |= RX_TOUT_EN;
    }
    if random.chance(20) {
        word |= 1 << 18;
    }
    if random.chance(10) {
        word |= 1 << 20;
    }
    if random.chance(20) {
        word |= random.u32() & 0xFFC8_0000;
    }
    word
}

/// The timeout in bit times, and now and then another share of the memory.
pub fn mem_conf(random: &mut Random) -> u32 {
    let any = random.u32() & 0x3FF;
    let timeout = random.pick(&[0, 1, 2, 5, 10, 10, 10, 11, 20, 1023, any]) << 16;
    let noise = random.u32() & 0xFC00_FFFF;
    let sizes = random.pick(&[0x12, 0x12, 0x12, 0x12, 0x12, 0x12, 0x13, 0x92, 0x10, 0x14, 0x52, noise]);
    timeout | sizes
}

/// Some of the five interrupt bits, all, none, or noise.
pub fn interrupts(random: &mut Random) -> u32 {
    match random.below(6) {
        0 => 0,
        1 => u32::MAX,
        2 => random.u32(),
        _ => random.pick(&INTERRUPT_BITS) | random.pick(&INTERRUPT_BITS),
    }
}

/// A word for the register at `place`.
pub fn word(random: &mut Random, place: usize) -> u32 {
    match place {
        CLKDIV => clkdiv(random),
        CLK_CONF => clk_conf(random, 80),
        CONF0 => conf0(random),
        CONF1 => conf1(random),
        MEM_CONF => mem_conf(random),
        INT_ENA | INT_CLR => interrupts(random),
        RS485_CONF => random.pick(&[0, 0, 1, u32::MAX]) & random.u32(),
        _ => random.u32(),
    }
}
