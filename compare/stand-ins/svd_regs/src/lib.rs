//! A stand-in for inkemu's `svd_regs`: the offsets are document 01's bench settings, 4 × place, and the reset
//! words are set at run time, for the UART that is set up next. The chip's own table is not published.

/// The size of a register, in bytes.
pub const REGISTER_BYTES: u32 = 4;

pub mod esp32c3 {
    use super::REGISTER_BYTES;
    use std::cell::Cell;

    /// A row of the register table, as far as `Storage` and `Uart` read one.
    #[derive(Clone, Copy, Debug)]
    pub struct Register {
        pub peripheral: &'static str,
        pub addr: u32,
        pub reset_value: u32,
    }

    pub const UART0_BASE: u32 = 0x6000_0000;
    const INTERRUPT_CORE0_BASE: u32 = 0x600C_2000;

    /// The sixteen registers in document 01's order: the index is the place.
    pub const PLACES: [&str; 16] = [
        "FIFO",
        "INT_RAW",
        "INT_ST",
        "INT_ENA",
        "INT_CLR",
        "CLKDIV",
        "STATUS",
        "FSM_STATUS",
        "CONF0",
        "CONF1",
        "CLK_CONF",
        "IDLE_CONF",
        "RS485_CONF",
        "AT_CMD_CHAR",
        "MEM_CONF",
        "MEM_RX_STATUS",
    ];

    thread_local! {
        static RESET_WORDS: Cell<[u32; 16]> = const { Cell::new([0; 16]) };
    }

    /// The reset words that `lookup` gives from now on, by place.
    pub fn set_reset_words(words: [u32; 16]) {
        RESET_WORDS.set(words);
    }

    const fn same(a: &str, b: &str) -> bool {
        let (a, b) = (a.as_bytes(), b.as_bytes());
        if a.len() != b.len() {
            return false;
        }
        let mut i = 0;
        while i < a.len() {
            if a[i] != b[i] {
                return false;
            }
            i += 1;
        }
        true
    }

    /// The address of a register by name; an unknown name stops the build of a `const`.
    #[must_use]
    pub const fn addr(peripheral: &str, name: &str) -> u32 {
        if same(peripheral, "INTERRUPT_CORE0") {
            return INTERRUPT_CORE0_BASE + interrupt_map(name) * REGISTER_BYTES;
        }
        assert!(same(peripheral, "UART0"), "the stand-in has UART0 and INTERRUPT_CORE0 only");
        let mut place = 0;
        while place < PLACES.len() {
            if same(PLACES[place], name) {
                return UART0_BASE + place as u32 * REGISTER_BYTES;
            }
            place += 1;
        }
        panic!("not one of the UART's sixteen registers");
    }

    /// The number of an interrupt source: 21 and 22 are the UARTs' (uart.rs), 61 is the last (ctx.rs).
    const fn interrupt_map(name: &str) -> u32 {
        if same(name, "UART_INTR_MAP") {
            21
        } else if same(name, "UART1_INTR_MAP") {
            22
        } else if same(name, "CACHE_CORE0_ACS_INT_MAP") {
            61
        } else {
            panic!("not an interrupt source that the UART names")
        }
    }

    /// The register at an address, with the reset word that was set for its place.
    #[must_use]
    pub fn lookup(addr: u32) -> Option<Register> {
        let offset = addr.checked_sub(UART0_BASE)?;
        let place = (offset / REGISTER_BYTES) as usize;
        if offset % REGISTER_BYTES != 0 || place >= PLACES.len() {
            return None;
        }
        Some(Register { peripheral: "UART0", addr, reset_value: RESET_WORDS.get()[place] })
    }

    /// The whole table: `Storage::for_peripheral` asks for it, the UART does not.
    #[must_use]
    pub const fn registers() -> &'static [Register] {
        &[]
    }
}
