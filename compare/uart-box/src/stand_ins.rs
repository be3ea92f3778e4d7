//! Names of inkemu's own crate that the published files use and whose files are not published: written here,
//! as far as the compiler needs them. No answer of a UART depends on one.
#![allow(dead_code)]

/// inkemu's periph/mod.rs, reduced to `Storage`, cut out of it, and to what the other files name.
pub(crate) mod periph {
    /// Both addresses as in the published periph/mod.rs.
    pub(crate) const INTMATRIX_BASE: u32 = 0x600C_2000;
    pub(crate) const UART0_BASE: u32 = 0x6000_0000;

    /// The two fields that `Storage::accepted` reads.
    #[derive(Clone, Copy, Debug)]
    pub struct Accepted {
        pub addr: u32,
        pub count: u32,
    }

    pub(crate) mod mmu {
        pub(crate) const MMU_PAGE_BYTES: u32 = 0x1_0000;
    }

    include!(concat!(env!("OUT_DIR"), "/storage.rs"));
    include!(concat!(env!("OUT_DIR"), "/published_uart.rs"));
}

pub(crate) mod reset {
    use std::fmt;

    #[derive(Clone, Copy, Debug, PartialEq, Eq, PartialOrd, Ord)]
    pub enum ResetLevel {
        Cpu,
        Core,
        System,
    }

    /// A UART asks for no reset: two causes are enough for the text of ctx.rs and diag.rs.
    #[derive(Clone, Copy, Debug, PartialEq, Eq)]
    pub enum ResetCause {
        PowerOn,
        DeepSleep,
    }

    impl ResetCause {
        pub const fn code(self) -> u32 {
            match self {
                ResetCause::PowerOn => 1,
                ResetCause::DeepSleep => 5,
            }
        }

        pub const fn level(self) -> ResetLevel {
            match self {
                ResetCause::PowerOn => ResetLevel::System,
                ResetCause::DeepSleep => ResetLevel::Core,
            }
        }
    }

    impl fmt::Display for ResetCause {
        fn fmt(&self, f: &mut fmt::Formatter<'_>) -> fmt::Result {
            write!(f, "{self:?}")
        }
    }
}

pub(crate) mod flash {
    use std::fmt;

    /// The frame of a flash command: a UART sends none.
    #[derive(Clone, Copy, Debug)]
    pub struct FlashFrame;

    impl FlashFrame {
        pub const fn of(_opcode: u8) -> Option<FlashFrame> {
            None
        }
    }

    impl fmt::Display for FlashFrame {
        fn fmt(&self, f: &mut fmt::Formatter<'_>) -> fmt::Result {
            f.write_str("the frame of its datasheet")
        }
    }

    #[derive(Clone, Copy, Debug, PartialEq, Eq)]
    pub enum FlashRefusal {
        Unmodeled { opcode: u8 },
        Form { opcode: u8, address_bits: u32, dummy_cycles: u32, data_bytes: u32 },
        OutOfRange { opcode: u8, address: u32, len: u32 },
        Protected { opcode: u8, status: u8 },
    }
}
