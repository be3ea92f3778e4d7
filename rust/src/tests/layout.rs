//! Sizes and offsets as Rust has them, in the form of rust/c/layout.c: both are held to rust/c/layout.out.
use crate::plain::{
    Cursor, PlainAnswer, PlainCore, PlainDate, PlainFigures, PlainNew, PlainNotice, PlainReply, PlainReport, PlainRow,
    PlainRowAnswer, RegisterMap, Sixteen, Slots, Words,
};
use crate::Uart;
use core::mem::{offset_of, size_of};

/// The lines of one struct. A field that is left out here does not compile.
macro_rules! lines {
    ($name:literal, $type:ident { $($field:ident),* }) => {{
        let _ = |whole: $type| { let $type { $($field: _),* } = whole; };
        let mut lines = format!("{} {}\n", $name, size_of::<$type>());
        $(lines += &format!("{}.{} {}\n", $name, stringify!($field), offset_of!($type, $field));)*
        lines
    }};
}

fn placed() -> String {
    [
        lines!(
            "words",
            Words { int_ena, clkdiv, conf0, conf1, clk_conf, idle_conf, rs485_conf, at_cmd_char, mem_conf }
        ),
        lines!("register_map", RegisterMap { offsets, reset, idle_status, mem_rx_status }),
        lines!("cursor", Cursor { start, count }),
        lines!("date", PlainDate { set, at }),
        core(),
        lines!("reply", PlainReply { number, holds, value }),
        lines!("row", PlainRow { number, made, first, second }),
        lines!("notice", PlainNotice { what, which }),
        lines!("report", PlainReport { level, wake, overflows, passes, noted, notices }),
        lines!("answer", PlainAnswer { core, reply, report }),
        lines!("row_answer", PlainRowAnswer { core, reply, report }),
        lines!("line_figures", PlainFigures { number, placed, busy, shortest, longest, quiet, at, mean, remainder }),
        lines!("sixteen", Sixteen { words }),
        lines!("set_up", PlainNew { core, reply }),
        lines!("slots", Slots { gone_at, flight, tx, host, run_at, run_len, rx }),
        lines!("uart", Uart { core, slots }),
    ]
    .concat()
}

#[rustfmt::skip]
fn core() -> String {
    lines!("core", PlainCore {
        map, words, int_raw, rx_mistimed, idle_since, line_free_at, period, last, wake, powered_down_at, timed_on,
        on_the_line, heard, watched, level, flight, tx, host, runs, rx, byte
    })
}

#[test]
fn rust_places_the_structs_as_c_does() {
    assert_eq!(placed(), include_str!("../../c/layout.out"));
}

#[test]
fn a_uart_is_at_most_5120_bytes() {
    assert!(size_of::<Uart>() <= 5120, "{} bytes", size_of::<Uart>());
}
