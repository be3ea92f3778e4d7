//! The profiles by name: what each aims at, and the scenes that it is made of.
use super::generator::Generator;
use super::registers::{self, *};
use super::steps::{EVEN, Mix};
use uart_box::calls::Call;
use uart_box::the_box::DATES_END;

/// A kind of trace.
pub struct Profile {
    pub name: &'static str,
    pub aim: &'static str,
    /// Starts a UART, or leaves the one before.
    begin: fn(&mut Generator),
    /// Some calls on it.
    scene: fn(&mut Generator),
    /// How many scenes a UART gets at most.
    scenes: u64,
}

pub const PROFILES: [Profile; 18] = [
    Profile {
        name: "mixed",
        aim: "all calls, dates on and around each instant",
        begin: bench,
        scene: mixed,
        scenes: 200,
    },
    Profile {
        name: "instants",
        aim: "reads and wakes on, before and after each start, landing, departure and timeout",
        begin: short,
        scene: instants,
        scenes: 150,
    },
    Profile {
        name: "receive-fifo",
        aim: "126 to 129 received, RXFIFO_FULL and RXFIFO_OVF",
        begin: bench,
        scene: Generator::fill_receive_fifo,
        scenes: 8,
    },
    Profile {
        name: "transmit-side",
        aim: "127 to 131 in flight, 1,150 to 1,153 left and in flight",
        begin: bench,
        scene: transmit,
        scenes: 6,
    },
    Profile {
        name: "rows",
        aim: "rows of none to 1,300 bytes, dropped, cut, refused, noted and in no time",
        begin: short,
        scene: Generator::rows,
        scenes: 20,
    },
    Profile {
        name: "host-queue",
        aim: "1,022 to 1,026 host bytes waiting",
        begin: bench,
        scene: Generator::fill_host,
        scenes: 5,
    },
    Profile { name: "host-runs", aim: "62 to 65 runs waiting", begin: bench, scene: Generator::fill_runs, scenes: 5 },
    Profile {
        name: "numbers",
        aim: "each number on both sides of its limit, and in pairs",
        begin: bench,
        scene: Generator::around_a_number,
        scenes: 12,
    },
    Profile {
        name: "clocks",
        aim: "sources, dividers, periods and frames changed in mid frame",
        begin: short,
        scene: clocks,
        scenes: 120,
    },
    Profile {
        name: "receiver-clock",
        aim: "the receiver's clock switched around starts, landings and timeouts",
        begin: short,
        scene: receiver_clock,
        scenes: 60,
    },
    Profile { name: "power", aim: "power-down, reset and what they keep", begin: short, scene: power, scenes: 60 },
    Profile {
        name: "maps",
        aim: "other register maps and reset words, unknown and read-only registers",
        begin: other_map,
        scene: maps,
        scenes: 60,
    },
    Profile {
        name: "far-dates",
        aim: "dates up to the last one, sums held at the largest date",
        begin: far,
        scene: far_dates,
        scenes: 120,
    },
    Profile {
        name: "levels",
        aim: "thresholds around what the queues hold, INT_ENA, INT_CLR and the level",
        begin: short,
        scene: levels,
        scenes: 120,
    },
    Profile {
        name: "hand-out",
        aim: "take_tx, take_written, watch and has_left, lent buffers of all lengths",
        begin: short,
        scene: hand_out,
        scenes: 150,
    },
    Profile {
        name: "every-cycle",
        aim: "one read at every cycle from before a start to after the timeout",
        begin: nothing,
        scene: Generator::every_cycle,
        scenes: 1,
    },
    Profile {
        name: "lines",
        aim: "lines that are no calls, comments, spaces, numbers in every writing",
        begin: bench,
        scene: Generator::odd_line,
        scenes: 40,
    },
    Profile {
        name: "figures",
        aim: "lists of none to 1,100 frames, touching, empty, of 64 bits, with equal stretches, refused",
        begin: perhaps,
        scene: Generator::figures,
        scenes: 40,
    },
];

/// The profile of that name.
#[must_use]
pub fn named(name: &str) -> Option<&'static Profile> {
    PROFILES.iter().find(|profile| profile.name == name)
}

impl Profile {
    /// A whole trace, handed to `put` in pieces.
    pub fn write(&self, seed: u64, calls: u64, mut put: impl FnMut(&[u8])) {
        let mut generator = Generator::new(seed, calls, self.name);
        while !generator.done() {
            (self.begin)(&mut generator);
            let scenes = 1 + generator.random.below(self.scenes);
            for _ in 0..scenes {
                (self.scene)(&mut generator);
            }
            put(&generator.take_text());
        }
    }
}

fn nothing(_: &mut Generator) {}

/// A UART or none: `figures` needs none.
fn perhaps(g: &mut Generator) {
    if g.random.chance(60) {
        g.set_up_bench();
    }
}

fn bench(g: &mut Generator) {
    g.set_up_bench();
}

/// The bench settings with a short byte, a short timeout and all interrupts, mostly.
fn short(g: &mut Generator) {
    let mut setup = registers::bench();
    setup.reset_words[CLKDIV] = g.random.pick(&[1, 2, 0x0070_0000, 0x0030_0001, 0x0080_000A]);
    setup.reset_words[CONF0] = g.random.u32() & 0x3E;
    setup.reset_words[CONF1] = registers::conf1(&mut g.random);
    setup.reset_words[INT_ENA] = g.random.pick(&[0, 0x4113, registers::INTERRUPT_BITS[3], u32::MAX]);
    if g.random.chance(50) {
        setup.reset_words[MEM_CONF] = (g.random.below(16) as u32) << 16 | 0x12;
    }
    if g.random.chance(30) {
        setup.reset_words[CLK_CONF] = registers::clk_conf(&mut g.random, 90) & !0x000F_F000;
    }
    g.set_up(setup);
}

/// Offsets in another order, far apart or at the ends of 32 bits; reset words with every bit.
fn other_map(g: &mut Generator) {
    let mut setup = registers::bench();
    let turn = g.random.below(16) as usize;
    let (step, from) = (g.random.pick(&[1, 4, 8, 0x1000]), g.random.pick(&[0, 2, 0x6000_0000, u32::MAX - 0xFFFF]));
    for place in 0..16 {
        setup.offsets[place] = from.wrapping_add(step * ((place + turn) % 16) as u32);
    }
    let (one, other) = (g.random.below(16) as usize, g.random.below(16) as usize);
    if g.random.chance(80) {
        setup.offsets.swap(one, other);
    } else {
        setup.offsets[one] = setup.offsets[other];
    }
    for place in 0..16 {
        setup.reset_words[place] = match g.random.below(4) {
            0 => g.random.u32(),
            1 => setup.reset_words[place],
            _ => registers::word(&mut g.random, place),
        };
    }
    if g.random.chance(70) {
        setup.reset_words[CLKDIV] = g.random.pick(&[0x00F0_0001, 3, 0x0010_0000]);
    }
    if !g.set_up(setup) && g.offsets == [0; 16] {
        g.set_up_bench();
    }
}

fn mixed(g: &mut Generator) {
    g.figures_in(2);
    match g.random.below(300) {
        0 => g.fill_receive_fifo(),
        1 => g.fill_in_flight(),
        2 => g.fill_runs(),
        3 => {
            let now = g.date_past_all();
            g.call(&Call::Wake { now });
        }
        4 => g.around_a_number(),
        _ => g.step(&EVEN),
    }
}

const WATCHING: Mix =
    Mix { read: 50, wake: 20, configure: 2, clock: 1, reset: 0, power_down: 0, take_written: 0, ..EVEN };

fn instants(g: &mut Generator) {
    let now = g.date_at_an_instant();
    g.step_at(&WATCHING, now);
}

fn transmit(g: &mut Generator) {
    if g.random.chance(85) { g.fill_in_flight() } else { g.fill_left() }
}

const CLOCKS: Mix = Mix { configure: 25, clock: 14, fifo_write: 18, receive: 18, ..EVEN };

fn clocks(g: &mut Generator) {
    g.step(&CLOCKS);
}

/// The receiver's clock off or on at an instant, with calls between.
fn receiver_clock(g: &mut Generator) {
    if g.random.chance(10) {
        unheard_between_two(g);
    }
    if g.sight().host == 0 && g.random.chance(70) {
        let now = g.date();
        let at = g.start_date(now);
        let count = 1 + g.random.below(4) as usize;
        g.receive(now, at, count);
    }
    let now = g.date_at_an_instant();
    let source = g.random.pick(&[3, 3, 3, 1, 0, 2]) << 20;
    let receiver = g.random.pick(&[0, 0, RX_SCLK_EN, RX_SCLK_EN, RX_SCLK_EN]);
    g.write(now, CLK_CONF, source | receiver);
    for _ in 0..g.random.below(3) {
        let now = g.date_at_an_instant();
        g.step_at(&WATCHING, now);
    }
}

/// A byte that lands, one whose start is not heard, one heard right after it, and a timeout about then: the
/// clock is off at the second start only, and one settling finds all three due.
fn unheard_between_two(g: &mut Generator) {
    let empty = g.date_past_all();
    g.write(empty, CLK_CONF, 3 << 20 | RX_SCLK_EN);
    let enabled = g.random.pick(&[RX_TOUT_EN, RX_TOUT_EN, 0]);
    g.write(empty, CONF1, 96 << 9 | enabled);
    let sight = g.sight();
    let byte = sight.byte_time.div_ceil(32);
    let bits = sight.byte_time.checked_div(sight.bit_time).unwrap_or(0) + g.random.below(4);
    g.write(empty, MEM_CONF, (bits as u32 & 0x3FF) << 16 | 0x12);
    let second = empty + byte + 1 + g.random.below(4);
    let third = second + byte + g.random.below(3);
    for at in [empty, second, third] {
        g.receive(empty, at, 1);
    }
    let off = empty + byte + g.random.below(second - empty - byte);
    g.write(off, CLK_CONF, 3 << 20);
    let on = second + g.random.below(byte.max(1));
    g.write(on, CLK_CONF, 3 << 20 | RX_SCLK_EN);
    let now = third + g.random.below(byte * 2 + 4);
    g.step_at(&WATCHING, now.max(on));
    g.read(now.max(g.sight().last), INT_RAW);
}

/// A slow rate, bytes that wait, and a reset to the fast one.
fn reset_to_another_rate(g: &mut Generator) {
    let now = g.date_past_all();
    g.write(now, CLKDIV, 0xFFF);
    let at = g.start_date(now);
    g.receive(now, at, 2);
    let now = g.date();
    g.call(&Call::Wake { now });
    g.call(&Call::Reset { now });
}

const POWERED: Mix = Mix { power_down: 4, reset: 4, watch: 4, wake: 14, ..EVEN };

fn power(g: &mut Generator) {
    g.step(&POWERED);
    if g.random.chance(3) {
        reset_to_another_rate(g);
    }
    if g.random.chance(10) {
        let now = g.date_at_an_instant();
        g.call(&Call::PowerDown { now });
        for _ in 0..g.random.below(8) {
            let now = g.date_at_an_instant();
            g.step_at(&POWERED, now);
        }
        let now = g.date();
        g.call(&Call::Reset { now });
        g.read(now, INT_RAW);
    }
}

const TOUCHING: Mix = Mix { other_register: 40, reset: 3, configure: 14, ..EVEN };

fn maps(g: &mut Generator) {
    g.step(&TOUCHING);
    if g.random.chance(10) {
        let now = g.date();
        for place in 0..16 {
            g.read(now, place);
        }
    }
}

/// A UART whose last date is a few bytes before the end.
fn far(g: &mut Generator) {
    short(g);
    let before = g.random.below(2_000);
    g.read(DATES_END - 1 - before, STATUS);
}

const FAR: Mix = Mix { receive: 18, fifo_write: 18, clock: 8, ..EVEN };

fn far_dates(g: &mut Generator) {
    match g.random.below(30) {
        0 => {
            let now = g.random.pick(&[DATES_END - 1, DATES_END, DATES_END + 1, u64::MAX]);
            g.step_at(&FAR, now);
        }
        1 => {
            let now = g.sight().last;
            let at = g.random.pick(&[DATES_END - 1, DATES_END, DATES_END + 1, u64::MAX]);
            let count = g.random.below(3) as usize;
            g.receive(now, at, count);
        }
        _ => g.step(&FAR),
    }
}

const LEVELS: Mix = Mix { interrupts: 24, configure: 8, fifo_write: 18, receive: 14, ..EVEN };

/// A threshold next to what the queue holds, then the calls that move it by one.
fn levels(g: &mut Generator) {
    if g.random.chance(25) {
        let now = g.date();
        let sight = g.sight();
        let full = (sight.received as u32 + g.random.below(3) as u32).saturating_sub(1);
        let empty = (sight.in_flight as u32 + g.random.below(4) as u32).saturating_sub(2);
        let switches = g.random.pick(&[0, RX_TOUT_EN, 1 << 18 | RX_TOUT_EN]);
        g.write(now, CONF1, full | empty << 9 | switches);
    }
    g.step(&LEVELS);
}

const HANDING: Mix = Mix { take_tx: 22, take_written: 5, ask: 14, watch: 9, fifo_write: 26, wake: 14, ..EVEN };

fn hand_out(g: &mut Generator) {
    g.step(&HANDING);
}
