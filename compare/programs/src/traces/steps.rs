//! One random call, by the weights of a mix.
use super::generator::Generator;
use super::registers::{self, *};
use uart_box::calls::Call;

/// How often each kind of call comes.
#[derive(Clone, Copy)]
pub struct Mix {
    pub read: u32,
    pub fifo_write: u32,
    pub row: u32,
    pub configure: u32,
    pub interrupts: u32,
    pub other_register: u32,
    pub receive: u32,
    pub wake: u32,
    pub watch: u32,
    pub reset: u32,
    pub power_down: u32,
    pub clock: u32,
    pub take_tx: u32,
    pub take_written: u32,
    pub ask: u32,
}

impl Mix {
    /// The weights in the order of `step_at`.
    fn weights(&self) -> [u32; 15] {
        [
            self.read,
            self.fifo_write,
            self.row,
            self.configure,
            self.interrupts,
            self.other_register,
            self.receive,
            self.wake,
            self.watch,
            self.reset,
            self.power_down,
            self.clock,
            self.take_tx,
            self.take_written,
            self.ask,
        ]
    }
}

/// What a running machine brings, with the rare calls not too rare.
pub const EVEN: Mix = Mix {
    read: 30,
    fifo_write: 14,
    row: 3,
    configure: 9,
    interrupts: 8,
    other_register: 2,
    receive: 13,
    wake: 9,
    watch: 2,
    reset: 1,
    power_down: 1,
    clock: 3,
    take_tx: 4,
    take_written: 1,
    ask: 4,
};

const READS: [usize; 12] =
    [STATUS, STATUS, STATUS, INT_RAW, INT_RAW, INT_RAW, FIFO, FIFO, FIFO, INT_ST, FSM_STATUS, INT_ENA];
const CONFIGURED: [usize; 7] = [CLKDIV, CONF0, CONF1, CLK_CONF, CLK_CONF, MEM_CONF, CONF1];
const OTHERS: [usize; 9] =
    [IDLE_CONF, RS485_CONF, AT_CMD_CHAR, MEM_RX_STATUS, INT_RAW, INT_ST, STATUS, FSM_STATUS, INT_CLR];
const PERIODS: [u64; 10] = [0, 1, 2, 4, 8, 8, 80, 999_999, 1_000_000, 1_000_001];
const LENGTHS: [usize; 8] = [0, 1, 1151, 1152, 1152, 1153, 4096, 8192];

impl Generator {
    /// One call of the mix, at a date that aims.
    pub fn step(&mut self, mix: &Mix) {
        let now = self.date();
        self.step_at(mix, now);
    }

    pub fn step_at(&mut self, mix: &Mix, now: u64) {
        match self.random.weighted(&mix.weights()) {
            0 => self.read_one(now),
            1 => self.write_fifo(now),
            2 => self.row(now),
            3 => self.configure_one(now, &CONFIGURED),
            4 => self.configure_one(now, &[INT_CLR, INT_CLR, INT_ENA]),
            5 => self.touch_another(now),
            6 => self.receive_some(now),
            7 => self.wake_one(now),
            8 => {
                let watched = self.random.chance(60);
                self.call(&Call::Watch { now, watched });
            }
            9 => {
                self.call(&Call::Reset { now });
            }
            10 => {
                self.call(&Call::PowerDown { now });
            }
            11 => self.change_clock(now),
            12 => self.take_tx(now),
            13 => self.take_written(),
            _ => self.ask(),
        }
    }

    pub fn read_one(&mut self, now: u64) {
        let place = self.random.pick(&READS);
        self.read(now, place);
    }

    /// One byte to FIFO, mostly with noise in the word's high bits, and often a few more at the same date.
    pub fn write_fifo(&mut self, now: u64) {
        let count = if self.random.chance(20) { 1 + self.random.below(12) } else { 1 };
        for _ in 0..count {
            let word = self.random.u32();
            self.write(now, FIFO, word);
        }
    }

    pub fn configure_one(&mut self, now: u64, places: &[usize]) {
        let place = self.random.pick(places);
        let word = registers::word(&mut self.random, place);
        self.write(now, place, word);
    }

    /// A register without an effect, a read-only one, or an offset that is none, read or written.
    pub fn touch_another(&mut self, now: u64) {
        let place = self.random.pick(&OTHERS);
        let offset = match self.random.below(6) {
            0 => self.random.pick(&[1, 2, 3, 61, 63, 64, 68, 0x100, u32::MAX]),
            1 => self.random.u32(),
            _ => self.offsets[place],
        };
        if self.random.chance(50) {
            self.call(&Call::Read { now, offset });
        } else {
            let value = registers::word(&mut self.random, place);
            self.call(&Call::Write { now, offset, value });
        }
    }

    /// None, one, a few or many bytes of the host.
    pub fn receive_some(&mut self, now: u64) {
        let count = match self.random.below(20) {
            0 | 1 => 0,
            2..=9 => 1,
            10..=16 => 2 + self.random.below(6),
            17 | 18 => self.random.below(140),
            _ => self.random.below(1_030),
        };
        let at = self.start_date(now);
        self.receive(now, at, count as usize);
    }

    /// A wake, mostly on, one before or one after the date it is armed for.
    pub fn wake_one(&mut self, now: u64) {
        let date = match self.sight().wake {
            Some(cycle) if self.random.chance(70) => self.date_around(cycle),
            _ => now,
        };
        self.call(&Call::Wake { now: date });
    }

    pub fn change_clock(&mut self, now: u64) {
        let period = if self.random.chance(20) { self.random.below(1_000_002) } else { self.random.pick(&PERIODS) };
        self.call(&Call::Clock { now, period });
    }

    pub fn take_tx(&mut self, now: u64) {
        let length = self.random.pick(&LENGTHS);
        self.call(&Call::TakeTx { now, length });
    }

    pub fn take_written(&mut self) {
        let length = self.random.pick(&LENGTHS);
        self.call(&Call::TakeWritten { length });
    }

    pub fn ask(&mut self) {
        let question = if self.random.chance(50) { Call::HasLeft } else { Call::HostPending };
        self.call(&question);
    }
}
