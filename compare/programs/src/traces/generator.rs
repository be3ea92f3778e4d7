//! The trace under way: each call is written down and carried out, so that the next can aim.
use super::random::Random;
use super::registers;
use uart_box::calls::{Call, Setup};
use uart_box::session::Session;
use uart_box::the_box::{Answer, Sight};

/// The lines so far, and the UART as they leave it.
pub struct Generator {
    pub random: Random,
    /// For lists of frames alone: the other calls of a trace do not depend on them.
    pub frame_random: Random,
    session: Session,
    text: Vec<u8>,
    calls: u64,
    limit: u64,
    pub offsets: [u32; 16],
}

impl Generator {
    #[must_use]
    pub fn new(seed: u64, calls: u64, name: &str) -> Generator {
        Generator {
            random: Random::new(seed, name),
            frame_random: Random::new(seed, &format!("{name}, frames")),
            session: Session::default(),
            text: Vec::new(),
            calls: 0,
            limit: calls,
            offsets: [0; 16],
        }
    }

    /// No call is written yet.
    #[must_use]
    pub fn begins(&self) -> bool {
        self.calls == 0
    }

    #[must_use]
    pub fn done(&self) -> bool {
        self.calls >= self.limit
    }

    /// The lines written since this was last asked.
    pub fn take_text(&mut self) -> Vec<u8> {
        std::mem::take(&mut self.text)
    }

    /// How the UART stands; all empty where none is set up.
    #[must_use]
    pub fn sight(&self) -> Sight {
        self.session.device().map(uart_box::the_box::TheBox::sight).unwrap_or_default()
    }

    /// Writes a call down and carries it out. Answers whether it was taken. Past the limit it does nothing.
    pub fn call(&mut self, call: &Call) -> bool {
        if self.done() {
            return false;
        }
        self.calls += 1;
        self.text.extend_from_slice(call.line().as_bytes());
        self.text.push(b'\n');
        !matches!(self.session.call(call), None | Some(Answer::Refused(_)))
    }

    /// Writes a line down as it stands, and carries it out if it is a call.
    pub fn line(&mut self, line: &[u8]) {
        if self.done() {
            return;
        }
        let mut answer = Vec::new();
        self.session.line(line, &mut answer);
        self.calls += u64::from(!answer.is_empty());
        self.text.extend_from_slice(line);
        self.text.push(b'\n');
    }

    pub fn set_up(&mut self, setup: Setup) -> bool {
        let offsets = setup.offsets;
        let taken = self.call(&Call::Setup(Box::new(setup)));
        if taken {
            self.offsets = offsets;
        }
        taken
    }

    /// A UART with document 01's bench settings.
    pub fn set_up_bench(&mut self) {
        self.set_up(registers::bench());
    }

    pub fn read(&mut self, now: u64, place: usize) -> bool {
        let offset = self.offsets[place];
        self.call(&Call::Read { now, offset })
    }

    pub fn write(&mut self, now: u64, place: usize, value: u32) -> bool {
        let offset = self.offsets[place];
        self.call(&Call::Write { now, offset, value })
    }

    /// A row of `count` random bytes.
    pub fn write_row(&mut self, now: u64, count: usize) -> bool {
        let bytes = self.random.bytes(count);
        self.call(&Call::WriteRow { now, bytes })
    }

    /// A host's hand-over of `count` random bytes.
    pub fn receive(&mut self, now: u64, at: u64, count: usize) -> bool {
        let bytes = self.random.bytes(count);
        self.call(&Call::Receive { now, at, bytes })
    }
}
