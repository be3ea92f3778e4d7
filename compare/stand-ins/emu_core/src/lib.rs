//! A stand-in for inkemu's `emu_core`: the few names that the published UART, its context and its clock use.
//! Written here, after how those files use them; nothing is taken from inkemu's own crate.
use std::num::NonZeroU64;
use std::ops::Add;

/// A device time or a span of it, in cycles of the time base. Sums are held at the largest date.
#[derive(Clone, Copy, Debug, Default, PartialEq, Eq, PartialOrd, Ord)]
pub struct Cycles(pub u64);

impl Cycles {
    pub const ZERO: Cycles = Cycles(0);

    #[must_use]
    pub const fn get(self) -> u64 {
        self.0
    }
}

impl Add<u64> for Cycles {
    type Output = Cycles;

    fn add(self, cycles: u64) -> Cycles {
        Cycles(self.0.saturating_add(cycles))
    }
}

/// The handle of one scheduled event.
#[derive(Clone, Copy, Debug, PartialEq, Eq, PartialOrd, Ord)]
pub struct EventId(u64);

/// The events to come, by date and then by age. A UART keeps at most one, so a plain list serves.
#[derive(Debug)]
pub struct Scheduler<E> {
    entries: Vec<(Cycles, EventId, E)>,
    next_id: u64,
}

impl<E> Default for Scheduler<E> {
    fn default() -> Scheduler<E> {
        Scheduler::new()
    }
}

impl<E> Scheduler<E> {
    #[must_use]
    pub const fn new() -> Scheduler<E> {
        Scheduler { entries: Vec::new(), next_id: 0 }
    }

    pub fn schedule(&mut self, at: Cycles, event: E) -> EventId {
        let id = EventId(self.next_id);
        self.next_id += 1;
        self.entries.push((at, id, event));
        id
    }

    /// Takes an event back; one that was delivered or taken back is no longer here.
    pub fn cancel(&mut self, id: EventId) {
        self.entries.retain(|&(_, held, _)| held != id);
    }

    #[must_use]
    pub fn next_due(&self) -> Option<Cycles> {
        self.entries.iter().map(|&(at, _, _)| at).min()
    }

    #[must_use]
    pub fn stored_entries(&self) -> usize {
        self.entries.len()
    }

    /// The id that the next event will get.
    #[must_use]
    pub const fn watermark(&self) -> EventId {
        EventId(self.next_id)
    }

    pub fn pop_due(&mut self, now: Cycles) -> Option<(Cycles, E)> {
        self.pop_due_before(now, self.watermark())
    }

    /// The earliest event due by `now`, if its id is below `watermark`.
    pub fn pop_due_before(&mut self, now: Cycles, watermark: EventId) -> Option<(Cycles, E)> {
        let first = (0..self.entries.len()).min_by_key(|&i| (self.entries[i].0, self.entries[i].1))?;
        let (at, id) = (self.entries[first].0, self.entries[first].1);
        if at > now || id >= watermark {
            return None;
        }
        let (at, _, event) = self.entries.remove(first);
        Some((at, event))
    }
}

/// A device's registers, as the bus reaches them.
pub trait Peripheral<C> {
    fn read(&mut self, ctx: &mut C, offset: u32) -> Option<u32>;
    fn write(&mut self, ctx: &mut C, offset: u32, value: u32) -> bool;
}

/// A clock frequency in hertz, never 0.
#[derive(Clone, Copy, Debug, PartialEq, Eq, PartialOrd, Ord)]
pub struct Frequency(NonZeroU64);

impl Frequency {
    #[must_use]
    pub const fn new(hz: NonZeroU64) -> Frequency {
        Frequency(hz)
    }

    #[must_use]
    pub fn from_hz(hz: u64) -> Option<Frequency> {
        NonZeroU64::new(hz).map(Frequency)
    }

    #[must_use]
    pub const fn hz(self) -> u64 {
        self.0.get()
    }
}

#[cfg(test)]
mod tests {
    use super::*;

    #[test]
    fn events_come_by_date_then_by_age() {
        let mut events = Scheduler::new();
        events.schedule(Cycles(20), 'b');
        events.schedule(Cycles(10), 'a');
        events.schedule(Cycles(20), 'c');
        assert_eq!(events.next_due(), Some(Cycles(10)));
        assert_eq!(events.pop_due(Cycles(9)), None);
        assert_eq!(events.pop_due(Cycles(20)), Some((Cycles(10), 'a')));
        assert_eq!(events.pop_due(Cycles(20)), Some((Cycles(20), 'b')));
        assert_eq!(events.pop_due(Cycles(20)), Some((Cycles(20), 'c')));
        assert_eq!(events.pop_due(Cycles(20)), None);
    }

    #[test]
    fn an_event_taken_back_is_gone_and_a_newer_one_waits_behind_the_watermark() {
        let mut events = Scheduler::new();
        let first = events.schedule(Cycles(1), 'a');
        events.cancel(first);
        assert_eq!(events.stored_entries(), 0);
        let watermark = events.watermark();
        events.schedule(Cycles(1), 'b');
        assert_eq!(events.pop_due_before(Cycles(5), watermark), None);
        assert_eq!(events.pop_due(Cycles(5)), Some((Cycles(1), 'b')));
    }

    #[test]
    fn sums_of_cycles_are_held() {
        assert_eq!(Cycles(u64::MAX - 1) + 5, Cycles(u64::MAX));
    }
}
