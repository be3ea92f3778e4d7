//! Dates that aim: on, one before and one after each instant that the UART waits for.
use super::generator::Generator;
use uart_box::the_box::{DATES_END, Sight};

const SUBCYCLES: u64 = 32;

/// The instants to come, as the first cycle at which each is due.
fn cycles_to_come(sight: &Sight) -> Vec<u64> {
    let instants = [
        sight.start,
        sight.landing,
        sight.timeout,
        sight.first_gone,
        sight.last_gone,
        sight.below_threshold,
        sight.wake.map(|cycle| cycle.saturating_mul(SUBCYCLES)),
    ];
    instants.into_iter().flatten().map(|at| at.div_ceil(SUBCYCLES)).collect()
}

/// `cycle`, held between the last carried-out date and the last date of all.
fn within(sight: &Sight, cycle: u64) -> u64 {
    cycle.clamp(sight.last, DATES_END - 1)
}

impl Generator {
    /// On, one before or one after an instant to come; now where there is none.
    pub fn date_at_an_instant(&mut self) -> u64 {
        let sight = self.sight();
        let cycles = cycles_to_come(&sight);
        if cycles.is_empty() {
            return sight.last;
        }
        let cycle = self.random.pick(&cycles);
        self.date_around(cycle)
    }

    /// `cycle`, one before or one after, not before now.
    pub fn date_around(&mut self, cycle: u64) -> u64 {
        let sight = self.sight();
        let near = cycle.saturating_add(self.random.below(3)).saturating_sub(1);
        within(&sight, near)
    }

    /// Now, a little later, at an instant or past a few: what a running machine would bring.
    pub fn date(&mut self) -> u64 {
        let sight = self.sight();
        let byte = sight.byte_time / SUBCYCLES;
        let later = match self.random.below(100) {
            0..=24 => 0,
            25..=69 => return self.date_at_an_instant(),
            70..=79 => self.random.below(4),
            80..=87 => self.random.below(sight.bit_time / SUBCYCLES * 2 + 3),
            88..=95 => self.random.below(byte.saturating_mul(3) + 3),
            96..=98 => self.random.below(byte.saturating_mul(20) + 20),
            _ => self.random.below(byte.saturating_mul(140) + 140),
        };
        within(&sight, sight.last.saturating_add(later))
    }

    /// Past everything that waits, and a little more.
    pub fn date_past_all(&mut self) -> u64 {
        let sight = self.sight();
        let waiting = (sight.host + 2) as u64;
        let line = sight.byte_time.saturating_mul(waiting).saturating_add(sight.bit_time.saturating_mul(1024));
        let latest = [sight.landing, sight.timeout, sight.last_gone, sight.last_run_at].into_iter().flatten().max();
        let cycle = latest.unwrap_or(0).max(sight.last.saturating_mul(SUBCYCLES)).saturating_add(line) / SUBCYCLES;
        within(&sight, cycle.saturating_add(self.random.below(3)))
    }

    /// A date for `receive` to start at: now, past, soon, at the line's next free instant, around the last
    /// run's, or far away.
    pub fn start_date(&mut self, now: u64) -> u64 {
        let sight = self.sight();
        let byte = sight.byte_time / SUBCYCLES;
        match self.random.below(20) {
            0..=6 => now,
            7 => self.random.below(now.saturating_add(1)),
            8..=10 => now.saturating_add(self.random.below(byte.saturating_mul(2) + 4)),
            11..=13 => {
                let cycles = cycles_to_come(&sight);
                let cycle = if cycles.is_empty() { now } else { self.random.pick(&cycles) };
                cycle.saturating_add(self.random.below(3)).saturating_sub(1)
            }
            14..=17 => {
                let last = sight.last_run_at.unwrap_or(0) / SUBCYCLES;
                last.saturating_add(self.random.below(3)).saturating_sub(1)
            }
            18 => now.saturating_add(self.random.below(byte.saturating_mul(40) + 40)),
            _ => self.random.pick(&[DATES_END - 1, DATES_END, u64::MAX, u64::MAX / SUBCYCLES, now]),
        }
    }
}
