//! The emulator's side: a machine that owns two UARTs and a cycle counter. It delivers each wake at the cycle that a report
//! names, and what UART0 sends arrives at UART1. `examples/machine.out` keeps what it prints.
use wondraxu::{Refusal, Report, Uart, BUFFER};

const FIFO: u32 = 0;
const INT_ST: u32 = 8;
const INT_ENA: u32 = 12;
const INT_CLR: u32 = 16;
const STATUS: u32 = 24;
const CONF1: u32 = 36;
const RXFIFO_FULL: u32 = 1 << 0;
const RXFIFO_TOUT: u32 = 1 << 8;
/// More than eight bytes raise RXFIFO_FULL, fewer than 96 TXFIFO_EMPTY; the receive timeout is enabled.
const SETTINGS: u32 = 8 | 96 << 9 | 1 << 21;

/// The bench settings: 16 registers from offset 0 on, a byte takes 420 cycles.
fn uart() -> Result<Uart, Refusal> {
    let mut reset_words = [0; 16];
    for (place, word) in [(5, 0x0080_000A), (8, 0x1C), (9, 0xC060), (10, 0x0230_0000), (14, 0x000A_0012)] {
        reset_words[place] = word;
    }
    Uart::new(std::array::from_fn(|place| 4 * place as u32), reset_words)
}

struct Machine {
    now: u64,
    uarts: [Uart; 2],
    /// The cycle at which each UART wants a wake.
    wakes: [Option<u64>; 2],
    /// The interrupt lines.
    levels: [bool; 2],
}

impl Machine {
    fn new() -> Result<Machine, Refusal> {
        let mut machine = Machine { now: 0, uarts: [uart()?, uart()?], wakes: [None; 2], levels: [false; 2] };
        for which in 0..2 {
            machine.write(which, CONF1, SETTINGS)?;
            machine.write(which, INT_ENA, RXFIFO_FULL | RXFIFO_TOUT)?;
        }
        // Each byte that UART0 sends asks for a wake when it has left.
        let watching = machine.uarts[0].watch(machine.now, true)?;
        machine.heed(0, &watching.report);
        Ok(machine)
    }

    fn say(&self, what: &str) {
        println!("cycle {:>6}: {what}", self.now);
    }

    /// What every dated call brings: the interrupt level, the next wake, and bytes that were lost.
    fn heed(&mut self, which: usize, report: &Report) {
        self.wakes[which] = report.wake();
        if self.levels[which] != report.level() {
            self.levels[which] = report.level();
            self.say(&format!("UART{which}'s interrupt level is {}", u8::from(report.level())));
        }
        if report.overflows() > 0 {
            self.say(&format!("UART{which} lost {} bytes", report.overflows()));
        }
        for notice in report.notices() {
            self.say(&format!("UART{which} notes {notice:?}"));
        }
    }

    fn read(&mut self, which: usize, offset: u32) -> Result<u32, Refusal> {
        let answer = self.uarts[which].read(self.now, offset)?;
        self.heed(which, &answer.report);
        Ok(answer.result.unwrap_or(0))
    }

    fn write(&mut self, which: usize, offset: u32, value: u32) -> Result<bool, Refusal> {
        let answer = self.uarts[which].write(self.now, offset, value)?;
        self.heed(which, &answer.report);
        Ok(answer.result)
    }

    /// The host, or another UART, sends bytes from now on.
    fn receive(&mut self, which: usize, bytes: &[u8]) -> Result<(), Refusal> {
        let answer = self.uarts[which].receive(self.now, self.now, bytes)?;
        self.heed(which, &answer.report);
        Ok(())
    }

    /// The line between the two: what has left UART0 starts at UART1.
    fn carry(&mut self) -> Result<(), Refusal> {
        if !self.uarts[0].has_left()? {
            return Ok(());
        }
        let mut out = [0; BUFFER];
        let taken = self.uarts[0].take_tx(self.now, &mut out)?;
        self.heed(0, &taken.report);
        self.receive(1, &out[..taken.result])
    }

    /// The firmware's interrupt handler: reads what was received, and clears what was raised.
    fn handle(&mut self, which: usize) -> Result<(), Refusal> {
        let raised = self.read(which, INT_ST)?;
        let mut row = Vec::new();
        for _ in 0..self.read(which, STATUS)? & 0x3FF {
            row.push(self.read(which, FIFO)? as u8);
        }
        self.say(&format!("UART{which}'s handler finds INT_ST {raised:#x}, reads {:?}", String::from_utf8_lossy(&row)));
        self.write(which, INT_CLR, raised)?;
        Ok(())
    }

    /// The earliest wake up to `until`. One that is past comes with the next cycle.
    fn next_wake(&self, until: u64) -> Option<(u64, usize)> {
        let due = |which: usize| self.wakes[which].map(|cycle| (cycle.max(self.now + 1), which));
        (0..2).filter_map(due).min().filter(|&(cycle, _)| cycle <= until)
    }

    fn run(&mut self, until: u64) -> Result<(), Refusal> {
        while let Some((cycle, which)) = self.next_wake(until) {
            self.now = cycle;
            let woken = self.uarts[which].wake(cycle)?;
            self.heed(which, &woken.report);
            self.carry()?;
            for which in 0..2 {
                if self.levels[which] {
                    self.handle(which)?;
                }
            }
        }
        self.now = until;
        Ok(())
    }
}

fn main() -> Result<(), Refusal> {
    let mut machine = Machine::new()?;
    machine.run(100)?;
    machine.say("the firmware writes a row to UART0's FIFO");
    for byte in *b"row 12, basket 7\n" {
        machine.write(0, FIFO, byte.into())?;
    }
    machine.run(10_000)?;
    machine.say("the host hands a row over to UART0");
    machine.receive(0, b"taken")?;
    machine.run(20_000)?;
    if let Err(refusal) = machine.receive(0, &[0; 1025]) {
        machine.say(&format!("1,025 bytes of the host are refused with {}: {refusal}", refusal.number()));
    }
    machine.say("the firmware reads UART1's FIFO once more");
    machine.read(1, FIFO)?;
    Ok(())
}
