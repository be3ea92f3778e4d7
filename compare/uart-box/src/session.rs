//! A list of calls as lines: each line answered in order, on the UART that the last `setup` made.
use crate::answers;
use crate::calls::{self, Call};
use crate::figures;
use crate::the_box::{Answer, TheBox};

/// The UART in place, if one was set up.
#[derive(Default)]
pub struct Session {
    device: Option<TheBox>,
}

impl Session {
    /// Answers one line, without its line feed. A line that is passed over puts nothing.
    pub fn line(&mut self, line: &[u8], out: &mut Vec<u8>) {
        match calls::parse(line) {
            Ok(None) => {}
            Ok(Some(call)) => match self.call(&call) {
                Some(answer) => answers::put(out, &answer),
                None => {
                    let text = call.line();
                    let name = text.split(' ').next().unwrap_or_default();
                    answers::put_error(out, &format!("`{name}` before a UART is set up"));
                }
            },
            Err(reason) => answers::put_error(out, &reason),
        }
    }

    /// Answers one call; `None` where no UART is set up, but for `figures`, which needs none. A refused `setup` leaves
    /// the one before in place.
    pub fn call(&mut self, call: &Call) -> Option<Answer> {
        match call {
            Call::Setup(setup) => Some(match TheBox::set_up(setup) {
                Ok(device) => {
                    self.device = Some(device);
                    Answer::SetUp
                }
                Err(number) => Answer::Refused(number),
            }),
            Call::Figures { frames } => Some(figures::answer(frames)),
            _ => self.device.as_mut().map(|device| device.call(call)),
        }
    }

    #[must_use]
    pub fn device(&self) -> Option<&TheBox> {
        self.device.as_ref()
    }
}
