//! The published Rust in its box, behind the replay format.
use crate::{Side, line};
use uart_box::answers;
use uart_box::calls::Call;
use uart_box::session::Session;

#[derive(Default)]
pub struct Published(Session);

impl Side for Published {
    fn call(&mut self, call: &Call, out: &mut Vec<u8>) {
        match self.0.call(call) {
            Some(answer) => answers::put(out, &answer),
            None => line::no_uart(out),
        }
    }
}
