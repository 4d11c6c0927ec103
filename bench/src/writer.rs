//! The text writer: writes the normal text of each action it takes.

use crate::action::Action;
use crate::mechanism::{Fault, Mechanism, State};
use crate::text;

/// A text in a buffer. What is behind the text is as it was found.
#[derive(Debug)]
pub struct Writer<'a> {
    state: State,
    buffer: &'a mut [u8],
    written: usize,
}

impl<'a> Writer<'a> {
    pub fn new(buffer: &'a mut [u8]) -> Writer<'a> {
        Writer { state: State::with_buffer(buffer), buffer, written: 0 }
    }

    pub fn written(&self) -> &[u8] {
        &self.buffer[..self.written]
    }
}

impl Mechanism for Writer<'_> {
    #[inline(always)]
    fn act(&mut self, action: Action<'_>) -> Result<(), Fault> {
        self.state.admit(action, text::need(action))?;
        let length = text::write(action, &mut self.buffer[self.written..]);
        self.written += length;
        self.state.count(action, length as u32);
        Ok(())
    }

    fn supply(&mut self, _offer: u32) -> u32 {
        0
    }

    fn state(&self) -> &State {
        &self.state
    }

    fn state_mut(&mut self) -> &mut State {
        &mut self.state
    }
}
