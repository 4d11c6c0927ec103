//! The page picture: writes down where each row stands and its characters.

use crate::action::Action;
use crate::mechanism::{Fault, Mechanism, State};
use crate::row::COLUMNS;

/// The bytes of a row: the advance in front of it, and its characters.
const ROW: usize = 4 + COLUMNS;

/// A page in a buffer.
#[derive(Debug)]
pub struct Page<'a> {
    state: State,
    buffer: &'a mut [u8],
    written: usize,
}

impl<'a> Page<'a> {
    pub fn new(buffer: &'a mut [u8]) -> Page<'a> {
        Page { state: State::with_buffer(buffer), buffer, written: 0 }
    }

    pub fn written(&self) -> &[u8] {
        &self.buffer[..self.written]
    }
}

impl Mechanism for Page<'_> {
    fn act(&mut self, action: Action<'_>) -> Result<(), Fault> {
        let need = match action {
            Action::Row(_) => ROW as u32,
            _ => 0,
        };
        self.state.admit(action, need)?;
        if let Action::Row(row) = action {
            let (place, characters) = self.buffer[self.written..][..ROW].split_at_mut(4);
            place.copy_from_slice(&self.state.counts.advance().to_be_bytes());
            characters.copy_from_slice(&row.codes());
            self.written += ROW;
        }
        self.state.count(action, need);
        Ok(())
    }

    fn supply(&mut self, _offer: u32) -> u32 {
        0
    }

    fn state(&self) -> &State {
        &self.state
    }

    fn state_mut(&mut self) -> &mut State {
        &mut self.state
    }
}
