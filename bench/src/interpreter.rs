//! The interpreter: takes a stream byte by byte and owes what it orders.

use crate::action::Owed;
use crate::printer::Printer;
use crate::reader::{Reader, Reason};
use crate::row::is_text;
use crate::settings::Settings;

/// A refused command: why, and how many bytes it had up to there.
#[derive(Clone, Copy, PartialEq, Eq, Debug)]
pub struct Refusal {
    pub reason: Reason,
    pub length: u8,
}

/// Reader, printer, and what is owed to the mechanism.
#[derive(Clone, Debug)]
pub struct Interpreter {
    reader: Reader,
    printer: Printer,
    owed: Owed,
}

impl Default for Interpreter {
    fn default() -> Self {
        Self::new()
    }
}

impl Interpreter {
    pub const fn new() -> Interpreter {
        Interpreter { reader: Reader::NEW, printer: Printer::NEW, owed: Owed::NOTHING }
    }

    /// The settings behind the bytes taken, also while actions are owed.
    pub fn settings(&self) -> &Settings {
        self.printer.settings()
    }

    pub fn owed(&self) -> &Owed {
        &self.owed
    }

    /// What is owed, to be offered; it has to be nothing before the next byte is taken.
    #[inline]
    pub fn owed_mut(&mut self) -> &mut Owed {
        &mut self.owed
    }

    /// Takes a byte; what it orders is owed afterwards. A refused command leaves nothing behind.
    #[inline]
    pub fn take(&mut self, byte: u8) -> Result<(), Refusal> {
        debug_assert!(self.owed.is_nothing());
        let done = match self.reader.take(byte) {
            Ok(None) => Ok(()),
            Ok(Some(command)) => {
                self.printer.carry_out(command, &mut self.owed).ok_or(Reason::OutOfRange)
            }
            Err(reason) => Err(reason),
        };
        done.map_err(|reason| Refusal { reason, length: self.reader.length() })
    }

    /// Takes the text that `bytes` begins with, as far as it fits in the open row and so orders
    /// nothing; none while a command is unfinished. Answers how many bytes that were.
    #[inline]
    pub fn take_text(&mut self, bytes: &[u8]) -> usize {
        match bytes {
            [first, ..] if is_text(*first) && self.reader.reads_text() => {
                self.printer.put_text(bytes)
            }
            _ => 0,
        }
    }
}
