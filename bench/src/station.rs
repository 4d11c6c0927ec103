//! Feeding a stream through an interpreter to a mechanism.

use crate::interpreter::Interpreter;
use crate::mechanism::{Fault, Mechanism};
use crate::plate::{FULL, Plate};
use crate::reader::Reason;

/// How a feed ended before its piece did.
#[derive(Clone, Copy, PartialEq, Eq, Debug)]
pub enum FeedFault {
    /// An action was refused; it is owed still.
    Mechanism(Fault),
    /// A command was refused. The place of its first byte counts from the piece's start and is
    /// negative, down to −41, if it began in an earlier piece.
    Command { reason: Reason, place: i64 },
}

impl From<Fault> for FeedFault {
    fn from(fault: Fault) -> Self {
        FeedFault::Mechanism(fault)
    }
}

/// Feeds a piece. Answers how many bytes of it were taken, and how it ended.
#[inline]
pub fn feed<M: Mechanism>(
    interpreter: &mut Interpreter,
    mechanism: &mut M,
    piece: &[u8],
) -> (usize, Result<(), FeedFault>) {
    let mut taken = 0;
    let ended = feed_counting(interpreter, mechanism, piece, &mut taken);
    (taken, ended)
}

#[inline]
fn feed_counting<M: Mechanism>(
    interpreter: &mut Interpreter,
    mechanism: &mut M,
    piece: &[u8],
    taken: &mut usize,
) -> Result<(), FeedFault> {
    interpreter.owed_mut().offer_to(mechanism)?;
    loop {
        *taken += interpreter.take_text(&piece[*taken..]);
        let Some(&byte) = piece.get(*taken) else {
            return Ok(());
        };
        *taken += 1;
        interpreter.take(byte).map_err(|refusal| FeedFault::Command {
            reason: refusal.reason,
            place: *taken as i64 - i64::from(refusal.length),
        })?;
        interpreter.owed_mut().offer_to(mechanism)?;
    }
}

/// Feeds the whole stream, passing over refused commands, until the mechanism refuses an action.
/// Answers how many bytes were taken and how many commands passed over.
pub fn feed_all<M: Mechanism>(
    interpreter: &mut Interpreter,
    mechanism: &mut M,
    stream: &[u8],
) -> (usize, u32, Result<(), Fault>) {
    let (mut taken, mut refused) = (0, 0);
    loop {
        let (count, ended) = feed(interpreter, mechanism, &stream[taken..]);
        taken += count;
        match ended {
            Ok(()) => return (taken, refused, Ok(())),
            Err(FeedFault::Command { .. }) => refused += 1,
            Err(FeedFault::Mechanism(fault)) => return (taken, refused, Err(fault)),
        }
    }
}

/// What a plate counted, and how many commands were passed over.
#[derive(Clone, Copy, PartialEq, Eq, Debug)]
pub struct Fed {
    pub counts: [u32; 7],
    pub refused: u32,
}

/// Feeds a whole stream to a new plate, which is filled up at first and whenever it runs short.
pub fn feed_plate(stream: &[u8]) -> Fed {
    let mut interpreter = Interpreter::new();
    let mut plate = Plate::new();
    let (mut taken, mut refused) = (0, 0);
    loop {
        plate.supply(FULL);
        let (count, passed_over, ended) = feed_all(&mut interpreter, &mut plate, &stream[taken..]);
        taken += count;
        refused += passed_over;
        if ended.is_ok() {
            return Fed { counts: plate.state().counts.0, refused };
        }
    }
}
