//! What carries actions out.

use crate::action::Action;

/// Why an action is refused.
#[derive(Clone, Copy, PartialEq, Eq, Debug)]
pub enum Fault {
    Stopped = 4,
    ShortReserve = 5,
}

/// The steps advanced, and how many rows, bars, cuts, pulses, beeps and replies were carried out;
/// all modulo 2^32.
#[derive(Clone, Copy, PartialEq, Eq, Default, Debug)]
pub struct Counts(pub [u32; 7]);

impl Counts {
    pub fn advance(&self) -> u32 {
        self.0[0]
    }

    #[inline]
    fn add(&mut self, action: Action<'_>) {
        let (place, amount) = match action {
            Action::Advance(steps) => (0, u32::from(steps)),
            Action::Row(_) => (1, 1),
            Action::Bars(_) => (2, 1),
            Action::Cut(_) => (3, 1),
            Action::Pulse => (4, 1),
            Action::Beep => (5, 1),
            Action::Reply(_) => (6, 1),
        };
        self.0[place] = self.0[place].wrapping_add(amount);
    }
}

/// Both status bytes.
#[derive(Clone, Copy, PartialEq, Eq, Debug)]
pub struct Status {
    pub first: u8,
    pub second: u8,
}

/// What every mechanism has.
#[derive(Clone, Debug)]
pub struct State {
    pub counts: Counts,
    pub reserve: u32,
    pub stopped: bool,
}

impl State {
    /// Unstopped, with counts 0.
    pub fn with_reserve(reserve: u32) -> State {
        State { counts: Counts::default(), reserve, stopped: false }
    }

    /// Unstopped, with counts 0 and a buffer's length as reserve, at most 2^32 − 1.
    pub fn with_buffer(buffer: &[u8]) -> State {
        Self::with_reserve(u32::try_from(buffer.len()).unwrap_or(u32::MAX))
    }

    /// Whether an action with this need can be taken now.
    #[inline]
    pub fn admit(&self, action: Action<'_>, need: u32) -> Result<(), Fault> {
        if self.stopped && !matches!(action, Action::Reply(_)) {
            return Err(Fault::Stopped);
        }
        if self.reserve < need {
            return Err(Fault::ShortReserve);
        }
        Ok(())
    }

    /// Counts an action taken, which used up so much of the reserve.
    #[inline]
    pub fn count(&mut self, action: Action<'_>, used: u32) {
        self.counts.add(action);
        self.reserve -= used;
    }

    pub fn status(&self) -> Status {
        let bit = |value: bool, number: u8| u8::from(value) << number;
        let (stopped, empty) = (self.stopped, self.reserve == 0);
        let not_ready = stopped || empty;
        Status {
            first: 0b0100_0110
                | bit(not_ready, 3)
                | bit(!stopped, 4)
                | bit(empty, 5)
                | bit(stopped, 7),
            second: 0b0000_0100
                | bit(empty, 1)
                | bit(stopped, 3)
                | bit(!empty, 4)
                | bit(not_ready, 6),
        }
    }
}

/// A plate, a page, a writer, or another.
pub trait Mechanism {
    /// Carries an action out, or refuses it and changes nothing.
    fn act(&mut self, action: Action<'_>) -> Result<(), Fault>;

    /// Raises the reserve by the grant it answers, which is at most the offer.
    fn supply(&mut self, offer: u32) -> u32;

    fn state(&self) -> &State;

    fn state_mut(&mut self) -> &mut State;

    /// A mechanism with an open cover is stopped.
    fn cover(&mut self, open: bool) {
        self.state_mut().stopped = open;
    }

    fn status(&self) -> Status {
        self.state().status()
    }
}
