//! The drive plate: counts what it does, and spends its reserve on advances.

use crate::action::{Action, Reply};
use crate::bars::Verdict;
use crate::mechanism::{Fault, Mechanism, State};

/// The most reserve that a plate is supplied with.
pub const FULL: u32 = 10_000_000;

/// A plate, with the bytes of its latest reply beside its counts.
#[derive(Clone, Debug)]
pub struct Plate {
    state: State,
    reply: LatestReply,
}

#[derive(Clone, Copy, Debug)]
enum LatestReply {
    Status([u8; 1]),
    Fixed(&'static [u8]),
}

impl Default for Plate {
    fn default() -> Self {
        Self::new()
    }
}

impl Plate {
    pub fn new() -> Plate {
        Plate { state: State::with_reserve(0), reply: LatestReply::Fixed(b"") }
    }

    /// The bytes of the latest reply, none at first.
    pub fn latest_reply(&self) -> &[u8] {
        match &self.reply {
            LatestReply::Status(byte) => byte,
            LatestReply::Fixed(bytes) => bytes,
        }
    }

    fn reply(&self, reply: Reply) -> LatestReply {
        match reply {
            Reply::Status1 => LatestReply::Status([self.status().first]),
            Reply::Status2 => LatestReply::Status([self.status().second]),
            Reply::Identity => LatestReply::Fixed(b":20002\r"),
            Reply::Configuration => LatestReply::Fixed(b":\r"),
            Reply::Verdict(Verdict::WrongCharacter) => LatestReply::Fixed(b":E01\r"),
            Reply::Verdict(Verdict::WrongLength) => LatestReply::Fixed(b":E02\r"),
            Reply::Verdict(Verdict::UnknownKind) => LatestReply::Fixed(b":E99\r"),
        }
    }
}

impl Mechanism for Plate {
    #[inline(always)]
    fn act(&mut self, action: Action<'_>) -> Result<(), Fault> {
        let need = match action {
            Action::Advance(steps) => u32::from(steps),
            _ => 0,
        };
        self.state.admit(action, need)?;
        self.state.count(action, need);
        match action {
            Action::Bars(_) => self.reply = LatestReply::Fixed(b":E00\r"),
            Action::Reply(reply) => self.reply = self.reply(reply),
            _ => {}
        }
        Ok(())
    }

    fn supply(&mut self, offer: u32) -> u32 {
        let grant = offer.min(FULL - self.state.reserve);
        self.state.reserve += grant;
        grant
    }

    fn state(&self) -> &State {
        &self.state
    }

    fn state_mut(&mut self) -> &mut State {
        &mut self.state
    }
}
