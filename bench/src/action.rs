//! Actions, and those that are owed.

use crate::bars::{Bars, Verdict};
use crate::mechanism::{Fault, Mechanism};
use crate::row::Row;
use crate::settings::Cut;

/// What is replied to the host.
#[derive(Clone, Copy, PartialEq, Eq, Debug)]
pub enum Reply {
    Status1,
    Status2,
    Identity,
    Configuration,
    Verdict(Verdict),
}

/// What a mechanism carries out. Large ones are lent.
#[derive(Clone, Copy, Debug)]
pub enum Action<'a> {
    Row(&'a Row),
    /// Not 0.
    Advance(u8),
    Bars(&'a Bars),
    Cut(Cut),
    Pulse,
    Beep,
    Reply(Reply),
}

/// The action behind rows and advances that a byte can order; the bars themselves stand beside it.
#[derive(Clone, Copy, Debug)]
enum Last {
    Bars,
    Cut(Cut),
    Pulse,
    Beep,
    Reply(Reply),
}

/// The actions that one byte ordered and no mechanism has taken yet: at most a row, then equal
/// advances, then at most one other. Row and bars have their places, which are written anew only
/// when one is ordered.
#[derive(Clone, Debug)]
pub struct Owed {
    has_row: bool,
    advances: u8,
    steps: u8,
    last: Option<Last>,
    row: Row,
    bars: Bars,
}

impl Owed {
    pub const NOTHING: Owed = Owed {
        has_row: false,
        advances: 0,
        steps: 0,
        last: None,
        row: Row::EMPTY,
        bars: Bars::NONE,
    };

    #[inline]
    pub fn is_nothing(&self) -> bool {
        !self.has_row && self.advances == 0 && self.last.is_none()
    }

    /// How many actions are owed.
    pub fn count(&self) -> usize {
        usize::from(self.has_row) + usize::from(self.advances) + usize::from(self.last.is_some())
    }

    pub(crate) fn order_row(&mut self, row: Row) {
        self.row = row;
        self.has_row = true;
    }

    /// So many advances of `steps` steps each; none if that is 0.
    pub(crate) fn order_advances(&mut self, count: u8, steps: u8) {
        if steps > 0 {
            self.advances += count;
            self.steps = steps;
        }
    }

    pub(crate) fn order_bars(&mut self, bars: Bars) {
        self.bars = bars;
        self.last = Some(Last::Bars);
    }

    pub(crate) fn order_cut(&mut self, cut: Cut) {
        self.last = Some(Last::Cut(cut));
    }

    pub(crate) fn order_pulse(&mut self) {
        self.last = Some(Last::Pulse);
    }

    pub(crate) fn order_beep(&mut self) {
        self.last = Some(Last::Beep);
    }

    pub(crate) fn order_reply(&mut self, reply: Reply) {
        self.last = Some(Last::Reply(reply));
    }

    /// Offers what is owed, in order, until nothing is owed or the mechanism refuses.
    #[inline]
    pub fn offer_to<M: Mechanism>(&mut self, mechanism: &mut M) -> Result<(), Fault> {
        if self.has_row {
            mechanism.act(Action::Row(&self.row))?;
            self.has_row = false;
        }
        while self.advances > 0 {
            mechanism.act(Action::Advance(self.steps))?;
            self.advances -= 1;
        }
        if let Some(last) = self.last {
            mechanism.act(match last {
                Last::Bars => Action::Bars(&self.bars),
                Last::Cut(cut) => Action::Cut(cut),
                Last::Pulse => Action::Pulse,
                Last::Beep => Action::Beep,
                Last::Reply(reply) => Action::Reply(reply),
            })?;
            self.last = None;
        }
        Ok(())
    }
}
