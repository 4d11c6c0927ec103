//! Commands, read byte by byte.
//!
//! The steps of the reader are inlined into their caller, so that a command is not put together in
//! memory only to be taken apart there.

use crate::action::Reply;
use crate::bars::LONGEST_STRING;
use crate::row::is_text;

/// The bytes of a configuration.
pub const BODY: usize = 40;

/// Why a command is refused.
#[derive(Clone, Copy, PartialEq, Eq, Debug)]
pub enum Reason {
    Unknown = 1,
    OutOfRange = 2,
    TooLong = 3,
}

/// A whole command, its parameters as they were sent.
#[derive(Clone, Copy, Debug)]
pub enum Command<'a> {
    Idle,
    Text(u8),
    Reply(Reply),
    Beep,
    Pulse,
    LineFeed,
    VerticalTab,
    FormFeed,
    HorizontalTab,
    CancelRow,
    Delete,
    AttributesOff,
    Emphasised(bool),
    OneLineWidth(bool),
    Expanded(u8),
    DoubleHeight(u8),
    Underline(u8),
    Italic(u8),
    PrintMode(u8),
    Spacing(u8),
    FeedSteps(u8),
    Repeat { what: u8, count: u8 },
    PageLength(u8),
    VerticalStops(&'a [u8]),
    HorizontalStops(&'a [u8]),
    LeftMargin(u8),
    RightMargin(u8),
    Cut,
    BarCode { parameters: [u8; 4], string: &'a [u8] },
    Configure { body: &'a [u8; BODY], reply: bool },
    Reset,
}

/// What is being read.
#[derive(Clone, Copy, PartialEq, Eq, Debug)]
enum Reading {
    Text,
    EscapeCode,
    GroupCode,
    /// So many bytes, whatever they are, complete the command.
    Bytes(u8),
    /// Parameters in front of a string.
    BarParameters,
    /// Bytes up to a 00, of which the command can have so many.
    UpToZero(usize),
}

/// The unfinished command: its code and the bytes behind it.
#[derive(Clone, Debug)]
pub struct Reader {
    reading: Reading,
    code: u8,
    kept: u8,
    length: u8,
    bytes: [u8; BODY],
}

impl Reader {
    pub const NEW: Reader =
        Reader { reading: Reading::Text, code: 0, kept: 0, length: 0, bytes: [0; BODY] };

    /// Whether text is read next.
    #[inline]
    pub fn reads_text(&self) -> bool {
        self.reading == Reading::Text
    }

    /// How many bytes of the present or, if there is none, the latest command were taken.
    pub fn length(&self) -> u8 {
        self.length
    }

    /// Takes a byte. Answers the command that it completes, nothing if more is to come, or why the
    /// command is refused; except in the second case text is read next.
    #[inline(always)]
    pub fn take(&mut self, byte: u8) -> Result<Option<Command<'_>>, Reason> {
        match self.reading {
            Reading::Text => self.take_first(byte),
            Reading::EscapeCode => self.take_code(byte),
            Reading::GroupCode => self.take_group_code(byte),
            Reading::Bytes(count) => Ok(self.take_one_of(count, byte)),
            Reading::BarParameters => Ok(self.take_bar_parameter(byte)),
            Reading::UpToZero(limit) => self.take_up_to_zero(limit, byte),
        }
    }

    #[inline(always)]
    fn take_first(&mut self, byte: u8) -> Result<Option<Command<'_>>, Reason> {
        self.length = 1;
        self.kept = 0;
        match byte {
            0x1B => self.reading = Reading::EscapeCode,
            0x1D => self.reading = Reading::GroupCode,
            _ => return single(byte).map(Some).ok_or(Reason::Unknown),
        }
        Ok(None)
    }

    #[inline(always)]
    fn take_code(&mut self, code: u8) -> Result<Option<Command<'_>>, Reason> {
        self.length = 2;
        self.code = code;
        self.reading = match code {
            0x21 | 0x2D | 0x33 | 0x34 | 0x43 | 0x4A | 0x51 | 0x57 | 0x6C | 0x77 => {
                Reading::Bytes(1)
            }
            0x66 => Reading::Bytes(2),
            0xC6 | 0xE4 => Reading::Bytes(BODY as u8),
            0x42 => Reading::UpToZero(16),
            0x44 => Reading::UpToZero(8),
            0x62 => Reading::BarParameters,
            _ => {
                self.reading = Reading::Text;
                return escape_pair(code).map(Some).ok_or(Reason::Unknown);
            }
        };
        Ok(None)
    }

    #[inline(always)]
    fn take_group_code(&mut self, code: u8) -> Result<Option<Command<'_>>, Reason> {
        self.length = 2;
        self.reading = Reading::Text;
        match code {
            0x05 => Ok(Some(Command::Reply(Reply::Status2))),
            _ => Err(Reason::Unknown),
        }
    }

    #[inline(always)]
    fn take_one_of(&mut self, count: u8, byte: u8) -> Option<Command<'_>> {
        self.keep(byte);
        if self.kept < count {
            return None;
        }
        self.reading = Reading::Text;
        Some(self.with_parameters())
    }

    #[inline(always)]
    fn take_bar_parameter(&mut self, byte: u8) -> Option<Command<'_>> {
        self.keep(byte);
        if self.kept == 4 {
            self.reading = Reading::UpToZero(4 + LONGEST_STRING);
        }
        None
    }

    #[inline(always)]
    fn take_up_to_zero(&mut self, limit: usize, byte: u8) -> Result<Option<Command<'_>>, Reason> {
        if byte == 0 {
            self.length += 1;
            self.reading = Reading::Text;
            return Ok(Some(self.with_list()));
        }
        if usize::from(self.kept) == limit {
            self.length += 1;
            self.reading = Reading::Text;
            return Err(Reason::TooLong);
        }
        self.keep(byte);
        Ok(None)
    }

    #[inline]
    fn keep(&mut self, byte: u8) {
        self.bytes[usize::from(self.kept)] = byte;
        self.kept += 1;
        self.length += 1;
    }

    /// The command whose last byte was counted.
    #[inline(always)]
    fn with_parameters(&self) -> Command<'_> {
        let n = self.bytes[0];
        match self.code {
            0x21 => Command::PrintMode(n),
            0x2D => Command::Underline(n),
            0x33 => Command::Spacing(n),
            0x34 => Command::Italic(n),
            0x43 => Command::PageLength(n),
            0x4A => Command::FeedSteps(n),
            0x51 => Command::RightMargin(n),
            0x57 => Command::Expanded(n),
            0x66 => Command::Repeat { what: n, count: self.bytes[1] },
            0x6C => Command::LeftMargin(n),
            0x77 => Command::DoubleHeight(n),
            code => Command::Configure { body: &self.bytes, reply: code == 0xE4 },
        }
    }

    /// The command whose list or string was ended.
    #[inline(always)]
    fn with_list(&self) -> Command<'_> {
        let kept = &self.bytes[..usize::from(self.kept)];
        match (self.code, kept) {
            (0x42, stops) => Command::VerticalStops(stops),
            (0x62, [n1, n2, n3, n4, string @ ..]) => {
                Command::BarCode { parameters: [*n1, *n2, *n3, *n4], string }
            }
            (_, stops) => Command::HorizontalStops(stops),
        }
    }
}

/// The command of one byte.
#[inline(always)]
fn single(byte: u8) -> Option<Command<'static>> {
    Some(match byte {
        0x00 | 0x0D => Command::Idle,
        0x05 => Command::Reply(Reply::Status1),
        0x07 => Command::Beep,
        0x09 => Command::HorizontalTab,
        0x0A => Command::LineFeed,
        0x0B => Command::VerticalTab,
        0x0C => Command::FormFeed,
        0x0E => Command::Expanded(1),
        0x11 => Command::Emphasised(true),
        0x13 => Command::Emphasised(false),
        0x14 => Command::AttributesOff,
        0x18 => Command::CancelRow,
        0x7F => Command::Delete,
        _ if is_text(byte) => Command::Text(byte),
        _ => return None,
    })
}

/// The command of 1B and a code alone.
#[inline(always)]
fn escape_pair(code: u8) -> Option<Command<'static>> {
    Some(match code {
        0x0E => Command::OneLineWidth(true),
        0x14 => Command::OneLineWidth(false),
        0x32 => Command::Spacing(25),
        0x40 => Command::Reset,
        0x45 | 0x47 => Command::Emphasised(true),
        0x46 | 0x48 => Command::Emphasised(false),
        0x6D => Command::Cut,
        0x70 => Command::Pulse,
        0xC3 => Command::Reply(Reply::Identity),
        _ => return None,
    })
}
