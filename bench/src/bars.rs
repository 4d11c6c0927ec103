//! Bar codes: their kinds, and the verdict on a string.

/// The most bytes that a bar code's string has.
pub const LONGEST_STRING: usize = 25;

/// Why a bar code is not printed.
#[derive(Clone, Copy, PartialEq, Eq, Debug)]
pub enum Verdict {
    WrongCharacter,
    WrongLength,
    UnknownKind,
}

/// A bar code whose string its kind accepts, with all parameters filled in.
#[derive(Clone, Copy, Debug)]
pub struct Bars {
    kind: u8,
    width: u8,
    height: u8,
    shown: bool,
    string: [u8; LONGEST_STRING],
    len: u8,
}

/// The characters of a kind's strings.
#[derive(Clone, Copy)]
enum Alphabet {
    Digits,
    Capitals,
    Ascii,
    Codabar,
}

impl Alphabet {
    /// Whether `byte` may stand in a string; `at_end` for its first and its last place.
    fn has(self, byte: u8, at_end: bool) -> bool {
        match self {
            Alphabet::Digits => byte.is_ascii_digit(),
            Alphabet::Capitals => matches!(byte,
                b'0'..=b'9' | b'A'..=b'Z' | b'-' | b'.' | b' ' | b'$' | b'/' | b'+' | b'%'),
            Alphabet::Ascii => matches!(byte, 0x01..=0x7F),
            Alphabet::Codabar if at_end => matches!(byte, b'A'..=b'D'),
            Alphabet::Codabar => {
                matches!(byte, b'0'..=b'9' | b'$' | b'-' | b':' | b'/' | b'.' | b'+')
            }
        }
    }

    fn has_all(self, string: &[u8]) -> bool {
        let last = string.len().wrapping_sub(1);
        string.iter().enumerate().all(|(i, &byte)| self.has(byte, i == 0 || i == last))
    }
}

/// The alphabet of a kind.
fn alphabet(kind: u8) -> Option<Alphabet> {
    match kind {
        1..=4 | 8 | 10 | 11 => Some(Alphabet::Digits),
        5 => Some(Alphabet::Ascii),
        6 | 7 => Some(Alphabet::Capitals),
        9 => Some(Alphabet::Codabar),
        _ => None,
    }
}

/// Whether a kind's strings can have this length.
fn has_length(kind: u8, len: usize) -> bool {
    match kind {
        1 => len == 12,
        2 => len == 7,
        4 => len.is_multiple_of(2) && (2..=24).contains(&len),
        8 => len == 11,
        9 => (2..=25).contains(&len),
        _ => (1..=25).contains(&len),
    }
}

/// The verdict on a string of at most 25 bytes.
fn judge(kind: u8, string: &[u8]) -> Result<(), Verdict> {
    let alphabet = alphabet(kind).ok_or(Verdict::UnknownKind)?;
    if !alphabet.has_all(string) {
        return Err(Verdict::WrongCharacter);
    }
    if !has_length(kind, string.len()) {
        return Err(Verdict::WrongLength);
    }
    Ok(())
}

/// A parameter that is 0, which means `usual`, or between `usual` and `highest`.
fn parameter(value: u8, usual: u8, highest: u8) -> Option<u8> {
    match value {
        0 => Some(usual),
        _ => (usual..=highest).contains(&value).then_some(value),
    }
}

impl Bars {
    /// No bar code, to be overwritten.
    pub(crate) const NONE: Bars =
        Bars { kind: 0, width: 0, height: 0, shown: false, string: [0; LONGEST_STRING], len: 0 };

    /// The bar code of a command, or the verdict on it; nothing if width or height is out of range.
    pub fn new(
        [kind, width, height, shown]: [u8; 4],
        string: &[u8],
    ) -> Option<Result<Bars, Verdict>> {
        let width = parameter(width, 2, 5)?;
        let height = parameter(height, 50, 200)?;
        Some(judge(kind, string).map(|()| {
            let mut bytes = [0; LONGEST_STRING];
            bytes[..string.len()].copy_from_slice(string);
            let len = string.len() as u8;
            Bars { kind, width, height, shown: shown == 1, string: bytes, len }
        }))
    }

    /// Kind, width, height and whether the string is shown, as a command's parameters.
    pub fn parameters(&self) -> [u8; 4] {
        [self.kind, self.width, self.height, u8::from(self.shown)]
    }

    pub fn string(&self) -> &[u8] {
        &self.string[..usize::from(self.len)]
    }
}
