//! The normal text of a stream.

use crate::interpreter::Interpreter;
use crate::station::feed_all;
use crate::writer::Writer;

/// The most bytes of a stream that is normalised.
pub const LONGEST_STREAM: usize = 65_536;

/// How normalising ended.
#[derive(Clone, Copy, PartialEq, Eq, Debug)]
pub enum Outcome {
    /// The whole text is written.
    Whole = 0,
    /// The next text had no room; those before it are written.
    ShortBuffer = 5,
    /// The stream is too long; nothing is written.
    LongStream = 6,
}

/// What was written, how many commands were passed over as refused until then, and the outcome.
#[derive(Clone, Copy, PartialEq, Eq, Debug)]
pub struct Normalised {
    pub written: usize,
    pub refused: u32,
    pub outcome: Outcome,
}

/// Writes the normal text of `stream` at the front of `out`, the rest of which is left as found.
pub fn normalise(stream: &[u8], out: &mut [u8]) -> Normalised {
    if stream.len() > LONGEST_STREAM {
        return Normalised { written: 0, refused: 0, outcome: Outcome::LongStream };
    }
    let mut interpreter = Interpreter::new();
    let mut writer = Writer::new(out);
    let (_, refused, ended) = feed_all(&mut interpreter, &mut writer, stream);
    let outcome = if ended.is_ok() { Outcome::Whole } else { Outcome::ShortBuffer };
    Normalised { written: writer.written().len(), refused, outcome }
}
