//! The normal text of each action.

use crate::action::{Action, Reply};
use crate::bars::{Bars, Verdict};
use crate::row::{Row, Style};
use crate::settings::Cut;

/// What a row's text never exceeds, and what a writer asks for before it writes one.
pub const ROW_NEED: u32 = 345;

const TOTAL_CUT: &[u8] = b"\x1Bm";
const PARTIAL_CUT: &[u8] =
    b"\x1B\xC60000000110000000000000000000000000010000\x1Bm\x1B\xC60000000100000000000000000000000000010000";
const CONFIGURATION: &[u8] = b"\x1B\xE40000000100000000000000000000000000010000";

/// How long an action's text is; of a row, how long it can be at most.
#[inline(always)]
pub fn need(action: Action<'_>) -> u32 {
    match action {
        Action::Row(_) => ROW_NEED,
        Action::Advance(_) => 3,
        Action::Bars(bars) => 7 + bars.string().len() as u32,
        Action::Cut(cut) => cut_text(cut).len() as u32,
        Action::Pulse => 2,
        Action::Beep => 1,
        Action::Reply(reply) => reply_text(reply).len() as u32,
    }
}

/// Writes an action's text at the front of `out`, which is long enough for its need, and answers
/// the length.
#[inline(always)]
pub fn write(action: Action<'_>, out: &mut [u8]) -> usize {
    match action {
        Action::Row(row) => write_row(row, out),
        Action::Advance(steps) => write_fixed(&[0x1B, 0x4A, steps], out),
        Action::Bars(bars) => write_bars(bars, out),
        Action::Cut(cut) => write_fixed(cut_text(cut), out),
        Action::Pulse => write_fixed(b"\x1Bp", out),
        Action::Beep => write_fixed(b"\x07", out),
        Action::Reply(reply) => write_fixed(reply_text(reply), out),
    }
}

fn cut_text(cut: Cut) -> &'static [u8] {
    match cut {
        Cut::Total => TOTAL_CUT,
        Cut::Partial => PARTIAL_CUT,
    }
}

fn reply_text(reply: Reply) -> &'static [u8] {
    match reply {
        Reply::Status1 => b"\x05",
        Reply::Status2 => b"\x1D\x05",
        Reply::Identity => b"\x1B\xC3",
        Reply::Configuration => CONFIGURATION,
        Reply::Verdict(Verdict::WrongCharacter) => b"\x1Bb\x01\0\0\0A\0",
        Reply::Verdict(Verdict::WrongLength) => b"\x1Bb\x01\0\0\0\0",
        Reply::Verdict(Verdict::UnknownKind) => b"\x1Bb\0\0\0\0\0",
    }
}

#[inline]
fn write_fixed(text: &[u8], out: &mut [u8]) -> usize {
    out[..text.len()].copy_from_slice(text);
    text.len()
}

fn write_bars(bars: &Bars, out: &mut [u8]) -> usize {
    let [kind, width, height, shown] = bars.parameters();
    let end = 6 + bars.string().len();
    out[..6].copy_from_slice(&[0x1B, 0x62, kind, width, height, shown]);
    out[6..end].copy_from_slice(bars.string());
    out[end] = 0;
    end + 1
}

fn write_row(row: &Row, out: &mut [u8]) -> usize {
    let out = out.first_chunk_mut().expect("a row is written where there is room for any");
    let mut text = RowText { out, len: 0, style: Style::PLAIN };
    for cell in row.cells().iter().filter(|cell| !cell.is_tail()) {
        text.change_to(cell.style());
        text.push(cell.code());
    }
    text.change_to(Style::PLAIN);
    text.extend([0x1B, 0x4A, 0]);
    text.len
}

/// A row's text while it is written, with the style in force.
struct RowText<'a> {
    out: &'a mut [u8; ROW_NEED as usize],
    len: usize,
    style: Style,
}

impl RowText<'_> {
    #[inline]
    fn push(&mut self, byte: u8) {
        self.out[self.len] = byte;
        self.len += 1;
    }

    #[inline]
    fn extend<const N: usize>(&mut self, bytes: [u8; N]) {
        self.out[self.len..self.len + N].copy_from_slice(&bytes);
        self.len += N;
    }

    #[inline]
    fn change_to(&mut self, style: Style) {
        if style == self.style {
            return;
        }
        if style.print_mode() != self.style.print_mode() {
            self.extend([0x1B, 0x21, style.print_mode()]);
        }
        if style.italic() != self.style.italic() {
            self.extend([0x1B, 0x34, style.italic()]);
        }
        self.style = style;
    }
}
