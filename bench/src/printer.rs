//! What each command does to the settings and the open row, and what it orders.

use crate::action::{Owed, Reply};
use crate::bars::Bars;
use crate::reader::{BODY, Command};
use crate::row::{OpenRow, Style};
use crate::settings::{Configuration, Settings};

/// The printer's state between two commands.
#[derive(Clone, Debug)]
pub struct Printer {
    settings: Settings,
    row: OpenRow,
}

impl Printer {
    pub const NEW: Printer = Printer { settings: Settings::NEW, row: OpenRow::at(1) };

    pub fn settings(&self) -> &Settings {
        &self.settings
    }

    /// Carries a command out. Answers nothing if a parameter is out of range or order; then nothing
    /// has changed and nothing was ordered.
    #[inline]
    pub fn carry_out(&mut self, command: Command<'_>, owed: &mut Owed) -> Option<()> {
        match command {
            Command::Idle => {}
            Command::Text(code) => self.put(code, owed),
            Command::Reply(reply) => owed.order_reply(reply),
            Command::Beep => owed.order_beep(),
            Command::Pulse => owed.order_pulse(),
            Command::LineFeed => self.feed_lines(1, owed),
            Command::VerticalTab => self.feed_lines(self.settings.lines_to_stop(), owed),
            Command::FormFeed => self.feed_lines(self.settings.lines_to_page(), owed),
            Command::HorizontalTab => self.tabulate(),
            Command::CancelRow => self.empty_row(),
            Command::Delete => self.row.delete(self.settings.left()),
            Command::AttributesOff => self.turn_off(),
            Command::Emphasised(on) => self.turn(Style::EMPHASISED, on),
            Command::OneLineWidth(on) => self.settings.set_one_line_width(on),
            Command::Expanded(n) => self.turn(Style::EXPANDED, on_or_off(n)?),
            Command::DoubleHeight(n) => self.turn(Style::DOUBLE_HEIGHT, on_or_off(n)?),
            Command::Underline(n) => self.turn(Style::UNDERLINE, on_or_off(n)?),
            Command::Italic(n) => self.turn(Style::ITALIC, on_or_off(n)?),
            Command::PrintMode(n) => {
                self.settings.set_style(self.settings.style().with_print_mode(n));
            }
            Command::Spacing(steps) => self.settings.set_spacing(steps),
            Command::FeedSteps(steps) => {
                self.close_row(owed);
                owed.order_advances(1, steps);
            }
            Command::Repeat { what: 0, count: count @ 0..=127 } => self.put_spaces(count, owed),
            Command::Repeat { what: 1, count: count @ 0..=127 } => self.feed_lines(count, owed),
            Command::Repeat { .. } => return None,
            Command::PageLength(lines) => self.settings.set_page(lines)?,
            Command::VerticalStops(list) => self.settings.set_vertical_stops(list)?,
            Command::HorizontalStops(list) => self.settings.set_horizontal_stops(list)?,
            Command::LeftMargin(column) => self.set_left(column)?,
            Command::RightMargin(column) => self.settings.set_right(column)?,
            Command::Cut => self.cut(owed),
            Command::BarCode { parameters, string } => self.bar_code(parameters, string, owed)?,
            Command::Configure { body, reply } => self.configure(body, reply, owed)?,
            Command::Reset => {
                self.settings.reset();
                self.empty_row();
            }
        }
        Some(())
    }

    /// Puts the text that `bytes` begins with, as far as it fits in the row. Answers how many bytes
    /// that were.
    #[inline]
    pub fn put_text(&mut self, bytes: &[u8]) -> usize {
        self.row.put_text(bytes, self.settings.character_style(), self.settings.right())
    }

    /// Puts a character, behind a line feed if it would pass the right margin. One-line width ends
    /// with that line feed, so the width can be another then.
    fn put(&mut self, code: u8, owed: &mut Owed) {
        if self.put_text(&[code]) == 0 {
            self.feed_lines(1, owed);
            self.put_text(&[code]);
        }
    }

    /// Puts spaces without underline, which wrap like text.
    fn put_spaces(&mut self, mut count: u8, owed: &mut Owed) {
        while count > 0 {
            let style = self.settings.character_style();
            let fitting = self.row.room(style, self.settings.right()).min(count);
            self.row.put_spaces(fitting, style);
            count -= fitting;
            if count > 0 {
                self.feed_lines(1, owed);
            }
        }
    }

    fn turn(&mut self, attribute: Style, on: bool) {
        self.settings.set_style(self.settings.style().with(attribute, on));
    }

    fn turn_off(&mut self) {
        self.settings.set_style(Style::PLAIN);
        self.settings.set_one_line_width(false);
    }

    fn tabulate(&mut self) {
        if let Some(column) = self.settings.next_column(self.row.position()) {
            self.row.move_to(column);
        }
    }

    fn set_left(&mut self, column: u8) -> Option<()> {
        let moves = self.row.position() == self.settings.left() && self.row.is_unset();
        self.settings.set_left(column)?;
        if moves {
            self.row.move_to(column);
        }
        Some(())
    }

    fn empty_row(&mut self) {
        self.row = OpenRow::at(self.settings.left());
        self.settings.set_one_line_width(false);
    }

    fn close_row(&mut self, owed: &mut Owed) {
        if !self.row.is_blank() {
            owed.order_row(self.row.closed());
        }
        self.empty_row();
    }

    /// Makes so many line feeds; without any, nothing happens.
    fn feed_lines(&mut self, count: u8, owed: &mut Owed) {
        if count > 0 {
            self.close_row(owed);
            owed.order_advances(count, self.settings.spacing());
            self.settings.count_lines(count);
        }
    }

    fn cut(&mut self, owed: &mut Owed) {
        let cutter = self.settings.cutter();
        if cutter.on {
            self.close_row(owed);
            self.feed_lines(cutter.lines_before, owed);
            owed.order_cut(cutter.cut);
        }
    }

    fn bar_code(&mut self, parameters: [u8; 4], string: &[u8], owed: &mut Owed) -> Option<()> {
        match Bars::new(parameters, string)? {
            Ok(bars) => {
                self.close_row(owed);
                owed.order_bars(bars);
            }
            Err(verdict) => owed.order_reply(Reply::Verdict(verdict)),
        }
        Some(())
    }

    fn configure(&mut self, body: &[u8; BODY], reply: bool, owed: &mut Owed) -> Option<()> {
        self.settings.configure(Configuration::read(body)?);
        self.empty_row();
        if reply {
            owed.order_reply(Reply::Configuration);
        }
        Some(())
    }
}

/// A parameter that is 0 or 1.
fn on_or_off(n: u8) -> Option<bool> {
    match n {
        0 => Some(false),
        1 => Some(true),
        _ => None,
    }
}
