//! The printer's settings, always within their bounds.

use std::fmt;

use crate::row::{COLUMNS, Style};

/// Rising stops, at most `N`.
#[derive(Clone, Copy, Debug)]
pub struct Stops<const N: usize> {
    stops: [u8; N],
    len: u8,
}

impl<const N: usize> Stops<N> {
    const NONE: Stops<N> = Stops { stops: [0; N], len: 0 };

    /// The stops of a list, if they rise and lie between 1 and `highest`.
    pub fn rising(list: &[u8], highest: u8) -> Option<Stops<N>> {
        let in_range = list.iter().all(|stop| (1..=highest).contains(stop));
        let mut stops = Self::NONE;
        if !in_range || !list.is_sorted_by(|a, b| a < b) {
            return None;
        }
        stops.stops.get_mut(..list.len())?.copy_from_slice(list);
        stops.len = list.len() as u8;
        Some(stops)
    }

    pub fn as_slice(&self) -> &[u8] {
        &self.stops[..usize::from(self.len)]
    }
}

/// How a cut is made.
#[derive(Clone, Copy, PartialEq, Eq, Debug)]
pub enum Cut {
    Total,
    Partial,
}

/// What a cut command does.
#[derive(Clone, Copy, Debug)]
pub struct Cutter {
    pub on: bool,
    pub cut: Cut,
    /// Line feeds before a cut.
    pub lines_before: u8,
}

/// What an accepted configuration sets.
#[derive(Clone, Copy, Debug)]
pub struct Configuration {
    columns: u8,
    cutter: Cutter,
}

impl Configuration {
    /// The configuration that a body gives, if the digits that are read are in range.
    pub fn read(body: &[u8; 40]) -> Option<Configuration> {
        let on = digit(body[7], 1)? == 1;
        let cut = if digit(body[8], 1)? == 1 { Cut::Partial } else { Cut::Total };
        let columns = match body[10] {
            b'0' => COLUMNS as u8,
            b'2' => 34,
            _ => return None,
        };
        let lines_before = digit(body[33], 9)? * 10 + digit(body[34], 9)?;
        if lines_before > 20 || body[35] != b'1' {
            return None;
        }
        Some(Configuration { columns, cutter: Cutter { on, cut, lines_before } })
    }
}

/// The value of a digit up to `highest`.
fn digit(byte: u8, highest: u8) -> Option<u8> {
    let value = byte.wrapping_sub(b'0');
    (value <= highest).then_some(value)
}

/// All settings. Between them: left < right − 2, right ≤ columns, stops rise, the line number lies
/// on the page.
#[derive(Clone, Debug)]
pub struct Settings {
    style: Style,
    one_line_width: bool,
    columns: u8,
    left: u8,
    right: u8,
    spacing: u8,
    page: u8,
    line: u8,
    cutter: Cutter,
    horizontal: Stops<8>,
    vertical: Stops<16>,
}

impl Settings {
    const DEFAULT_STOPS: Stops<8> = Stops { stops: [8, 16, 24, 32, 40, 0, 0, 0], len: 5 };

    /// The settings of a new printer.
    pub const NEW: Settings = Settings {
        style: Style::PLAIN,
        one_line_width: false,
        columns: COLUMNS as u8,
        left: 1,
        right: COLUMNS as u8,
        spacing: 25,
        page: 66,
        line: 1,
        cutter: Cutter { on: true, cut: Cut::Total, lines_before: 0 },
        horizontal: Self::DEFAULT_STOPS,
        vertical: Stops::NONE,
    };

    /// The style in force.
    pub fn style(&self) -> Style {
        self.style
    }

    /// The style of a character that is put now: wide also by one-line width.
    #[inline]
    pub fn character_style(&self) -> Style {
        if self.one_line_width { self.style.with(Style::EXPANDED, true) } else { self.style }
    }

    pub fn left(&self) -> u8 {
        self.left
    }

    #[inline]
    pub fn right(&self) -> u8 {
        self.right
    }

    pub fn spacing(&self) -> u8 {
        self.spacing
    }

    pub fn cutter(&self) -> Cutter {
        self.cutter
    }

    pub fn set_style(&mut self, style: Style) {
        self.style = style;
    }

    pub fn set_one_line_width(&mut self, on: bool) {
        self.one_line_width = on;
    }

    pub fn set_spacing(&mut self, spacing: u8) {
        self.spacing = spacing;
    }

    /// A page of `lines` lines, on whose first line the paper stands.
    pub fn set_page(&mut self, lines: u8) -> Option<()> {
        if !(1..=127).contains(&lines) {
            return None;
        }
        self.page = lines;
        self.line = 1;
        Some(())
    }

    pub fn set_left(&mut self, left: u8) -> Option<()> {
        if !(1..=46).contains(&left) || left + 2 >= self.right {
            return None;
        }
        self.left = left;
        Some(())
    }

    pub fn set_right(&mut self, right: u8) -> Option<()> {
        if !(3..=self.columns).contains(&right) || self.left + 2 >= right {
            return None;
        }
        self.right = right;
        Some(())
    }

    pub fn set_horizontal_stops(&mut self, list: &[u8]) -> Option<()> {
        self.horizontal = Stops::rising(list, 47)?;
        Some(())
    }

    pub fn set_vertical_stops(&mut self, list: &[u8]) -> Option<()> {
        self.vertical = Stops::rising(list, 127)?;
        Some(())
    }

    /// Takes over an accepted configuration; the margins become 1 and the number of columns.
    pub fn configure(&mut self, configuration: Configuration) {
        self.cutter = configuration.cutter;
        self.set_columns(configuration.columns);
    }

    /// Turns off the attributes, and sets columns, margins and stops as at first.
    pub fn reset(&mut self) {
        self.style = Style::PLAIN;
        self.one_line_width = false;
        self.set_columns(COLUMNS as u8);
        self.horizontal = Self::DEFAULT_STOPS;
        self.vertical = Stops::NONE;
    }

    fn set_columns(&mut self, columns: u8) {
        self.columns = columns;
        self.left = 1;
        self.right = columns;
    }

    /// The first column with a stop beyond `position` and not beyond the right margin.
    pub fn next_column(&self, position: u8) -> Option<u8> {
        let mut columns = self.horizontal.as_slice().iter().map(|stop| self.left + stop);
        columns.find(|&column| column > position).filter(|&column| column <= self.right)
    }

    /// How many line feeds lead to the next vertical stop on this page, or 1 if there is none.
    pub fn lines_to_stop(&self) -> u8 {
        let next = self.vertical.as_slice().iter().find(|&&stop| stop > self.line);
        next.filter(|&&stop| stop <= self.page).map_or(1, |stop| stop - self.line)
    }

    /// How many line feeds lead to the next line 1.
    pub fn lines_to_page(&self) -> u8 {
        self.page - self.line + 1
    }

    /// Counts line feeds; behind the page's last line comes line 1.
    #[inline]
    pub fn count_lines(&mut self, count: u8) {
        let mut line = self.line + count;
        while line > self.page {
            line -= self.page;
        }
        self.line = line;
    }
}

/// All settings by name, as a script's answer shows them.
impl fmt::Display for Settings {
    fn fmt(&self, f: &mut fmt::Formatter<'_>) -> fmt::Result {
        write!(f, "columns {} left {} right {}", self.columns, self.left, self.right)?;
        write!(f, " stops {}", Numbers(self.horizontal.as_slice()))?;
        write!(f, " lines {}", Numbers(self.vertical.as_slice()))?;
        write!(f, " spacing {} page {} line {}", self.spacing, self.page, self.line)?;
        write!(f, " cutter {}", if self.cutter.on { "on" } else { "off" })?;
        write!(f, " cut {}", if self.cutter.cut == Cut::Total { "total" } else { "partial" })?;
        write!(f, " before {}", self.cutter.lines_before)?;
        for (name, style) in [
            ("emphasised", Style::EMPHASISED),
            ("double-height", Style::DOUBLE_HEIGHT),
            ("expanded", Style::EXPANDED),
            ("underline", Style::UNDERLINE),
            ("italic", Style::ITALIC),
        ] {
            write!(f, " {name} {}", yes_or_no(self.style.has(style)))?;
        }
        write!(f, " one-line {}", yes_or_no(self.one_line_width))
    }
}

/// `yes` or `no`.
pub fn yes_or_no(value: bool) -> &'static str {
    if value { "yes" } else { "no" }
}

/// Numbers with commas between them, `-` for none.
struct Numbers<'a>(&'a [u8]);

impl fmt::Display for Numbers<'_> {
    fn fmt(&self, f: &mut fmt::Formatter<'_>) -> fmt::Result {
        let Some((first, rest)) = self.0.split_first() else {
            return f.write_str("-");
        };
        write!(f, "{first}")?;
        rest.iter().try_for_each(|number| write!(f, ",{number}"))
    }
}
