//! Characters in columns: the row that is being filled, and the row that is ordered.

/// The columns of a row.
pub const COLUMNS: usize = 48;

/// Whether a byte is text where text is read.
#[inline]
pub const fn is_text(byte: u8) -> bool {
    byte >= 0x20 && byte != 0x7F
}

/// The five attributes of a character, as bits: those of the command 1B 21, and italic as bit 0.
#[derive(Clone, Copy, PartialEq, Eq, Default, Debug)]
pub struct Style(u8);

impl Style {
    pub const PLAIN: Style = Style(0);
    pub const ITALIC: Style = Style(0x01);
    pub const EMPHASISED: Style = Style(0x08);
    pub const DOUBLE_HEIGHT: Style = Style(0x10);
    pub const EXPANDED: Style = Style(0x20);
    pub const UNDERLINE: Style = Style(0x80);

    /// The four attributes that the command 1B 21 sets.
    const PRINT_MODE: u8 = 0xB8;

    /// Whether any attribute of `other` is on.
    #[inline]
    pub const fn has(self, other: Style) -> bool {
        self.0 & other.0 != 0
    }

    /// This style with the attributes of `other` turned on or off.
    #[inline]
    pub const fn with(self, other: Style, on: bool) -> Style {
        Style(if on { self.0 | other.0 } else { self.0 & !other.0 })
    }

    /// This style with the four attributes of a print mode; the other bits of `mode` are not read.
    #[inline]
    pub const fn with_print_mode(self, mode: u8) -> Style {
        Style(self.0 & !Self::PRINT_MODE | mode & Self::PRINT_MODE)
    }

    /// The four attributes as the parameter of 1B 21.
    #[inline]
    pub const fn print_mode(self) -> u8 {
        self.0 & Self::PRINT_MODE
    }

    /// Italic as the parameter of 1B 34.
    #[inline]
    pub const fn italic(self) -> u8 {
        self.0 & Self::ITALIC.0
    }

    /// How many columns a character of this style fills.
    #[inline]
    pub const fn width(self) -> u8 {
        if self.has(Self::EXPANDED) { 2 } else { 1 }
    }
}

/// A column: a code with its style, and what it is part of.
///
/// A space without underline is put as a blank at once, with a plain style, since nothing but its
/// being set and its width can matter later.
#[derive(Clone, Copy, PartialEq, Eq, Debug)]
pub struct Cell {
    code: u8,
    marks: u8,
}

impl Cell {
    /// Marks share a byte with the style, in the bits that it leaves free.
    const SECOND: u8 = 0x02;
    const TAIL: u8 = 0x04;
    const SET: u8 = 0x40;
    const STYLE: u8 = Style::PRINT_MODE | Style::ITALIC.0;

    const UNSET: Cell = Cell::new(b' ', 0);
    const BLANK: Cell = Cell::new(b' ', Self::SET);
    const BLANK_SECOND: Cell = Cell::new(b' ', Self::SET | Self::SECOND);
    const VISIBLE_TAIL: Cell = Cell::new(b' ', Self::SET | Self::SECOND | Self::TAIL);

    const fn new(code: u8, marks: u8) -> Cell {
        Cell { code, marks }
    }

    /// A character in one column.
    #[inline]
    const fn narrow(code: u8, style: Style) -> Cell {
        if code == b' ' && !style.has(Style::UNDERLINE) {
            Self::BLANK
        } else {
            Cell::new(code, Self::SET | style.0)
        }
    }

    /// A character in two columns.
    #[inline]
    const fn wide(code: u8, style: Style) -> [Cell; 2] {
        let first = Self::narrow(code, style);
        [first, if first.is_blank() { Self::BLANK_SECOND } else { Self::VISIBLE_TAIL }]
    }

    /// The character's code; 20 for a blank or a tail.
    #[inline]
    pub const fn code(self) -> u8 {
        self.code
    }

    #[inline]
    pub const fn style(self) -> Style {
        Style(self.marks & Self::STYLE)
    }

    /// Whether this is the second column of a wide character that is not blank.
    #[inline]
    pub const fn is_tail(self) -> bool {
        self.marks & Self::TAIL != 0
    }

    #[inline]
    const fn is_blank(self) -> bool {
        self.code == b' ' && self.marks & (Style::UNDERLINE.0 | Self::TAIL) == 0
    }

    #[inline]
    const fn is_set(self) -> bool {
        self.marks & Self::SET != 0
    }

    #[inline]
    const fn is_second(self) -> bool {
        self.marks & Self::SECOND != 0
    }
}

/// A row as it is ordered: at least one column is not blank.
#[derive(Clone, Debug)]
pub struct Row {
    cells: [Cell; COLUMNS],
    end: u8,
}

impl Row {
    /// A row with nothing in it, to be overwritten.
    pub(crate) const EMPTY: Row = Row { cells: [Cell::UNSET; COLUMNS], end: 0 };

    /// The columns from the first to the last that is not blank.
    #[inline]
    pub fn cells(&self) -> &[Cell] {
        &self.cells[..usize::from(self.end)]
    }

    /// The codes of all columns, blanks and tails as 20.
    pub fn codes(&self) -> [u8; COLUMNS] {
        self.cells.map(Cell::code)
    }
}

/// The row that is being filled, and the position in it. Columns count from 1; those from the
/// position on are unset.
#[derive(Clone, Debug)]
pub struct OpenRow {
    cells: [Cell; COLUMNS],
    position: u8,
    visible: u8,
}

impl OpenRow {
    /// An empty row with this position.
    pub const fn at(position: u8) -> OpenRow {
        OpenRow { cells: [Cell::UNSET; COLUMNS], position, visible: 0 }
    }

    /// The column at which the next character is put.
    #[inline]
    pub fn position(&self) -> u8 {
        self.position
    }

    /// Whether all columns are blank.
    #[inline]
    pub fn is_blank(&self) -> bool {
        self.visible == 0
    }

    /// Whether no column is set.
    pub fn is_unset(&self) -> bool {
        !self.cells.iter().any(|cell| cell.is_set())
    }

    /// Moves on without setting a column.
    pub fn move_to(&mut self, column: u8) {
        self.position = column;
    }

    /// How many characters of this style fit between the position and the right margin.
    #[inline]
    pub fn room(&self, style: Style, right: u8) -> u8 {
        (right + 1).saturating_sub(self.position) / style.width()
    }

    /// Puts as much of the text that `bytes` begins with as fits. Answers how many bytes that were.
    #[inline]
    pub fn put_text(&mut self, bytes: &[u8], style: Style, right: u8) -> usize {
        let text = bytes.iter().copied().take_while(|&byte| is_text(byte));
        let free = self.cells.get_mut(usize::from(self.position) - 1..usize::from(right));
        let free = free.unwrap_or_default();
        let (mut put, mut visible) = (0, 0);
        if style.width() == 1 {
            for (cell, code) in free.iter_mut().zip(text) {
                *cell = Cell::narrow(code, style);
                visible += u8::from(!cell.is_blank());
                put += 1;
            }
            self.position += put;
        } else {
            for (pair, code) in free.as_chunks_mut().0.iter_mut().zip(text) {
                *pair = Cell::wide(code, style);
                visible += 2 * u8::from(!pair[0].is_blank());
                put += 1;
            }
            self.position += 2 * put;
        }
        self.visible += visible;
        usize::from(put)
    }

    /// Puts so many spaces without underline, for which there is room.
    pub fn put_spaces(&mut self, count: u8, style: Style) {
        let begin = usize::from(self.position) - 1;
        self.position += count * style.width();
        let cells = &mut self.cells[begin..usize::from(self.position) - 1];
        if style.width() == 1 {
            cells.fill(Cell::BLANK);
        } else {
            cells.as_chunks_mut().0.fill([Cell::BLANK, Cell::BLANK_SECOND]);
        }
    }

    /// Unsets the character before the position, which moves back, unless its last column is left
    /// of the margin.
    pub fn delete(&mut self, left: u8) {
        if self.position <= left {
            return;
        }
        let end = usize::from(self.position) - 1;
        let width = if self.cells[end - 1].is_second() { 2 } else { 1 };
        for cell in &mut self.cells[end - width..end] {
            self.visible -= u8::from(!cell.is_blank());
            *cell = Cell::UNSET;
        }
        self.position -= width as u8;
    }

    /// The row as it is ordered when it is closed.
    #[inline]
    pub fn closed(&self) -> Row {
        let put = &self.cells[..usize::from(self.position) - 1];
        let last = put.iter().rposition(|cell| !cell.is_blank());
        Row { cells: self.cells, end: last.map_or(0, |place| place as u8 + 1) }
    }
}
