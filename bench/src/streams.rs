//! Streams to compare and to measure with.

use crate::random::Random;

/// Uniformly random bytes.
pub fn uniform(random: &mut Random, length: usize) -> Vec<u8> {
    (0..length).map(|_| random.byte()).collect()
}

/// Commands of the whole table with text between them; most parameters are in range.
pub fn commands(random: &mut Random, length: usize) -> Vec<u8> {
    let mut stream = Vec::with_capacity(length + 64);
    while stream.len() < length {
        push_part(random, &mut stream);
    }
    stream.truncate(length);
    stream
}

/// Lot labels as a packing machine sends them, one behind the other.
pub fn tickets(length: usize) -> Vec<u8> {
    let mut stream = Vec::with_capacity(length + 512);
    for number in 0.. {
        if stream.len() >= length {
            break;
        }
        push_ticket(number, &mut stream);
    }
    stream.truncate(length);
    stream
}

/// Lot labels in which some bytes were changed, dropped or doubled.
pub fn damaged_tickets(random: &mut Random, length: usize) -> Vec<u8> {
    let whole = tickets(length + length / 4 + 64);
    let rate = random.choose(&[5, 20, 100]);
    let mut stream = Vec::with_capacity(length);
    for byte in whole {
        match random.below(3 * rate) {
            0 => stream.push(random.byte()),
            1 => {}
            2 => stream.extend([byte, byte]),
            _ => stream.push(byte),
        }
    }
    stream.truncate(length);
    stream
}

/// A stream that makes much work of each byte: what it begins with, and what it repeats.
#[derive(Clone, Copy, Debug)]
pub struct WorstCase {
    pub name: &'static str,
    begin: &'static [u8],
    repeat: &'static [u8],
}

/// The worst cases, each for another part of the work.
pub const WORST_CASES: &[WorstCase] = &[
    // Longest rows: all five attributes change at every character.
    WorstCase::new("attributes", b"", b"\x1B!\x98\x1B4\x01A\x14B"),
    // Most text of a row's characters for a byte: emphasised on and off.
    WorstCase::new("emphasis", b"", b"\x11A\x13B"),
    // A character a row, in the last columns: 44 blanks are written in front of it.
    WorstCase::new("far rows", b"\x1Bl\x2D", b"A\n"),
    // The same with wrapping text and wide characters.
    WorstCase::new("far wide rows", b"\x1Bl\x2D\x0E", b"A"),
    WorstCase::new("full rows", b"", b"ABCDEFGHIJKLMNOPQRSTUVWXYZ"),
    WorstCase::new("line feeds", b"", b"\x1Bf\x01\x7F"),
    // 127 advances for each byte: the longest text there is, 381 times the stream.
    WorstCase::new("form feeds", b"\x1BC\x7F", b"\x0C"),
    // 126 advances, then one.
    WorstCase::new("vertical tabs", b"\x1BC\x7F\x1BB\x7F\0", b"\x0B"),
    // 127 wide spaces that leave nothing but advances.
    WorstCase::new("wide spaces", b"\x0E", b"\x1Bf\x00\x7F"),
    // The same in the fewest columns.
    WorstCase::new("wrapped spaces", b"\x1Bl\x2D\x0E", b"\x1Bf\x00\x7F"),
    // Partial cuts with 20 line feeds before each.
    WorstCase::new("cuts", b"\x1B\xC60000000110000000000000000000000002010000", b"\x1Bm"),
    WorstCase::new("long bars", b"", b"\x1Bb\x05\x00\x00\x01ABCDEFGHIJKLMNOPQRSTUVWXY\0"),
    WorstCase::new("short bars", b"", b"\x1Bb\x03\x00\x00\x001\0"),
    WorstCase::new("verdicts", b"", b"\x1Bb\x01\x00\x00\x00\0"),
    WorstCase::new("replies", b"", b"\x05"),
    WorstCase::new("bodies", b"", b"\x1B\xE40000000100000000000000000000000000010000"),
    WorstCase::new("stops", b"", b"\x1BD\x01\x02\x03\x04\x05\x06\x07\x08\0"),
    WorstCase::new("deletes", b"\x0E", b"A\x7F"),
    WorstCase::new("tabs", b"", b"\x09\x09\x09\x09\x09A\n"),
    // Each margin asks whether a column is set.
    WorstCase::new("margins", b"", b"\x1Bl\x02\x1Bl\x01"),
    // Each unknown byte ends a feed.
    WorstCase::new("refusals", b"", b"\x01"),
];

impl WorstCase {
    const fn new(name: &'static str, begin: &'static [u8], repeat: &'static [u8]) -> WorstCase {
        WorstCase { name, begin, repeat }
    }

    /// The stream of this length.
    pub fn stream(&self, length: usize) -> Vec<u8> {
        let repeated = self.repeat.iter().cycle();
        self.begin.iter().chain(repeated).copied().take(length).collect()
    }
}

/// A stream whose advances, 255 steps each, pass 2^32 steps; it is too long to be normalised.
pub fn longest_advance() -> Vec<u8> {
    let form_feeds = std::iter::repeat_n(0x0C, 140_000);
    b"\x1B3\xFF\x1BC\x7F".iter().copied().chain(form_feeds).collect()
}

/// Room for the normal text of any stream of this length, with what a last row asks for. A byte
/// orders at most 127 advances of three bytes each, and a row only with text that came before it.
pub const fn longest_text(length: usize) -> usize {
    381 * length + 1000
}

/// A sort of streams for comparison.
#[derive(Clone, Copy, PartialEq, Eq, Debug)]
pub enum Sort {
    Uniform,
    Commands,
    Tickets,
    DamagedTickets,
    WorstCases,
    /// Worst cases one behind the other, each cut somewhere.
    MixedCases,
}

impl Sort {
    pub const ALL: [Sort; 6] = [
        Sort::Uniform,
        Sort::Commands,
        Sort::Tickets,
        Sort::DamagedTickets,
        Sort::WorstCases,
        Sort::MixedCases,
    ];

    pub fn name(self) -> &'static str {
        match self {
            Sort::Uniform => "random bytes",
            Sort::Commands => "commands",
            Sort::Tickets => "tickets",
            Sort::DamagedTickets => "damaged tickets",
            Sort::WorstCases => "worst cases",
            Sort::MixedCases => "mixed cases",
        }
    }

    /// A stream of this sort and length.
    pub fn stream(self, random: &mut Random, length: usize) -> Vec<u8> {
        match self {
            Sort::Uniform => uniform(random, length),
            Sort::Commands => commands(random, length),
            Sort::Tickets => tickets(length),
            Sort::DamagedTickets => damaged_tickets(random, length),
            Sort::WorstCases => random.choose(WORST_CASES).stream(length),
            Sort::MixedCases => mixed_cases(random, length),
        }
    }
}

fn mixed_cases(random: &mut Random, length: usize) -> Vec<u8> {
    let mut stream = Vec::with_capacity(length + 256);
    while stream.len() < length {
        let part = 1 + random.below(200);
        stream.extend(random.choose(WORST_CASES).stream(part));
    }
    stream.truncate(length);
    stream
}

/// A lot label: margins, a header in wide text, lines with mixed attributes, a bar code, a cut.
fn push_ticket(number: u32, stream: &mut Vec<u8>) {
    stream.extend(b"\x1B@\x1Bl\x03\x1BQ\x2E\x1BD\x0C\x18\x00");
    stream.extend(b"\x0E\x1BEMILL 3 PACKING\x1BF\x14\n\n");
    stream.extend(b"\x1B-\x01Lot\x1B-\x00\t");
    stream.extend(format!("L{:06}-{:02}", 240_000 + number, number % 97).bytes());
    stream.extend(b"\nArticle\t\x1BEWheat flour type 550\x1BF\n");
    stream.extend(b"Packed\t2024-05-");
    stream.extend(format!("{:02} {:02}:{:02}", 1 + number % 28, number % 24, number % 60).bytes());
    stream.extend(b"\r\nBest before\t\x1B!\x882025-11-30\x1B!\x00\r\n");
    stream.extend(b"Net weight\t\x1B\x0E25.0 kg\x1B\x14   ");
    stream.extend(b"\x1B4\x01tolerance 0.2 kg\x1B4\x00\n");
    stream.extend(b"Store dry and cool. Keep away from heat and from anything that smells.\n");
    stream.extend(b"\x1B3\x1E\x1Bf\x00\x08\x1Bw\x01PALLET ");
    stream.extend(format!("{:04}", number % 10_000).bytes());
    stream.extend(b"\x1Bw\x00\n\x1B2");
    stream.extend(b"\x1Bb\x01\x03\x50\x01");
    stream.extend(format!("{:012}", 400_123_450_000 + u64::from(number)).bytes());
    stream.extend(b"\0\n\x1Bf\x01\x03\x1Bm");
}

/// The commands of one byte.
const SINGLES: &[u8] = b"\x00\x05\x07\x09\x0A\x0B\x0C\x0D\x0E\x11\x13\x14\x18\x7F";
/// The codes behind 1B that are whole commands.
const PAIRS: &[u8] = b"\x0E\x14\x32\x40\x45\x46\x47\x48\x6D\x70\xC3";
/// The codes behind 1B with a parameter that is 0 or 1.
const SWITCHES: &[u8] = b"\x57\x77\x2D\x34";

/// Text or a command, mostly in range.
fn push_part(random: &mut Random, stream: &mut Vec<u8>) {
    match random.below(24) {
        0..=4 => push_text(random, stream),
        5..=7 => stream.push(random.choose(SINGLES)),
        8 => stream.extend(std::iter::repeat_n(random.choose(b"\x09\x7F\x0A"), random.below(6))),
        9..=10 => stream.extend([0x1B, random.choose(PAIRS)]),
        11..=12 => stream.extend([0x1B, random.choose(SWITCHES), switch(random)]),
        13 => stream.extend([0x1B, 0x21, random.byte()]),
        14 => push_feed(random, stream),
        15 => push_repeat(random, stream),
        16 => stream.extend([0x1B, 0x43, parameter(random, 1, 127)]),
        17 => push_stops(random, 0x42, 16, 127, stream),
        18 => push_stops(random, 0x44, 8, 47, stream),
        19 => stream.extend([0x1B, 0x6C, parameter(random, 1, 46)]),
        20 => stream.extend([0x1B, 0x51, parameter(random, 3, 48)]),
        21 => push_bars(random, stream),
        22 => push_body(random, stream),
        _ => push_odd(random, stream),
    }
}

/// A parameter in range, at its ends, or now and then anything.
fn parameter(random: &mut Random, low: u8, high: u8) -> u8 {
    match random.below(10) {
        0 => random.choose(&[low.wrapping_sub(1), low, high, high.wrapping_add(1)]),
        1 => random.byte(),
        _ => random.between(low, high),
    }
}

fn switch(random: &mut Random) -> u8 {
    if random.one_in(12) { random.byte() } else { random.between(0, 1) }
}

/// Text, at times with many spaces, at times longer than a row.
fn push_text(random: &mut Random, stream: &mut Vec<u8>) {
    let longest = random.choose(&[3, 12, 60, 130]);
    let length = 1 + random.below(longest);
    let spaces = random.choose(&[2, 4, 50]);
    for _ in 0..length {
        let byte = match random.below(spaces) {
            0 => b' ',
            _ if random.one_in(4) => random.between(0x80, 0xFF),
            _ => random.between(0x20, 0x7E),
        };
        stream.push(byte);
    }
}

fn push_feed(random: &mut Random, stream: &mut Vec<u8>) {
    let code = random.choose(&[0x33, 0x4A]);
    let steps = if random.one_in(4) { 0 } else { random.byte() };
    stream.extend([0x1B, code, steps]);
}

fn push_repeat(random: &mut Random, stream: &mut Vec<u8>) {
    let count = if random.one_in(2) { random.between(0, 9) } else { parameter(random, 0, 127) };
    stream.extend([0x1B, 0x66, switch(random), count]);
}

/// A list of stops: mostly rising, at times one too many, out of order, or with a high one.
fn push_stops(random: &mut Random, code: u8, most: usize, highest: u8, stream: &mut Vec<u8>) {
    let mut stops: Vec<u8> =
        (0..random.below(most + 2)).map(|_| random.between(1, highest)).collect();
    if !random.one_in(12) {
        stops.sort_unstable();
    }
    if !random.one_in(12) {
        stops.dedup();
    }
    if random.one_in(12) {
        stops.push(random.choose(&[highest, highest + 1, 0xFF]));
    }
    stream.extend([0x1B, code]);
    stream.extend(stops);
    stream.push(0);
}

const DIGITS: &[u8] = b"0123456789";
const CAPITALS: &[u8] = b"0123456789ABCDEFGHIJKLMNOPQRSTUVWXYZ-. $/+%";
const CODABAR: &[u8] = b"0123456789$-:/.+";
const CODABAR_ENDS: &[u8] = b"ABCD";

/// A bar code of any kind, mostly with a string that suits it.
fn push_bars(random: &mut Random, stream: &mut Vec<u8>) {
    let kind = if random.one_in(12) { random.byte() } else { random.between(1, 11) };
    let width = if random.one_in(3) { 0 } else { parameter(random, 2, 5) };
    let height = if random.one_in(3) { 0 } else { parameter(random, 50, 200) };
    let mut string = bar_string(random, kind);
    if random.one_in(8) && !string.is_empty() {
        let any = random.below(string.len());
        let place = random.choose(&[0, string.len() - 1, any]);
        string[place] = random.choose(b"0AE$:\x7F\x80\xFF ");
    }
    stream.extend([0x1B, 0x62, kind, width, height, switch(random)]);
    stream.extend(string);
    stream.push(0);
}

fn bar_string(random: &mut Random, kind: u8) -> Vec<u8> {
    let any = random.below(27);
    let length = match kind {
        _ if random.one_in(6) => random.choose(&[0, 1, any, any]),
        1 => 12,
        2 => 7,
        4 => 2 * (1 + random.below(12)),
        8 => 11,
        9 => 2 + random.below(24),
        _ => 1 + random.below(25),
    };
    let place = |i: usize| match kind {
        5 => random.between(1, 0x7F),
        6 | 7 => random.choose(CAPITALS),
        9 if i == 0 || i + 1 == length => random.choose(CODABAR_ENDS),
        9 => random.choose(CODABAR),
        _ => random.choose(DIGITS),
    };
    (0..length).map(place).collect()
}

/// A configuration, mostly in range; the bytes that are not read can be anything.
fn push_body(random: &mut Random, stream: &mut Vec<u8>) {
    let mut body = *b"0000000100000000000000000000000000010000";
    for byte in &mut body {
        if random.one_in(10) {
            *byte = random.byte();
        }
    }
    body[7] = random.choose(b"11111110");
    body[8] = random.choose(b"01");
    body[10] = random.choose(b"02");
    body[33] = random.choose(b"0001112");
    body[34] = random.choose(b"0001259");
    body[35] = b'1';
    if random.one_in(6) {
        let place = random.choose(&[7, 8, 10, 33, 34, 35]);
        body[place] = random.choose(b"0123:/9A\x00\xFF");
    }
    stream.extend([0x1B, random.choose(&[0xC6, 0xE4])]);
    stream.extend(body);
}

/// An unknown byte or pair, status 2, or anything.
fn push_odd(random: &mut Random, stream: &mut Vec<u8>) {
    match random.below(4) {
        0 => stream.push(random.byte()),
        1 => stream.extend([0x1B, random.byte()]),
        2 => stream.extend([0x1D, random.choose(b"\x05\x05\x05\x00\x1B")]),
        _ => stream.extend([random.between(0, 0x1F), random.byte()]),
    }
}
