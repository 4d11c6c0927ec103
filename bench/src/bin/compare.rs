//! Compares the station with the rules in plain Rust on random streams.
//!
//!     compare [COUNT [SEED [MAX_LENGTH]]]
//!
//! Makes COUNT streams of each sort, and a buffer for each, and compares every byte of the buffer,
//! length, count of refused commands and outcome of normalise, and the counts of a plate. Ends with
//! status 1 and the first difference if there is one.

use std::env;
use std::process::ExitCode;
use std::time::{Duration, Instant};

use station_bench::hex;
use station_bench::normalise::{LONGEST_STREAM, normalise};
use station_bench::product::{self, Answer};
use station_bench::random::Random;
use station_bench::station::feed_plate;
use station_bench::streams::{Sort, longest_advance, longest_text};
use station_bench::text::ROW_NEED;

fn main() -> ExitCode {
    let mut arguments = env::args().skip(1).map(|text| text.parse::<usize>());
    let mut argument = |default| match arguments.next() {
        None => Some(default),
        Some(number) => number.ok(),
    };
    let (Some(count), Some(seed), Some(max)) = (argument(2000), argument(1), argument(2000)) else {
        eprintln!("usage: compare [COUNT [SEED [MAX_LENGTH]]]");
        return ExitCode::from(2);
    };
    println!("{count} streams of each sort, seed {seed}, up to {max} bytes");
    let mut comparison = Comparison::new(seed as u64, max.max(LONGEST_STREAM + 1));
    for sort in Sort::ALL {
        let lengths = Lengths::UpTo(max);
        comparison.compare(sort.name(), sort, count, lengths);
    }
    for sort in Sort::ALL {
        comparison.compare("longest streams", sort, 3, Lengths::AroundLongest);
    }
    let case = Case { stream: longest_advance(), room: 100, pattern: 0 };
    comparison.count("longest streams", case);
    comparison.report()
}

/// How long the streams are.
#[derive(Clone, Copy)]
enum Lengths {
    UpTo(usize),
    /// Around the most that is normalised.
    AroundLongest,
}

/// A stream, the length of the buffer for its text, and what the buffer is filled with.
#[derive(Clone)]
struct Case {
    stream: Vec<u8>,
    room: usize,
    pattern: u8,
}

/// What was compared so far.
struct Comparison {
    random: Random,
    scratch: Vec<u8>,
    totals: Vec<Totals>,
    first: Option<(&'static str, Case)>,
}

/// What was compared of a sort of streams.
#[derive(Default)]
struct Totals {
    name: &'static str,
    streams: usize,
    bytes: usize,
    texts: usize,
    refused: usize,
    whole: usize,
    short: usize,
    long: usize,
    different: usize,
}

impl Comparison {
    fn new(seed: u64, longest: usize) -> Comparison {
        Comparison {
            random: Random::new(seed),
            scratch: vec![0; longest_text(longest)],
            totals: Vec::new(),
            first: None,
        }
    }

    fn compare(&mut self, name: &'static str, sort: Sort, count: usize, lengths: Lengths) {
        if self.totals.last().is_none_or(|totals| totals.name != name) {
            self.totals.push(Totals { name, ..Totals::default() });
        }
        for number in 0..count {
            let length = match lengths {
                Lengths::UpTo(max) => self.length_up_to(max),
                Lengths::AroundLongest => LONGEST_STREAM - 1 + number % 3,
            };
            let stream = sort.stream(&mut self.random, length);
            let room = self.room(&stream);
            let case = Case { stream, room, pattern: self.random.byte() };
            self.count(name, case);
        }
    }

    /// Short streams as often as long ones.
    fn length_up_to(&mut self, max: usize) -> usize {
        let most = if self.random.one_in(2) { max.min(64) } else { max };
        self.random.below(most + 1)
    }

    /// No room, too little, exactly as much as the text, around what its last row asks for, or more.
    fn room(&mut self, stream: &[u8]) -> usize {
        let exact = normalise(stream, &mut self.scratch).written;
        let random = &mut self.random;
        match random.below(8) {
            0 => 0,
            1 => random.below(exact + 1),
            2 => exact,
            3 => exact.saturating_sub(random.below(10)),
            4..=5 => exact + random.below(ROW_NEED as usize + 2),
            _ => exact + ROW_NEED as usize + random.below(100),
        }
    }

    fn count(&mut self, name: &'static str, case: Case) {
        let outcome = difference(&case);
        let totals = self.totals.last_mut().expect("a sort is being compared");
        totals.streams += 1;
        totals.bytes += case.stream.len();
        match outcome {
            Ok(answer) => {
                totals.texts += answer.written as usize;
                totals.refused += answer.refused as usize;
                match answer.outcome {
                    0 => totals.whole += 1,
                    5 => totals.short += 1,
                    _ => totals.long += 1,
                }
            }
            Err(_) => {
                totals.different += 1;
                self.first.get_or_insert((name, case));
            }
        }
    }

    fn report(self) -> ExitCode {
        println!(
            "{:<18}{:>9}{:>12}{:>13}{:>10}{:>9}{:>9}{:>6}{:>12}",
            "sort", "streams", "bytes", "text", "refused", "whole", "short", "long", "differences"
        );
        for totals in &self.totals {
            println!(
                "{:<18}{:>9}{:>12}{:>13}{:>10}{:>9}{:>9}{:>6}{:>12}",
                totals.name,
                totals.streams,
                totals.bytes,
                totals.texts,
                totals.refused,
                totals.whole,
                totals.short,
                totals.long,
                totals.different
            );
        }
        let streams: usize = self.totals.iter().map(|totals| totals.streams).sum();
        let different: usize = self.totals.iter().map(|totals| totals.different).sum();
        println!("{streams} streams, {different} differences");
        let Some((name, case)) = self.first else {
            return ExitCode::SUCCESS;
        };
        println!("\nthe first difference, among {name}:");
        print_case(&case);
        println!("\nwith as much of the stream left out as can be:");
        print_case(&smaller(case));
        ExitCode::FAILURE
    }
}

fn print_case(case: &Case) {
    if let Err(text) = difference(case) {
        println!("{text}");
    }
    println!("buffer {} bytes, pattern {:02X}", case.room, case.pattern);
    println!("stream {} bytes: {}", case.stream.len(), hex::encode(&case.stream));
}

/// What a buffer holds before a call.
fn filled(case: &Case) -> Vec<u8> {
    (0..case.room).map(|place| (place as u8).wrapping_mul(31) ^ case.pattern).collect()
}

/// The answer that both give, or what differs.
fn difference(case: &Case) -> Result<Answer, String> {
    let mut plain_buffer = filled(case);
    let mut station_buffer = plain_buffer.clone();
    let plain = normalise(&case.stream, &mut plain_buffer);
    let plain = Answer {
        written: plain.written as u64,
        refused: u64::from(plain.refused),
        outcome: plain.outcome as u8,
    };
    let station = product::normalise(&case.stream, &mut station_buffer);
    if plain != station {
        return Err(format!("normalise\n  plain   {plain:?}\n  station {station:?}"));
    }
    let mut pairs = plain_buffer.iter().zip(&station_buffer);
    if let Some(place) = pairs.position(|(a, b)| a != b) {
        let (plain, station) = (plain_buffer[place], station_buffer[place]);
        return Err(format!(
            "byte {place} of the buffer: plain {plain:02X}, station {station:02X}"
        ));
    }
    let fed = feed_plate(&case.stream);
    let plate = product::feed_plate(&case.stream);
    if (fed.counts, u64::from(fed.refused)) != plate {
        return Err(format!(
            "plate\n  plain   {:?}\n  station {plate:?}",
            (fed.counts, fed.refused)
        ));
    }
    Ok(plain)
}

/// The case with parts of its stream left out, in ever smaller parts, as long as it differs and for
/// a few seconds at most.
fn smaller(mut case: Case) -> Case {
    let end = Instant::now() + Duration::from_secs(3);
    let mut part = case.stream.len() / 2;
    while part > 0 {
        let before = case.stream.len();
        let mut place = 0;
        while place + part <= case.stream.len() && Instant::now() < end {
            let mut shorter = case.clone();
            shorter.stream.drain(place..place + part);
            if difference(&shorter).is_err() {
                case = shorter;
            } else {
                place += part;
            }
        }
        if case.stream.len() == before {
            part /= 2;
        }
    }
    case
}
