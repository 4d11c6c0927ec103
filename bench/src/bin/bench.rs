//! Measures the station beside the rules in plain Rust.
//!
//!     bench [MILLISECONDS]
//!
//! For normalise and for feeding a plate, on tickets and on each worst case, at four lengths:
//! nanoseconds for a byte of the stream, the median of many samples that take turns, for at least
//! MILLISECONDS each. Both write into the same buffer, which is not cleared between calls.

use std::env;
use std::hint::black_box;
use std::process::ExitCode;
use std::time::{Duration, Instant};

use station_bench::normalise::normalise;
use station_bench::product;
use station_bench::random::Random;
use station_bench::station::feed_plate;
use station_bench::streams::{self, WORST_CASES, longest_text};

const LENGTHS: [usize; 4] = [1 << 10, 4 << 10, 16 << 10, 64 << 10];

fn main() -> ExitCode {
    let budget = match env::args().nth(1).map(|text| text.parse()) {
        None => 40,
        Some(Ok(milliseconds)) => milliseconds,
        Some(Err(_)) => {
            eprintln!("usage: bench [MILLISECONDS]");
            return ExitCode::from(2);
        }
    };
    let budget = Duration::from_millis(budget);
    let mut out = vec![0xEE; longest_text(LENGTHS[3])];
    for work in [Work::Normalise, Work::FeedPlate] {
        print_head(work);
        for subject in Subject::all() {
            let figures = LENGTHS.map(|length| {
                let stream = subject.stream(length);
                measure(work, &stream, &mut out, budget)
            });
            let text = normalise(&subject.stream(LENGTHS[3]), &mut out).written;
            print_line(subject.name(), text as f64 / LENGTHS[3] as f64, figures);
        }
    }
    ExitCode::SUCCESS
}

/// What is measured.
#[derive(Clone, Copy)]
enum Work {
    Normalise,
    FeedPlate,
}

impl Work {
    fn plain(self, stream: &[u8], out: &mut [u8]) {
        match self {
            Work::Normalise => drop(black_box(normalise(black_box(stream), out))),
            Work::FeedPlate => drop(black_box(feed_plate(black_box(stream)))),
        }
    }

    fn station(self, stream: &[u8], out: &mut [u8]) {
        match self {
            Work::Normalise => drop(black_box(product::normalise(black_box(stream), out))),
            Work::FeedPlate => drop(black_box(product::feed_plate(black_box(stream)))),
        }
    }
}

/// What it is measured on.
#[derive(Clone, Copy)]
enum Subject {
    Tickets,
    Commands,
    Uniform,
    Worst(&'static streams::WorstCase),
}

impl Subject {
    fn all() -> impl Iterator<Item = Subject> {
        let usual = [Subject::Tickets, Subject::Commands, Subject::Uniform];
        usual.into_iter().chain(WORST_CASES.iter().map(Subject::Worst))
    }

    fn name(self) -> &'static str {
        match self {
            Subject::Tickets => "tickets",
            Subject::Commands => "commands",
            Subject::Uniform => "random bytes",
            Subject::Worst(case) => case.name,
        }
    }

    fn stream(self, length: usize) -> Vec<u8> {
        match self {
            Subject::Tickets => streams::tickets(length),
            Subject::Commands => streams::commands(&mut Random::new(1), length),
            Subject::Uniform => streams::uniform(&mut Random::new(1), length),
            Subject::Worst(case) => case.stream(length),
        }
    }
}

/// Nanoseconds for a byte.
#[derive(Clone, Copy)]
struct Figures {
    station: f64,
    plain: f64,
}

/// Measures both on a stream, in turns.
fn measure(work: Work, stream: &[u8], out: &mut [u8], budget: Duration) -> Figures {
    let (mut station, mut plain) = (Vec::new(), Vec::new());
    let calls = calls_in_a_sample(work, stream, out);
    let end = Instant::now() + 2 * budget;
    while plain.len() < 5 || Instant::now() < end {
        station.push(sample(calls, || work.station(stream, out)));
        plain.push(sample(calls, || work.plain(stream, out)));
    }
    let bytes = stream.len() as f64;
    Figures { station: median(station) / bytes, plain: median(plain) / bytes }
}

/// How many calls last long enough for the clock; both have been called then.
fn calls_in_a_sample(work: Work, stream: &[u8], out: &mut [u8]) -> u32 {
    work.station(stream, out);
    work.plain(stream, out);
    let once = sample(1, || work.plain(stream, out));
    (50_000.0 / once).clamp(1.0, 1000.0) as u32
}

/// Nanoseconds for a call.
fn sample(calls: u32, mut call: impl FnMut()) -> f64 {
    let begin = Instant::now();
    for _ in 0..calls {
        call();
    }
    begin.elapsed().as_nanos() as f64 / f64::from(calls)
}

fn median(mut samples: Vec<f64>) -> f64 {
    samples.sort_unstable_by(f64::total_cmp);
    samples[samples.len() / 2]
}

fn print_head(work: Work) {
    let name = match work {
        Work::Normalise => "normalise",
        Work::FeedPlate => "feed a plate",
    };
    println!(
        "\n{name}: nanoseconds for a byte of the stream; text: bytes of text for one of the stream"
    );
    println!(
        "{:<16}{:>8} |{:^31} |{:^31} |{:^27} |{:^15}",
        "", "", "station", "plain", "station / plain", "64 KiB / 1 KiB"
    );
    print!("{:<16}{:>8} |", "stream", "text");
    for _ in 0..2 {
        print!("{:>7}{:>8}{:>8}{:>8} |", "1 KiB", "4", "16", "64");
    }
    println!("{:>6}{:>7}{:>7}{:>7} |{:>8}{:>7}", "1 KiB", "4", "16", "64", "station", "plain");
}

fn print_line(name: &str, text: f64, figures: [Figures; 4]) {
    print!("{name:<16}{text:>8.2} |");
    for value in figures.map(|figures| figures.station) {
        print!("{value:>7.2} ");
    }
    print!("|");
    for value in figures.map(|figures| figures.plain) {
        print!("{value:>7.2} ");
    }
    print!("|");
    for value in figures.map(|figures| figures.station / figures.plain) {
        print!("{value:>6.2} ");
    }
    let [first, .., last] = figures;
    println!("|{:>8.2}{:>7.2}", last.station / first.station, last.plain / first.plain);
}
