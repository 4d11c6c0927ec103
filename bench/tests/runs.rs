//! Scripts of calls on a station, each line with its answer and the state after it.
//!
//! A line is `CALL -> ANSWER ; COUNTS / BYTES / RESERVE / STOPPED / OWED / REPLY`; `run MECHANISM`
//! begins a new run.

use std::io::{self, Write};
use std::{env, fs, path::Path};

use station_bench::hex;
use station_bench::interpreter::Interpreter;
use station_bench::mechanism::Mechanism;
use station_bench::page::Page;
use station_bench::plate::Plate;
use station_bench::settings::yes_or_no;
use station_bench::station::{FeedFault, feed};
use station_bench::writer::Writer;

/// The mechanism of a run.
enum Any<'a> {
    Plate(Plate),
    Page(Page<'a>),
    Writer(Writer<'a>),
}

impl Any<'_> {
    /// What the sheet has beyond the counts.
    fn bytes(&self) -> &[u8] {
        match self {
            Any::Plate(_) => &[],
            Any::Page(page) => page.written(),
            Any::Writer(writer) => writer.written(),
        }
    }

    fn latest_reply(&self) -> &[u8] {
        match self {
            Any::Plate(plate) => plate.latest_reply(),
            _ => &[],
        }
    }
}

/// Does the same with whichever mechanism it is.
macro_rules! with_mechanism {
    ($any:expr, $mechanism:ident => $result:expr) => {
        match $any {
            Any::Plate($mechanism) => $result,
            Any::Page($mechanism) => $result,
            Any::Writer($mechanism) => $result,
        }
    };
}

/// The mechanism that `run ..` names, in a buffer of the length that it names.
fn begin<'a>(line: &str, buffer: &'a mut Vec<u8>) -> Any<'a> {
    let mut words = line.split(' ').skip(1);
    let name = words.next().expect("a mechanism");
    *buffer =
        words.next().map_or(Vec::new(), |length| vec![0xEE; length.parse().expect("a length")]);
    match name {
        "plate" => Any::Plate(Plate::new()),
        "page" => Any::Page(Page::new(buffer)),
        "writer" => Any::Writer(Writer::new(buffer)),
        _ => panic!("no mechanism {name}"),
    }
}

/// Carries a call out and answers its answer.
fn call<M: Mechanism>(line: &str, interpreter: &mut Interpreter, mechanism: &mut M) -> String {
    match line.split(' ').collect::<Vec<_>>()[..] {
        ["feed", piece] => {
            let piece = hex::decode(piece).expect("hexadecimal");
            match feed(interpreter, mechanism, &piece) {
                (taken, Ok(())) => format!("{taken} ok"),
                (taken, Err(FeedFault::Mechanism(fault))) => {
                    format!("{taken} held {}", fault as u8)
                }
                (taken, Err(FeedFault::Command { reason, place })) => {
                    format!("{taken} refused {} at {place}", reason as u8)
                }
            }
        }
        ["cover", state] => {
            mechanism.cover(state == "open");
            "-".to_string()
        }
        ["supply", offer] => mechanism.supply(offer.parse().expect("a number")).to_string(),
        ["status"] => {
            let status = mechanism.status();
            format!("{:02X} {:02X}", status.first, status.second)
        }
        ["settings"] => interpreter.settings().to_string(),
        _ => panic!("no call {line}"),
    }
}

/// The state after a call.
fn state(interpreter: &Interpreter, any: &Any) -> String {
    let state = with_mechanism!(any, mechanism => mechanism.state());
    format!(
        "{} / {} / {} / {} / {} / {}",
        state.counts.0.map(|count| count.to_string()).join(","),
        hex::encode(any.bytes()),
        state.reserve,
        yes_or_no(state.stopped),
        interpreter.owed().count(),
        hex::encode(any.latest_reply()),
    )
}

/// Plays all calls of a script, and answers the lines that were expected and those that came.
fn play(expected: &str) -> Vec<(String, String)> {
    let lines: Vec<&str> = expected.lines().filter(|line| !line.starts_with('#')).collect();
    let mut played = Vec::new();
    for run in lines.chunk_by(|_, line| !line.starts_with("run ")) {
        let mut buffer = Vec::new();
        let mut any = begin(run[0], &mut buffer);
        let mut interpreter = Interpreter::new();
        for line in &run[1..] {
            let asked = line.split(" -> ").next().expect("a call");
            let answer = with_mechanism!(&mut any, it => call(asked, &mut interpreter, it));
            let came = format!("{asked} -> {answer} ; {}", state(&interpreter, &any));
            played.push((line.to_string(), came));
        }
    }
    played
}

/// Compares all calls of a script and prints how many there were.
fn compare(name: &str, expected: &str) {
    let played = play(expected);
    let different: Vec<_> = played.iter().filter(|(line, came)| line != came).collect();
    println!("{name}: {} calls, {} differences", played.len(), different.len());
    if let Some((line, came)) = different.first() {
        panic!("{name}: {} differences, the first:\n{line}\n{came}", different.len());
    }
    assert!(!played.is_empty());
}

#[test]
fn the_simulators_runs() {
    let folder = Path::new(env!("CARGO_MANIFEST_DIR")).join("../crates/simulate");
    let asked = fs::read_to_string(folder.join("stdin")).expect("the simulator's script");
    let expected = fs::read_to_string(folder.join("stdout")).expect("the simulator's answers");
    let calls = |text: &str| -> Vec<String> {
        let lines = text.lines().filter(|line| !line.starts_with('#'));
        lines.map(|line| line.split(" -> ").next().unwrap_or("").to_string()).collect()
    };
    assert_eq!(calls(&asked), calls(&expected));
    compare("simulate", &expected);
}

#[test]
fn the_vectors_runs() {
    let Some(folder) = env::var_os("VECTORS") else {
        // Written past the test's own output, which is only shown for failures.
        let _ = writeln!(io::stderr(), "skipped: VECTORS does not name the folder of runs.txt");
        return;
    };
    let expected = fs::read_to_string(Path::new(&folder).join("runs.txt")).expect("runs.txt");
    compare("runs.txt", &expected);
}
