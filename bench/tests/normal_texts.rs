//! Normal texts from tables of vectors, with ample and with short buffers.

use std::io::{self, Write};
use std::{env, fs, path::Path};

use station_bench::hex;
use station_bench::normalise::{Outcome, normalise};

/// What stands behind the text in a buffer.
const FOUND: u8 = 0xEE;

/// The lines of a table, in words, or nothing if the vectors are not there.
fn table(name: &str) -> Option<Vec<Vec<String>>> {
    let Some(folder) = env::var_os("VECTORS") else {
        // Written past the test's own output, which is only shown for failures.
        let _ = writeln!(io::stderr(), "skipped: VECTORS does not name the folder of {name}");
        return None;
    };
    let text = fs::read_to_string(Path::new(&folder).join(name)).expect(name);
    let lines = text.lines().filter(|line| !line.starts_with('#'));
    Some(lines.map(|line| line.splitn(5, ' ').map(str::to_string).collect()).collect())
}

/// Normalises into a buffer of this length and answers text, refused commands and outcome, each as
/// a table writes it.
fn normalised(stream: &str, length: usize) -> [String; 3] {
    let mut buffer = vec![FOUND; length];
    let done = normalise(&hex::decode(stream).expect("hexadecimal"), &mut buffer);
    let (text, rest) = buffer.split_at(done.written);
    assert!(rest.iter().all(|&byte| byte == FOUND), "the rest is as found: {stream}");
    let outcome = match done.outcome {
        Outcome::Whole => "ok".to_string(),
        fault => format!("held {}", fault as u8),
    };
    [hex::encode(text), done.refused.to_string(), outcome]
}

/// Compares what was expected and what came, a pair for each vector.
fn compare(name: &str, pairs: Vec<([String; 3], [String; 3])>) {
    let different: Vec<_> = pairs.iter().filter(|(expected, came)| expected != came).collect();
    println!("{name}: {} vectors, {} differences", pairs.len(), different.len());
    assert!(!pairs.is_empty() && different.is_empty(), "{:?}", different.first());
}

#[test]
fn normal_texts() {
    let Some(lines) = table("normal.txt") else { return };
    let pairs = lines.iter().map(|line| {
        let [stream, text, refused] = &line[..] else { panic!("{line:?}") };
        ([text.clone(), refused.clone(), "ok".to_string()], normalised(stream, 100_000))
    });
    compare("normal.txt", pairs.collect());
}

#[test]
fn short_buffers() {
    let Some(lines) = table("short.txt") else { return };
    let pairs = lines.iter().map(|line| {
        let [stream, length, text, refused, outcome] = &line[..] else { panic!("{line:?}") };
        let expected = [text.clone(), refused.clone(), outcome.clone()];
        (expected, normalised(stream, length.parse().expect("a length")))
    });
    compare("short.txt", pairs.collect());
}
