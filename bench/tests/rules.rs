//! Short tickets with their normal texts, and what holds of the texts of many streams.

use station_bench::hex;
use station_bench::interpreter::Interpreter;
use station_bench::mechanism::Mechanism;
use station_bench::normalise::{LONGEST_STREAM, Normalised, Outcome, normalise};
use station_bench::random::Random;
use station_bench::station::{FeedFault, feed};
use station_bench::streams::{Sort, longest_text};
use station_bench::writer::Writer;

/// The normal text of a stream, and the number of commands passed over.
fn normal_text(stream: &[u8]) -> (Vec<u8>, u32) {
    let mut text = vec![0; longest_text(stream.len())];
    let done = normalise(stream, &mut text);
    assert_eq!(done.outcome, Outcome::Whole);
    text.truncate(done.written);
    (text, done.refused)
}

#[test]
fn tickets() {
    let forty_nine = "41".repeat(49);
    let full_row = "41".repeat(48) + "1B4A001B4A19";
    let far = "20".repeat(8) + "411B4A001B4A19";
    let cases = [
        ("-", "-", 0),
        ("410A", "411B4A001B4A19", 0),
        ("20200A", "1B4A19", 0),
        ("1B45411B460A", "1B2108411B21001B4A001B4A19", 0),
        ("09410A", &far, 0),
        ("1B6C09410A", &far, 0),
        (&forty_nine, &full_row, 0),
        ("0E410A", "1B2120411B21001B4A001B4A19", 0),
        ("1B5103", "-", 1),
        ("1B5104", "-", 0),
        ("1B7A", "-", 1),
        ("1B4A00", "-", 0),
        ("1B6D", "1B6D", 0),
        ("1B62080000003132333435363738393000", "1B620100000000", 0),
        ("1B6208000000313233343536373839303100", "1B6208023200313233343536373839303100", 0),
    ];
    for (stream, text, refused) in cases {
        let (came, passed_over) = normal_text(&hex::decode(stream).expect("hexadecimal"));
        assert_eq!((hex::encode(&came).as_str(), passed_over), (text, refused), "{stream}");
    }
}

/// Streams of every sort, from the same seed each time.
fn streams() -> impl Iterator<Item = Vec<u8>> {
    let mut random = Random::new(7);
    (0..600).map(move |number| {
        let length = random.below(600);
        Sort::ALL[number % Sort::ALL.len()].stream(&mut random, length)
    })
}

#[test]
fn a_normal_text_is_its_own() {
    for stream in streams() {
        let (text, _) = normal_text(&stream);
        if text.len() <= LONGEST_STREAM {
            assert_eq!(normal_text(&text), (text.clone(), 0), "{}", hex::encode(&stream));
        }
    }
}

#[test]
fn pieces_do_not_matter() {
    let mut random = Random::new(8);
    for stream in streams() {
        let mut buffer = vec![0; longest_text(stream.len())];
        let (mut interpreter, mut writer) = (Interpreter::new(), Writer::new(&mut buffer));
        let (mut rest, mut refused) = (&stream[..], 0);
        while !rest.is_empty() {
            let piece = &rest[..random.below(5).min(rest.len())];
            let (taken, ended) = feed(&mut interpreter, &mut writer, piece);
            rest = &rest[taken..];
            refused += u32::from(matches!(ended, Err(FeedFault::Command { .. })));
        }
        assert_eq!((writer.written().to_vec(), refused), normal_text(&stream));
    }
}

#[test]
fn a_stopped_writer_loses_nothing() {
    let mut random = Random::new(9);
    for stream in streams() {
        let mut buffer = vec![0; longest_text(stream.len())];
        let (mut interpreter, mut writer) = (Interpreter::new(), Writer::new(&mut buffer));
        let mut rest = &stream[..];
        while !rest.is_empty() || interpreter.owed().count() > 0 {
            writer.cover(random.one_in(2));
            let piece = &rest[..random.below(9).min(rest.len())];
            rest = &rest[feed(&mut interpreter, &mut writer, piece).0..];
        }
        assert_eq!(writer.written(), normal_text(&stream).0);
    }
}

#[test]
fn short_buffers_hold_the_first_texts() {
    for stream in streams().filter(|stream| stream.len() < 100) {
        let (text, _) = normal_text(&stream);
        for length in (0..text.len() + 345).step_by(7) {
            let mut buffer = vec![0xEE; length];
            let done = normalise(&stream, &mut buffer);
            let (written, found) = buffer.split_at(done.written);
            assert_eq!(written, &text[..done.written]);
            assert!(found.iter().all(|&byte| byte == 0xEE));
            assert!(done.outcome == Outcome::ShortBuffer || done.written == text.len());
        }
    }
}

#[test]
fn longer_streams_are_not_normalised() {
    let mut buffer = [0xEE; 8];
    let refused = Normalised { written: 0, refused: 0, outcome: Outcome::LongStream };
    assert_eq!(normalise(&[0x05; LONGEST_STREAM + 1], &mut buffer), refused);
    assert_eq!(buffer, [0xEE; 8]);
    assert_eq!(normalise(&[0x00; LONGEST_STREAM], &mut buffer).outcome, Outcome::Whole);
}
