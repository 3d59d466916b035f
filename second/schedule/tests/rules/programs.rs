//! The printed lines of both programs.

use schedule::{calls, replay};

fn replayed(journal: &[u8]) -> String {
    let mut out = Vec::new();
    replay::run(journal, &mut out).expect("printed");
    String::from_utf8(out).expect("text")
}

fn called(list: &[u8]) -> String {
    let mut out = Vec::new();
    calls::run(list, &mut out).expect("printed");
    String::from_utf8(out).expect("text")
}

fn record(kind: u16, payload: &[u8]) -> Vec<u8> {
    let length = payload.len() as u32;
    [&length.to_le_bytes()[..], &kind.to_le_bytes(), payload].concat()
}

const SAMPLE: [u8; 15] = [3, 0, 0, 0, 1, 0, 1, 0x13, 0, 0, 0, 0, 0, 3, 0];

#[test]
fn replay_sample() {
    assert_eq!(replayed(&SAMPLE), "1 1 0\n2 3 1\nend 2\n");
    assert_eq!(replayed(&[]), "end 0\n");
}

#[test]
fn replay_stops_at_damage() {
    assert_eq!(replayed(&SAMPLE[..14]), "1 1 0\nbad 2\n");
    assert_eq!(replayed(&SAMPLE[..8]), "bad 1\n");
    let behind = [&SAMPLE[..9], &record(3, &[0]), &SAMPLE[9..]].concat();
    assert_eq!(replayed(&behind), "1 1 0\nbad 2\n");
}

#[test]
fn replay_input_limit() {
    let longest = record(2, &vec![0; 65_530]);
    assert_eq!(longest.len(), 65_536);
    assert_eq!(replayed(&longest), "1 2 1\nend 1\n");
    assert_eq!(replayed(&[&longest[..], &[0]].concat()), "long\n");
}

/// The last lines for a session without secrets.
fn empty_session(point: u8) -> String {
    let zeros = "0".repeat(96);
    let places: String = (1..=10).map(|n| format!("place {n} {zeros}\n")).collect();
    format!("point {point}\n{places}")
}

#[test]
fn calls_without_secrets() {
    let close = record(8, &[]);
    assert_eq!(
        called(&close),
        format!("1 8 0 0\nend 1\n{}", empty_session(5))
    );
    assert_eq!(called(&[]), format!("end 0\n{}", empty_session(0)));
    let check = record(103, &[1]);
    assert_eq!(
        called(&check),
        format!("1 103 1 0 no\nend 1\n{}", empty_session(0))
    );
    assert_eq!(called(&vec![0; 3_145_729]), "long\n");
}

#[test]
fn calls_with_rooms() {
    let keys = record(101, &[9, 2, 0, 0, 0, 77]);
    let finished = record(102, &[9, 0, 0, 0, 0]);
    let hash = record(201, &[0x01, 0x13, 33, 0, 0, 0, b'a', b'b', b'c']);
    let digest = "ba7816bf8f01cfea414140de5dae2223b00361a396177a9cb410ff61f20015ad";
    let expected = format!(
        "1 101 1 0 a5a5\n2 102 2 0 -\n3 201 0 32 {digest}a5\nend 3\n{}",
        empty_session(0)
    );
    assert_eq!(called(&[keys, finished, hash].concat()), expected);
}

#[test]
fn calls_of_the_journal() {
    let write = record(301, &[7, 0, 8, 0, 0, 0, 2]);
    let mut at_0 = vec![0; 8];
    at_0.extend(SAMPLE);
    let read = |place: u8| {
        at_0[0] = place;
        record(302, &at_0)
    };
    let list: Vec<u8> = [write]
        .into_iter()
        .chain([0, 9, 15, 14].map(read))
        .flatten()
        .collect();
    let expected = format!(
        "1 301 0 7 01000000070002a5\n2 302 0 0 record 1 6 3 9\n3 302 0 0 record 3 15 0 15\n\
         4 302 0 0 end\n5 302 13 0 bad 14\nend 5\n{}",
        empty_session(0)
    );
    assert_eq!(called(&list), expected);
}

/// `bad` stands in place of `end`, and the session is shown as it stands.
#[test]
fn bad_records() {
    for bad in [
        vec![0],
        record(9, &[]),
        record(1, &[1, 0x13]),
        record(3, &[0]),
        record(7, &[1, 1]),
        record(100, &[]),
        record(101, &[1, 0, 0, 0]),
        record(101, &[1, 1, 0, 2, 0]),
        record(103, &[]),
        record(106, &[0; 20]),
        record(202, &[0, 0, 0, 0, 0, 0, 1, 0, 0, 0]),
        record(301, &[9, 0, 0, 0, 0, 0]),
        record(301, &[3, 0, 0, 0, 0, 0, 1]),
        record(302, &[0; 7]),
    ] {
        let list = [record(8, &[]), bad, record(8, &[])].concat();
        assert_eq!(
            called(&list),
            format!("1 8 0 0\nbad 2\n{}", empty_session(5))
        );
    }
}
