//! The journal's reader and writer.

use schedule::journal::{read, write, Call, Reading};
use schedule::refusal::Refusal;

fn written(call: &Call) -> Vec<u8> {
    let mut output = vec![0; 70_000];
    let length = write(call, &mut output).expect("written");
    output.truncate(length);
    output
}

fn calls<'a>(psk: &'a [u8], message: &'a [u8], shared_secret: &'a [u8]) -> [Call<'a>; 8] {
    let begin = Call::Begin {
        suite: 0x1301,
        kind: 2,
        psk,
    };
    let handshake = Call::Handshake {
        group: 0x001d,
        shared_secret,
    };
    [
        begin,
        Call::Feed { message },
        Call::Early,
        handshake,
        Call::Application,
        Call::Complete,
        Call::Update { side: 9 },
        Call::Close,
    ]
}

#[test]
fn what_is_written_is_read() {
    let bytes = vec![7; 65_535];
    for size in [0, 1, 300, 65_532] {
        let part = &bytes[..size];
        for call in calls(part, &bytes[..size + 3], &bytes[..size + 1]) {
            let mut journal = vec![0xff; 3];
            journal.extend(written(&call));
            let end = journal.len();
            journal.extend([1, 2]);
            let Reading::Record {
                call: found,
                payload,
                next,
            } = read(&journal, 3)
            else {
                panic!("no record: {call:?}");
            };
            assert_eq!((found, next), (call, end));
            assert_eq!(payload, &journal[9..end]);
        }
    }
}

/// Also what no session would take: unknown numbers and a message of no byte.
#[test]
fn what_is_read_is_written() {
    for (kind, payload) in [
        (1u16, vec![0x01, 0x13, 0]),
        (1, vec![0xff, 0xff, 9, 1, 2, 3]),
        (2, vec![]),
        (2, vec![1; 65_535]),
        (3, vec![]),
        (4, vec![0, 0]),
        (4, vec![0x99, 0x99, 0]),
        (5, vec![]),
        (6, vec![]),
        (7, vec![200]),
        (8, vec![]),
    ] {
        let journal = record(payload.len() as u32, kind, &payload);
        let Reading::Record { call, .. } = read(&journal, 0) else {
            panic!("no record: {kind}");
        };
        assert_eq!(written(&call), journal);
    }
}

fn record(length: u32, kind: u16, payload: &[u8]) -> Vec<u8> {
    [&length.to_le_bytes()[..], &kind.to_le_bytes(), payload].concat()
}

#[test]
fn damaged_records() {
    for journal in [
        vec![0],
        vec![0, 0, 0, 0, 3],
        record(1, 2, &[]),
        record(u32::MAX, 2, &[1, 2, 3]),
        record(65_536, 2, &vec![0; 65_536]),
        record(0, 0, &[]),
        record(0, 9, &[]),
        record(3, 0x0101, &[1, 0x13, 0]),
        record(2, 1, &[1, 0x13]),
        record(1, 3, &[0]),
        record(1, 4, &[0]),
        record(1, 5, &[0]),
        record(1, 6, &[0]),
        record(0, 7, &[]),
        record(2, 7, &[1, 1]),
        record(1, 8, &[0]),
    ] {
        assert_eq!(read(&journal, 0), Reading::Damaged { place: 0 });
        let behind = [written(&Call::Early), journal].concat();
        assert_eq!(read(&behind, 6), Reading::Damaged { place: 6 });
    }
}

#[test]
fn ends() {
    let journal = written(&Call::Early);
    for place in [6, 7, usize::MAX] {
        assert_eq!(read(&journal, place), Reading::End);
    }
    assert_eq!(read(&journal, 5), Reading::Damaged { place: 5 });
    assert_eq!(read(&[], 0), Reading::End);
}

#[test]
fn writer_refusals() {
    let bytes = vec![0; 65_536];
    let too_long = [
        Call::Begin {
            suite: 1,
            kind: 9,
            psk: &bytes[..65_533],
        },
        Call::Feed { message: &bytes },
        Call::Handshake {
            group: 0,
            shared_secret: &bytes[..65_534],
        },
    ];
    for call in too_long {
        assert_eq!(write(&call, &mut []), Err(Refusal::OutOfRange));
    }
    for call in calls(&bytes[..5], &bytes[..65_535], &bytes[..65_533]) {
        let length = written(&call).len();
        let mut short = vec![0xa5; length - 1];
        assert_eq!(write(&call, &mut short), Err(Refusal::OutputTooShort));
        assert!(short.iter().all(|byte| *byte == 0xa5));
        let mut long = vec![0xa5; length + 1];
        assert_eq!(write(&call, &mut long), Ok(length));
        assert_eq!(long[length], 0xa5);
    }
}
