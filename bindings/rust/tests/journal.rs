//! The journal: every kind of record written, read back and damaged.

use bindcricket::journal::{self, Damaged, Record, RECORD_BYTES};
use bindcricket::Refusal;

/// One or two records of each kind, and their bytes. The second Feed holds a record.
const RECORDS: [(Record<'static>, &[u8]); 12] = [
    (
        Record::Begin {
            suite: 0x1301,
            kind: 0,
            psk: &[],
        },
        &[3, 0, 0, 0, 1, 0, 0x01, 0x13, 0],
    ),
    (
        Record::Begin {
            suite: 0xfedc,
            kind: 0xba,
            psk: &[9, 8, 7],
        },
        &[6, 0, 0, 0, 1, 0, 0xdc, 0xfe, 0xba, 9, 8, 7],
    ),
    (Record::Feed(&[]), &[0, 0, 0, 0, 2, 0]),
    (
        Record::Feed(&[1, 0, 0, 0, 7, 0, 2]),
        &[7, 0, 0, 0, 2, 0, 1, 0, 0, 0, 7, 0, 2],
    ),
    (Record::Early, &[0, 0, 0, 0, 3, 0]),
    (
        Record::Handshake {
            group: 0,
            secret: &[],
        },
        &[2, 0, 0, 0, 4, 0, 0, 0],
    ),
    (
        Record::Handshake {
            group: 0x1d,
            secret: &[5, 6],
        },
        &[4, 0, 0, 0, 4, 0, 0x1d, 0, 5, 6],
    ),
    (Record::Application, &[0, 0, 0, 0, 5, 0]),
    (Record::Complete, &[0, 0, 0, 0, 6, 0]),
    (Record::Update { side: 1 }, &[1, 0, 0, 0, 7, 0, 1]),
    (Record::Update { side: 9 }, &[1, 0, 0, 0, 7, 0, 9]),
    (Record::Close, &[0, 0, 0, 0, 8, 0]),
];

/// What a record holds, to be compared.
fn parts(record: Record<'_>) -> (&'static str, u16, u8, &[u8]) {
    match record {
        Record::Begin { suite, kind, psk } => ("begin", suite, kind, psk),
        Record::Feed(message) => ("feed", 0, 0, message),
        Record::Early => ("early", 0, 0, &[]),
        Record::Handshake { group, secret } => ("handshake", group, 0, secret),
        Record::Application => ("application", 0, 0, &[]),
        Record::Complete => ("complete", 0, 0, &[]),
        Record::Update { side } => ("update", 0, side, &[]),
        Record::Close => ("close", 0, 0, &[]),
    }
}

/// The bytes of `RECORDS` behind each other.
fn journal() -> Vec<u8> {
    RECORDS.map(|(_, bytes)| bytes).concat()
}

/// A record by its header and payload.
fn bytes(length: u32, kind: u16, payload: &[u8]) -> Vec<u8> {
    [&length.to_le_bytes()[..], &kind.to_le_bytes(), payload].concat()
}

/// Holds if the record at a place is damaged, and the reader says so once and ends.
fn damaged(journal: &[u8], place: usize) -> bool {
    let mut records = journal::records(&journal[place..]);
    journal::read(journal, place).err() == Some(Damaged { place })
        && matches!(records.next(), Some(Err(Damaged { place: 0 })))
        && records.next().is_none()
        && records.next().is_none()
}

/// The example of the journal's description.
#[test]
fn example() -> Result<(), Refusal> {
    let journal = [3, 0, 0, 0, 1, 0, 0x01, 0x13, 0, 0, 0, 0, 0, 3, 0];
    let read: Vec<Record> = journal::records(&journal).collect::<Result<_, _>>()?;
    assert!(matches!(
        read[..],
        [
            Record::Begin {
                suite: 0x1301,
                kind: 0,
                psk: []
            },
            Record::Early
        ]
    ));
    let mut again = Vec::new();
    for record in read {
        again.extend_from_slice(record.write(&mut [0; 9])?);
    }
    assert_eq!(again, journal);
    Ok(())
}

#[test]
fn written() {
    for (record, bytes) in RECORDS {
        for room in [bytes.len(), bytes.len() + 9] {
            let mut out = vec![0xa5; room];
            assert_eq!(record.write(&mut out).as_deref(), Ok(bytes), "{record:?}");
            assert_eq!(out[..bytes.len()], *bytes);
            assert!(out[bytes.len()..].iter().all(|byte| *byte == 0xa5));
        }
        for room in 0..bytes.len() {
            let mut out = vec![0xa5; room];
            let answer = record.write(&mut out).map(drop);
            assert_eq!(answer, Err(Refusal::OutputTooShort), "{record:?}");
            assert!(out.iter().all(|byte| *byte == 0xa5));
        }
    }
}

#[test]
fn read_back() -> Result<(), Damaged> {
    let journal = journal();
    let mut read = journal::records(&journal);
    let mut place = 0;
    for (record, bytes) in RECORDS {
        let (at_place, next) = journal::read(&journal, place)?.expect("a record");
        let in_turn = read.next().expect("a record")?;
        assert_eq!(parts(at_place), parts(record));
        assert_eq!(parts(in_turn), parts(record));
        assert_eq!(next, place + bytes.len());
        place = next;
    }
    assert!(read.next().is_none());
    assert!(read.next().is_none());
    Ok(())
}

/// The bytes that are handed back are those of the journal and no copy.
#[test]
fn part_of_the_journal() -> Result<(), Damaged> {
    let journal = bytes(5, 1, &[0x01, 0x13, 1, 9, 8]);
    match journal::read(&journal, 0)? {
        Some((Record::Begin { psk, .. }, 11)) => {
            assert_eq!(psk.as_ptr_range(), journal[9..].as_ptr_range());
        }
        other => panic!("{other:?}"),
    }
    Ok(())
}

#[test]
fn inside_a_record() -> Result<(), Damaged> {
    let journal = journal();
    let place = 9 + 12 + 6 + 6;
    let (record, next) = journal::read(&journal, place)?.expect("a record");
    assert_eq!(parts(record), ("update", 0, 2, &[][..]));
    assert_eq!(next, place + 7);
    assert!(damaged(&journal, place + 1));
    Ok(())
}

#[test]
fn ends() -> Result<(), Damaged> {
    for journal in [&[][..], &[1], &journal()] {
        let length = journal.len();
        for place in [
            length,
            length + 1,
            usize::MAX / 2,
            usize::MAX - 5,
            usize::MAX,
        ] {
            assert!(journal::read(journal, place)?.is_none(), "{place}");
        }
    }
    assert!(journal::records(&[]).next().is_none());
    Ok(())
}

/// Payloads of 65,535 bytes are written and read; of one byte more they are neither.
#[test]
fn longest() -> Result<(), Damaged> {
    type Call = fn(&[u8]) -> Record<'_>;
    let calls: [(u16, usize, Call); 3] = [
        (1, 3, |psk| Record::Begin {
            suite: 0x1302,
            kind: 1,
            psk,
        }),
        (2, 0, |message| Record::Feed(message)),
        (4, 2, |secret| Record::Handshake {
            group: 0x1d,
            secret,
        }),
    ];
    let body: Vec<u8> = (0..65_536u32).map(|i| (i % 251) as u8).collect();
    for (kind, front, call) in calls {
        let most = call(&body[..65_535 - front]);
        let mut out = vec![0xa5; RECORD_BYTES + 1];
        for room in [0, RECORD_BYTES - 1] {
            let answer = most.write(&mut out[..room]).map(drop);
            assert_eq!(answer, Err(Refusal::OutputTooShort));
        }
        for room in [0, RECORD_BYTES, RECORD_BYTES + 1] {
            for size in [65_536 - front, 65_536] {
                let answer = call(&body[..size]).write(&mut out[..room]).map(drop);
                assert_eq!(answer, Err(Refusal::OutOfRange), "{kind}, {size}");
            }
        }
        assert!(out.iter().all(|byte| *byte == 0xa5));

        let written = most.write(&mut out).map(|written| written.len());
        assert_eq!(written, Ok(RECORD_BYTES));
        assert_eq!(out[..6], [0xff, 0xff, 0, 0, kind as u8, 0]);
        assert_eq!(out[6 + front..RECORD_BYTES], body[..65_535 - front]);
        assert_eq!(out[RECORD_BYTES], 0xa5);
        let (record, next) = journal::read(&out, 0)?.expect("a record");
        assert_eq!(parts(record), parts(most));
        assert_eq!(next, RECORD_BYTES);
        assert!(damaged(&out[..RECORD_BYTES - 1], 0));
        out[..4].copy_from_slice(&65_536u32.to_le_bytes());
        assert!(damaged(&out, 0));
    }
    Ok(())
}

/// A journal that is cut inside a record: the records before it are read, and then it is damaged.
#[test]
fn cut() {
    let journal = journal();
    let mut place = 0;
    for (i, (_, bytes)) in RECORDS.iter().enumerate() {
        for cut in 1..bytes.len() {
            let cut = &journal[..place + cut];
            let mut read = journal::records(cut);
            for (record, _) in &RECORDS[..i] {
                let good = read.next().expect("an item").expect("a good record");
                assert_eq!(parts(good), parts(*record));
            }
            assert_eq!(
                read.next().map(|item| item.err()),
                Some(Some(Damaged { place }))
            );
            assert!(read.next().is_none());
            assert!(damaged(cut, place));
        }
        place += bytes.len();
    }
}

#[test]
fn unknown_kinds() {
    for kind in [0, 9, 12, 0xff, 0x100, 0x101, 0x108, 0x200, 0x800, 0xffff] {
        for size in 0..9 {
            assert!(damaged(&bytes(size, kind, &[1; 9]), 0), "{kind}, {size}");
        }
    }
}

/// Payloads of 0 to 4 bytes, of which each kind takes some.
#[test]
fn shapes() -> Result<(), Damaged> {
    for (kind, taken) in [
        (1, &[3, 4][..]),
        (2, &[0, 1, 2, 3, 4]),
        (3, &[0]),
        (4, &[2, 3, 4]),
        (5, &[0]),
        (6, &[0]),
        (7, &[1]),
        (8, &[0]),
    ] {
        for size in 0..5 {
            let journal = bytes(size, kind, &[1; 4]);
            if taken.contains(&size) {
                let (record, next) = journal::read(&journal, 0)?.expect("a record");
                let again = record.write(&mut [0; 10]).map(|again| again.to_vec());
                assert_eq!(again.as_deref(), Ok(&journal[..next]), "{kind}, {size}");
                assert_eq!(next, 6 + size as usize);
            } else {
                assert!(damaged(&journal, 0), "{kind}, {size}");
            }
        }
    }
    Ok(())
}

#[test]
fn lengths() {
    let payload = vec![1; 0x20000];
    for length in [
        0x10000,
        0x10001,
        0x10003,
        0x20000,
        0x100_0000,
        0x100_0003,
        0x7fff_ffff,
        0x8000_0000,
        0xffff_fffa,
        0xffff_ffff,
    ] {
        for kind in 1..=8 {
            assert!(
                damaged(&bytes(length, kind, &payload), 0),
                "{kind}, {length}"
            );
        }
    }
}

/// What is printed while looking for a mistake holds no secret.
#[test]
fn debug_shows_nothing() {
    let shown: Vec<String> = RECORDS.map(|(record, _)| format!("{record:?}")).into();
    assert_eq!(
        shown,
        [
            "Begin { suite: 4865, kind: 0, .. }",
            "Begin { suite: 65244, kind: 186, .. }",
            "Feed(..)",
            "Feed(..)",
            "Early",
            "Handshake { group: 0, .. }",
            "Handshake { group: 29, .. }",
            "Application",
            "Complete",
            "Update { side: 1 }",
            "Update { side: 9 }",
            "Close",
        ]
    );
    let records = journal::records(&[7, 7, 7]);
    assert_eq!(format!("{records:?}"), "Records { place: 0, .. }");
}

/// A damaged record is an error that says where, and becomes the refusal.
#[test]
fn damaged_is_an_error() {
    let damaged = Damaged { place: 4321 };
    let error: Box<dyn std::error::Error> = Box::new(damaged);
    let sentence = "at byte 4321: the journal record is damaged (refusal 13)";
    assert_eq!(error.to_string(), sentence);
    assert_eq!(Refusal::from(damaged), Refusal::DamagedRecord);
}
