//! Sessions of records, and what they print.

use std::collections::BTreeMap;
use thymeflask_tests::cases::{each_case, Case};
use thymeflask_tests::compare;
use thymeflask_tests::inputs::sessions;
use thymeflask_tests::library::{PRINT_BYTES, SESSION_BYTES};

const SEED: u64 = 0x5345_5301;

/// How often each line's kind and reply were met; unknown kinds are counted together.
struct Lines {
    of: &'static str,
    sessions: u64,
    met: BTreeMap<String, u64>,
}

impl Lines {
    fn new(of: &'static str) -> Lines {
        Lines {
            of,
            sessions: 0,
            met: BTreeMap::new(),
        }
    }

    fn count(&mut self, lines: &str) {
        self.sessions += 1;
        for line in lines.lines() {
            let known = ("01".."06").contains(&&line[..2]);
            let key = if known { &line[..4] } else { UNKNOWN };
            *self.met.entry(String::from(key)).or_insert(0) += 1;
        }
    }

    fn finish(self) -> BTreeMap<String, u64> {
        let Lines { of, sessions, met } = self;
        println!("{of}: {sessions} sessions, lines {met:?}");
        met
    }
}

const UNKNOWN: &str = "unknown 1";

/// Kinds with every reply that they can give.
const LINES: [&str; 14] = [
    "01 0", "01 1", "01 4", "01 5", "01 6", "01 7", "02 0", "02 1", "03 0", "03 1", "04 0", "04 1",
    "05 0", "05 1",
];

#[test]
fn sessions_of_all_kinds() {
    let mut lines = Lines::new("session");
    let out = Case::new(SEED, 0).random.bytes(PRINT_BYTES);
    each_case(SEED, 16_000, |case| {
        let session = sessions::any(&mut case.random);
        lines.count(&compare::session(case, &session, &out));
    });
    let mut met = lines.finish();
    let unknown = met.remove(UNKNOWN);
    assert!(unknown > Some(100), "unknown kinds: {unknown:?}");
    let kinds: Vec<&str> = met.keys().map(String::as_str).collect();
    assert_eq!(kinds, LINES);
    assert!(met.values().all(|count| *count >= 20), "{met:?}");
}

/// Every kind with a body of every length up to two over its own, by itself and behind a record.
#[test]
fn every_kind_with_every_length() {
    let mut lines = Lines::new("session, every kind with every length");
    let out = vec![0x2E; PRINT_BYTES];
    for kind in 0..=255 {
        let case = &mut Case::new(SEED + 1, u64::from(kind));
        for length in 0..=20 {
            let body = case.random.bytes(length);
            let session = [&[kind], &body[..]].concat();
            lines.count(&compare::session(case, &session, &out));
            let behind = [&[5, 0x90], &session[..]].concat();
            lines.count(&compare::session(case, &behind, &out));
        }
    }
    lines.finish();
}

/// Every register written with ones and shown; FEh and FFh take nothing.
#[test]
fn every_register_written_and_shown() {
    let case = &mut Case::new(SEED + 2, 0);
    let out = vec![0; PRINT_BYTES];
    for byte in [0xFF, 0x5A, 0xA5] {
        let mut session = Vec::new();
        for place in 0..=255 {
            session.extend_from_slice(&[2, place, byte, 5, place]);
        }
        for place in 0..=255 {
            session.extend_from_slice(&[3, place, byte, byte, byte, 4, place, byte, 5, place]);
        }
        let lines = compare::session(case, &session, &out);
        assert!(lines.ends_with("03 0\n04 0\n05 0 00\n"));
    }
}

/// Around the longest session that is done, and the longest print.
#[test]
fn long_sessions() {
    let mut lines = Lines::new("session, long ones");
    let out = Case::new(SEED + 3, 0).random.bytes(PRINT_BYTES + 1);
    each_case(SEED + 3, 40, |case| {
        for length in [SESSION_BYTES - 1, SESSION_BYTES] {
            let session = sessions::long(&mut case.random, length);
            let printed = compare::session(case, &session, &out);
            assert!(printed.len() > 5, "records are done");
            lines.count(&printed);
        }
        for length in [
            SESSION_BYTES + 1,
            SESSION_BYTES + 2,
            2 * SESSION_BYTES,
            1 << 17,
        ] {
            let session = sessions::long(&mut case.random, length);
            assert_eq!(compare::session(case, &session, &out), "00 1\n");
        }
        let session = sessions::longest_print(&mut case.random);
        let printed = compare::session(case, &session, &out[..PRINT_BYTES]);
        assert_eq!(printed.len(), PRINT_BYTES);
        lines.count(&printed);
    });
    lines.finish();
}

/// The room for the print: 65,536 bytes are asked for, however little is printed.
#[test]
fn room_for_the_print() {
    let mut lines = Lines::new("session, room for the print");
    each_case(SEED + 4, 60, |case| {
        let out = case.random.bytes(PRINT_BYTES + 9);
        let session = match case.random.below(4) {
            0 => Vec::new(),
            1 => case.random.bytes(SESSION_BYTES + 1),
            _ => sessions::any(&mut case.random),
        };
        for length in [0, 1, 5, 65_535, 65_536, 65_537, PRINT_BYTES + 9] {
            let printed = compare::session(case, &session, &out[..length]);
            assert!(length >= PRINT_BYTES || printed.is_empty());
            lines.count(&printed);
        }
    });
    lines.finish();
}

#[test]
fn broken_records() {
    let case = &mut Case::new(SEED + 5, 0);
    let out = vec![0; PRINT_BYTES];
    let printed = [
        (&[][..], ""),
        (&[0x00], "00 1\n"),
        (&[0x06, 0x88], "06 1\n"),
        (&[0xAB, 0x05, 0x00], "ab 1\n"),
        (&[0x01, 0x00], "01 1\n"),
        (&[0x02, 0x81], "02 1\n"),
        (&[0x03, 1, 2, 3], "03 1\n"),
        (&[0x04, 1], "04 1\n"),
        (&[0x05], "05 1\n"),
        (&[0x02, 0xFE, 0x11, 0x05, 0xFE], "02 0\n05 0 00\n"),
        (
            &[0x02, 0x16, 0xFF, 0x05, 0x16, 0x05],
            "02 0\n05 0 0f\n05 1\n",
        ),
    ];
    for (session, lines) in printed {
        assert_eq!(compare::session(case, session, &out), lines);
    }
}
