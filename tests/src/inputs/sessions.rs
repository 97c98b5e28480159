//! Sessions of records.

use super::requests;
use crate::library::SESSION_BYTES;
use crate::random::Random;

/// A session of some records, now and then cut short, with an unknown kind, or of blind bytes.
pub fn any(random: &mut Random) -> Vec<u8> {
    if random.one_in(16) {
        let length = random.below(60);
        return random.bytes(length);
    }
    let mut session = Vec::new();
    for _ in 0..random.below(30) {
        record(random, &mut session);
    }
    match random.below(8) {
        0 => broken_record(random, &mut session),
        1 => session.truncate(random.below(session.len() + 1)),
        2 => insert_a_byte(random, &mut session),
        3..=5 => show_all(&mut session),
        _ => {}
    }
    session
}

/// A session of just so many bytes, or a few less where the last record would not fit.
pub fn long(random: &mut Random, length: usize) -> Vec<u8> {
    let mut session = Vec::new();
    while session.len() < length {
        record(random, &mut session);
    }
    session.truncate(length);
    session
}

/// A session that prints as much as there can be: records of two bytes that show a register.
pub fn longest_print(random: &mut Random) -> Vec<u8> {
    let mut session = Vec::new();
    while session.len() < SESSION_BYTES {
        session.extend_from_slice(&[5, random.byte()]);
    }
    session
}

/// A whole record of a known kind.
fn record(random: &mut Random, session: &mut Vec<u8>) {
    let kind = random.pick(&[1, 2, 2, 3, 4, 5, 5]);
    session.push(kind);
    match kind {
        1 => session.extend_from_slice(&requests::any(random)),
        3 => session.extend_from_slice(&random.bytes(4)),
        2 => {
            let end = random.pick(&[0x00, 0x1C, 0x67, 0x80, 0xFD, 0xFE, 0xFF]);
            let place = if random.one_in(3) { end } else { random.byte() };
            session.extend_from_slice(&[place, random.byte()]);
        }
        4 => session.extend_from_slice(&random.bytes(2)),
        _ => session.push(random.byte()),
    }
}

/// A record of unknown kind, with something behind it that must not be done.
fn broken_record(random: &mut Random, session: &mut Vec<u8>) {
    session.push(random.pick(&[0x00, 0x06, 0x07, 0x0A, 0x10, 0x81, 0xFF]));
    show_all(session);
}

fn insert_a_byte(random: &mut Random, session: &mut Vec<u8>) {
    let place = random.below(session.len() + 1);
    session.insert(place, random.byte());
}

/// Shows every register, so that what the records before have done is seen.
fn show_all(session: &mut Vec<u8>) {
    for place in 0..=255 {
        session.extend_from_slice(&[5, place]);
    }
}
