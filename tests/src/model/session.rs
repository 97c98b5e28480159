//! Sessions: records done on a fresh SAA7103, and the lines that they print.

use super::bus;
use super::picture;
use crate::library::{FILE_BYTES, SESSION_BYTES, STATE_BYTES};

/// How many bytes the body of a known kind has.
fn body_length(kind: u8) -> Option<usize> {
    match kind {
        1 => Some(18),
        2 | 4 => Some(2),
        3 => Some(4),
        5 => Some(1),
        _ => None,
    }
}

/// What a session prints.
pub fn print(session: &[u8]) -> String {
    if session.len() > SESSION_BYTES {
        return String::from("00 1\n");
    }
    let mut state = vec![0; STATE_BYTES];
    bus::fresh(&mut state, 3);
    let mut lines = String::new();
    let mut left = session;
    while let Some((kind, rest)) = left.split_first() {
        let body = body_length(*kind).and_then(|length| rest.get(..length));
        let Some(body) = body else {
            lines.push_str(&format!("{kind:02x} 1\n"));
            break;
        };
        let reply = record(&mut state, *kind, body);
        lines.push_str(&line(&state, *kind, body, reply));
        left = &rest[body.len()..];
    }
    lines
}

/// Does a whole record.
fn record(state: &mut [u8], kind: u8, body: &[u8]) -> u32 {
    match kind {
        1 => picture::write(&mut state[..FILE_BYTES], body),
        2 if body[0] >= 0xFE => 0,
        2 => bus::write(state, &[&[0x88], body].concat()),
        3 => bus::write(state, &[&[0x88, 0xFF], body].concat()),
        4 => bus::write(state, &[&[0x88, 0xFE], body].concat()),
        _ => 0,
    }
}

fn line(state: &[u8], kind: u8, body: &[u8], reply: u32) -> String {
    if kind == 5 {
        let byte = state[usize::from(body[0])];
        format!("{kind:02x} {reply} {byte:02x}\n")
    } else {
        format!("{kind:02x} {reply}\n")
    }
}

#[cfg(test)]
mod tests {
    use super::*;

    #[test]
    fn the_papers_session() {
        assert_eq!(print(&[0x02, 0x81, 0x2B, 0x05, 0x81]), "02 0\n05 0 2b\n");
    }

    #[test]
    fn broken_records_end_a_session() {
        assert_eq!(print(&[]), "");
        assert_eq!(print(&[0x05, 0x81, 0x00, 0x05, 0x81]), "05 0 00\n00 1\n");
        assert_eq!(print(&[0x03, 1, 2, 3]), "03 1\n");
        assert_eq!(print(&[0x06]), "06 1\n");
        assert_eq!(print(&[5; 16_384]).len(), 65_536);
        assert_eq!(print(&[5; 16_385]), "00 1\n");
    }
}
