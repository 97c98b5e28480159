//! Bus transactions.

use crate::random::Random;

/// A write: mostly with the right address and a run that ends near to where it may.
pub fn write(random: &mut Random) -> Vec<u8> {
    let length = random.pick(&[0, 1, 2]);
    if random.one_in(20) {
        return random.bytes(length);
    }
    let address = if random.one_in(20) {
        random.pick(&[0x89, 0x00, 0x8C, 0x08, 0xFF])
    } else {
        0x88
    };
    let subaddress = match random.below(6) {
        0 => 0xFE,
        1 | 2 => 0xFF,
        3 => random.pick(&[0xFD, 0xFC, 0xF0, 0x80, 0x00]),
        _ => random.byte(),
    };
    let mut transaction = vec![address, subaddress];
    match subaddress {
        0xFE => cells(random, 1, &mut transaction),
        0xFF => cells(random, 3, &mut transaction),
        _ => registers(random, usize::from(subaddress), &mut transaction),
    }
    transaction
}

/// A count that is near to the last one allowed, or any up to it.
fn count(random: &mut Random, last: usize) -> usize {
    match random.below(8) {
        0 => last,
        1 => last + 1,
        2 => last.saturating_sub(1),
        3 => last + random.below(600),
        4 | 5 => random.below(last.min(8) + 1),
        _ => random.below(last + 1),
    }
}

fn registers(random: &mut Random, subaddress: usize, transaction: &mut Vec<u8>) {
    let count = count(random, 0xFE - subaddress);
    transaction.extend_from_slice(&random.bytes(count));
}

/// A start cell, and cells of so many bytes; or nothing.
fn cells(random: &mut Random, width: usize, transaction: &mut Vec<u8>) {
    if random.one_in(16) {
        return;
    }
    let start = match random.below(4) {
        0 => random.pick(&[0, 1, 254, 255]),
        _ => random.byte(),
    };
    let mut bytes = width * count(random, 256 - usize::from(start));
    if random.one_in(5) {
        bytes = (bytes + random.below(3)).saturating_sub(random.below(3));
    }
    transaction.push(start);
    transaction.extend_from_slice(&random.bytes(bytes));
}

/// A read: mostly of a readable place, and now and then with one byte wrong, missing or over.
pub fn read(random: &mut Random) -> Vec<u8> {
    let place = match random.below(6) {
        0 => random.byte(),
        1 => random.pick(&[0x01, 0x1B, 0x1D, 0x7F, 0x81, 0xFF]),
        _ => random.pick(&[0x00, 0x1C, 0x80]),
    };
    let mut transaction = vec![0x88, place, 0x89];
    match random.below(12) {
        0 => transaction[random.pick(&[0, 2])] = random.byte(),
        1 => transaction[0] = 0x89,
        2 => transaction[2] = 0x88,
        3 => transaction.truncate(random.below(3)),
        4 => transaction.push(random.byte()),
        5 => {
            let length = random.below(6);
            return random.bytes(length);
        }
        _ => {}
    }
    transaction
}
