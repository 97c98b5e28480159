//! Bus writes.

use thymeflask_tests::cases::{each_case, Case, Tally};
use thymeflask_tests::compare;
use thymeflask_tests::inputs::transactions;
use thymeflask_tests::library::STATE_BYTES;
use thymeflask_tests::model::masks;

const SEED: u64 = 0x5752_4901;

#[test]
fn writes_one_after_another() {
    let mut tally = Tally::new("write");
    each_case(SEED, 8_000, |case| {
        let mut state = case.random.bytes(STATE_BYTES);
        for _ in 0..40 {
            let transaction = transactions::write(&mut case.random);
            let (reply, next) = compare::write(case, &state, &transaction);
            tally.meet(reply);
            state = next;
        }
    });
    tally.finish(&[0, 1, 2, 3], 1000);
}

/// All ones and all zeros at every place show every bit of the map.
#[test]
fn every_bit_of_every_place() {
    let mut tally = Tally::new("write, every bit of every place");
    let case = &mut Case::new(SEED, 0);
    for place in 0..=0xFD {
        for (before, byte) in [(0x00, 0xFF), (0xFF, 0x00), (0x55, 0xAA), (0xAA, 0x55)] {
            let state = [before; STATE_BYTES];
            let (reply, next) = compare::write(case, &state, &[0x88, place, byte]);
            tally.meet(reply);
            let place = usize::from(place);
            assert_eq!(next[place] ^ before, masks::mask(place));
        }
    }
    tally.finish(&[0], 1);
}

/// Each subaddress with the longest run that it takes, and with one byte more and less.
#[test]
fn the_ends_of_register_runs() {
    let mut tally = Tally::new("write, the ends of register runs");
    let case = &mut Case::new(SEED, 1);
    for subaddress in 0..=0xFD {
        let most = 0xFE - usize::from(subaddress);
        for (count, expected) in [(most - 1, 0), (most, 0), (most + 1, 3), (most + 2, 3)] {
            let state = case.random.bytes(STATE_BYTES);
            let data = case.random.bytes(count);
            let transaction = [&[0x88, subaddress], &data[..]].concat();
            let (reply, _) = compare::write(case, &state, &transaction);
            assert_eq!(reply, expected, "{subaddress:02x}, {count} bytes");
            tally.meet(reply);
        }
    }
    tally.finish(&[0, 3], 500);
}

/// Each start cell of the cursor map and of the colour table, up to its end and just over it.
#[test]
fn the_ends_of_cells() {
    let mut tally = Tally::new("write, the ends of cells");
    let case = &mut Case::new(SEED, 2);
    for (subaddress, width) in [(0xFE, 1), (0xFF, 3)] {
        for start in 0..=255 {
            let most = width * (256 - usize::from(start));
            for bytes in [0, most - width, most - 1, most, most + 1, most + width] {
                let broken = bytes > most || bytes % width != 0;
                let state = case.random.bytes(STATE_BYTES);
                let data = case.random.bytes(bytes);
                let transaction = [&[0x88, subaddress, start], &data[..]].concat();
                let (reply, _) = compare::write(case, &state, &transaction);
                assert_eq!(reply, if broken { 3 } else { 0 }, "{start}, {bytes} bytes");
                tally.meet(reply);
            }
        }
    }
    tally.finish(&[0, 3], 500);
}

/// A subaddress alone, at every place, and a start cell with nothing behind it.
#[test]
fn writes_without_data() {
    let mut tally = Tally::new("write, without data");
    let case = &mut Case::new(SEED, 3);
    for byte in 0..=255 {
        let state = case.random.bytes(STATE_BYTES);
        for transaction in [
            vec![0x88, byte],
            vec![0x88, 0xFE, byte],
            vec![0x88, 0xFF, byte],
        ] {
            let (reply, next) = compare::write(case, &state, &transaction);
            assert_eq!(next, state);
            tally.meet(reply);
        }
    }
    tally.finish(&[0], 1);
}

/// Long transactions: the length must not be cut to fewer bits anywhere.
#[test]
fn runs_far_over_their_end() {
    let mut tally = Tally::new("write, far over the end");
    let case = &mut Case::new(SEED, 4);
    let state = case.random.bytes(STATE_BYTES);
    for extra in [256, 254, 768, 65_536, 65_536 + 254, 3 * 65_536, 1 << 20] {
        for subaddress in [0x00, 0x01, 0xFD, 0xFE, 0xFF] {
            for more in 0..4 {
                let data = case.random.bytes(extra + more);
                let transaction = [&[0x88, subaddress], &data[..]].concat();
                tally.meet(compare::write(case, &state, &transaction).0);
            }
        }
    }
    tally.finish(&[0, 3], 1);
}

/// Every address byte, with a run that is right and one that is wrong.
#[test]
fn every_address() {
    let mut tally = Tally::new("write, every address");
    let case = &mut Case::new(SEED, 5);
    for address in 0..=255 {
        let state = case.random.bytes(STATE_BYTES);
        let right = address == 0x88;
        let (one, _) = compare::write(case, &state, &[address, 0xFD, 0x5A]);
        let (two, _) = compare::write(case, &state, &[address, 0xFD, 0x5A, 0xA5]);
        let (none, _) = compare::write(case, &state, &[address]);
        assert_eq!((one, two, none), if right { (0, 3, 1) } else { (2, 2, 1) });
        tally.meet(one);
        tally.meet(two);
        tally.meet(none);
    }
    tally.finish(&[0, 1, 2, 3], 1);
}
