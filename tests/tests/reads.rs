//! Bus reads.

use thymeflask_tests::cases::{each_case, Case, Tally};
use thymeflask_tests::compare;
use thymeflask_tests::inputs::transactions;
use thymeflask_tests::library::STATE_BYTES;
use thymeflask_tests::model::bus::{CHIP, FIFO, STATUS};

const SEED: u64 = 0x5245_4101;

#[test]
fn reads() {
    let mut tally = Tally::new("read");
    each_case(SEED, 60_000, |case| {
        let state = case.random.bytes(STATE_BYTES);
        let transaction = transactions::read(&mut case.random);
        let result = compare::read(case, &state, &transaction);
        tally.meet(result & 0xFF);
    });
    tally.finish(&[0, 1, 2, 12], 1000);
}

#[test]
fn every_place() {
    let mut tally = Tally::new("read, every place");
    let case = &mut Case::new(SEED, 0);
    for place in 0..=255 {
        let state = case.random.bytes(STATE_BYTES);
        let expected = match place {
            0x00 => u32::from(state[STATUS]) << 8,
            0x1C => u32::from(state[CHIP]) << 8,
            0x80 => u32::from(state[FIFO]) << 8,
            _ => 12,
        };
        assert_eq!(compare::read(case, &state, &[0x88, place, 0x89]), expected);
        tally.meet(expected & 0xFF);
    }
    tally.finish(&[0, 12], 1);
}

/// Every pair of addresses around a place that can be read, and around one that cannot.
#[test]
fn every_address() {
    let mut tally = Tally::new("read, every address");
    let case = &mut Case::new(SEED, 1);
    let state = case.random.bytes(STATE_BYTES);
    for byte in 0..=255 {
        for place in [0x00, 0x01] {
            for transaction in [
                [byte, place, 0x89],
                [0x88, place, byte],
                [byte, place, byte],
            ] {
                tally.meet(compare::read(case, &state, &transaction) & 0xFF);
            }
        }
    }
    tally.finish(&[0, 2, 12], 1);
}

/// What the bus wrote and the caller set is what is read.
#[test]
fn reads_after_writes() {
    let case = &mut Case::new(SEED, 2);
    let (_, fresh) = compare::fresh(case, &[0xFF; STATE_BYTES], 2);
    let (_, state) = compare::set_status(case, &fresh, 0x9B);
    let (_, state) = compare::set_fifo(case, &state, 0xFF);
    let (_, state) = compare::write(case, &state, &[&[0x88, 0x00], &[0x77; 254][..]].concat());
    assert_eq!(compare::read(case, &state, &[0x88, 0x00, 0x89]), 0x9B00);
    assert_eq!(compare::read(case, &state, &[0x88, 0x1C, 0x89]), 0x0200);
    assert_eq!(compare::read(case, &state, &[0x88, 0x80, 0x89]), 0xFF00);
    assert_eq!(compare::read(case, &state, &[0x88, 0x80, 0x89]), 0xFF00);
}
