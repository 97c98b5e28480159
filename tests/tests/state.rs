//! Fresh states, and the bytes that the caller sets.

use thymeflask_tests::cases::{each_case, Case, Tally};
use thymeflask_tests::compare;
use thymeflask_tests::library::STATE_BYTES;
use thymeflask_tests::model::bus::{CHIP, FIFO, STATUS};

const SEED: u64 = 0x5747_4501;

/// Lengths on both sides of a state's, and far from it.
const WRONG: [usize; 7] = [0, 1, 256, 1280, 1282, 1284, 2566];

#[test]
fn fresh() {
    let mut tally = Tally::new("fresh");
    each_case(SEED, 20_000, |case| {
        let chip = match case.random.below(4) {
            0 => case.random.byte(),
            _ => case.random.pick(&[1, 2, 3, 4]),
        };
        let length = match case.random.below(8) {
            0 => case.random.pick(&WRONG),
            _ => STATE_BYTES,
        };
        let state = case.random.bytes(length);
        let (reply, next) = compare::fresh(case, &state, chip);
        tally.meet(reply);
        match reply {
            0 => assert!((0..STATE_BYTES).all(|place| next[place] == 0 || place == CHIP)),
            4 => assert!(next.iter().all(|byte| *byte == 0)),
            _ => assert_eq!(next, state),
        }
    });
    tally.finish(&[0, 1, 4], 500);
}

#[test]
fn every_chip_byte() {
    let mut tally = Tally::new("fresh, every chip byte");
    let case = &mut Case::new(SEED, 0);
    for chip in 0..=255 {
        let state = case.random.bytes(STATE_BYTES);
        let (reply, _) = compare::fresh(case, &state, chip);
        assert_eq!(reply, if chip == 2 || chip == 3 { 0 } else { 4 });
        tally.meet(reply);
    }
    tally.finish(&[0, 4], 2);
}

#[test]
fn set_status_and_set_fifo() {
    let mut tally = Tally::new("set_status, set_fifo");
    each_case(SEED, 20_000, |case| {
        let length = match case.random.below(8) {
            0 => case.random.pick(&WRONG),
            _ => STATE_BYTES,
        };
        let state = case.random.bytes(length);
        let byte = case.random.byte();
        let (reply, with_status) = compare::set_status(case, &state, byte);
        tally.meet(reply);
        let (reply, with_fifo) = compare::set_fifo(case, &state, byte);
        tally.meet(reply);
        if reply == 0 {
            assert_eq!((with_status[STATUS], with_fifo[FIFO]), (byte, byte));
        }
    });
    tally.finish(&[0, 1], 500);
}
