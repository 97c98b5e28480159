//! Rows of the cursor map.

use thymeflask_tests::cases::{each_case, Case};
use thymeflask_tests::compare;
use thymeflask_tests::library::MAP_BYTES;

const SEED: u64 = 0x4355_5201;

#[test]
fn rows() {
    let (mut rows, mut none) = (0, 0);
    each_case(SEED, 40_000, |case| {
        let length = match case.random.below(4) {
            0 => case.random.pick(&[0, 1, 8, 248, 255, 257, 264, 512, 768]),
            _ => MAP_BYTES,
        };
        let map = case.random.bytes(length);
        let row = match case.random.below(8) {
            0 => case.random.number() as u32,
            1 => case
                .random
                .pick(&[31, 32, 33, 255, 256, 287, u32::MAX, 1 << 29, 1 << 31]),
            _ => case.random.below(34) as u32,
        };
        match compare::cursor_row(case, &map, row) == length {
            true => none += 1,
            false => rows += 1,
        }
    });
    println!("cursor_row: {rows} rows, {none} times none");
    assert!(rows > 1000 && none > 1000);
}

#[test]
fn every_row_and_every_length() {
    let case = &mut Case::new(SEED, 0);
    let map = case.random.bytes(2 * MAP_BYTES);
    for row in 0..64 {
        let expected = if row < 32 {
            8 * row as usize
        } else {
            MAP_BYTES
        };
        assert_eq!(compare::cursor_row(case, &map[..MAP_BYTES], row), expected);
    }
    for length in 0..=2 * MAP_BYTES {
        for row in [0, 1, 31, 32] {
            compare::cursor_row(case, &map[..length], row);
        }
    }
}

/// A dot that is written over the bus is found in the byte of its row, four dots to a byte.
#[test]
fn dots_of_a_row() {
    let case = &mut Case::new(SEED, 1);
    for (row, column) in [(0, 0), (0, 31), (1, 4), (31, 31), (17, 22)] {
        let cell = 8 * row + column / 4;
        let (_, state) = compare::fresh(case, &[0; 1283], 3);
        let (reply, state) = compare::write(case, &state, &[0x88, 0xFE, cell, 0xC0]);
        assert_eq!(reply, 0);
        let map = &state[1024..1280];
        let first = compare::cursor_row(case, map, u32::from(row));
        assert_eq!(map[first..first + 8][usize::from(column / 4)], 0xC0);
        assert_eq!(map.iter().filter(|byte| **byte != 0).count(), 1);
    }
}
