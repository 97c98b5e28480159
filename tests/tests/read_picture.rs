//! Register files read back as pictures.

use thymeflask_tests::cases::{each_case, Case, Tally};
use thymeflask_tests::compare;
use thymeflask_tests::inputs::{files, requests};
use thymeflask_tests::library::{FILE_BYTES, REQUEST_BYTES};
use thymeflask_tests::model::fields;

const SEED: u64 = 0x5250_4901;

#[test]
fn files_of_all_kinds() {
    let mut tally = Tally::new("read_picture");
    each_case(SEED, 200_000, |case| {
        let file = files::near_a_picture(&mut case.random);
        let request = case.random.bytes(REQUEST_BYTES);
        let (reply, _) = compare::read_picture(case, &file, &request);
        tally.meet(reply);
    });
    tally.finish(&[0, 9], 20_000);
}

/// Every single bit of a file in which a picture stands, flipped: of the bits that belong to no field
/// none may matter.
#[test]
fn every_bit_flipped() {
    let mut tally = Tally::new("read_picture, every bit flipped");
    each_case(SEED + 1, 12, |case| {
        let file = files::with_picture(&mut case.random);
        for bit in 0..8 * FILE_BYTES {
            let mut flipped = file.clone();
            flipped[bit / 8] ^= 1 << (bit % 8);
            let (reply, _) = compare::read_picture(case, &flipped, &[0xA5; REQUEST_BYTES]);
            tally.meet(reply);
            if fields::field_bits(bit / 8) >> (bit % 8) & 1 == 0 {
                assert_eq!(reply, 0, "bit {bit} belongs to no field");
            }
        }
    });
    tally.finish(&[0, 9], 500);
}

/// FAL and LAL moved together, across the ends of the offset.
#[test]
fn every_offset() {
    let mut tally = Tally::new("read_picture, every offset");
    each_case(SEED + 2, 400, |case| {
        let file = files::with_picture(&mut case.random);
        for step in -20..=20 {
            let mut numbers = fields::fetch(&file);
            numbers[3] += step;
            numbers[4] += step;
            if fields::fits(&numbers) {
                let mut moved = file.clone();
                fields::store(&mut moved, &numbers);
                let (reply, _) = compare::read_picture(case, &moved, &[0xA5; REQUEST_BYTES]);
                tally.meet(reply);
            }
        }
    });
    tally.finish(&[0, 9], 500);
}

/// Every number of every field beside an accepted picture's others: the numbers that nothing else
/// hangs on may move, the others not.
#[test]
fn every_number_of_a_field() {
    let mut tally = Tally::new("read_picture, every number of a field");
    each_case(SEED + 3, 3, |case| {
        let file = files::with_picture(&mut case.random);
        let numbers = fields::fetch(&file);
        for index in (0..17).filter(|index| *index != 5) {
            sweep(case, &mut tally, &file, numbers, index);
        }
    });
    tally.finish(&[0, 9], 500);
}

fn sweep(case: &mut Case, tally: &mut Tally, file: &[u8], mut numbers: [i128; 17], index: usize) {
    for number in 0..4096 {
        numbers[index] = number;
        if fields::fits(&numbers) {
            let mut moved = file.to_vec();
            fields::store(&mut moved, &numbers);
            let (reply, _) = compare::read_picture(case, &moved, &[0xA5; REQUEST_BYTES]);
            tally.meet(reply);
        }
    }
}

/// A picture's fields that were written one by one over the bus are read as the picture.
#[test]
fn pictures_sent_over_the_bus() {
    let mut tally = Tally::new("read_picture, sent over the bus");
    each_case(SEED + 4, 1_000, |case| {
        let request = requests::accepted(&mut case.random).to_bytes();
        let (_, file) = compare::write_picture(case, &[0; FILE_BYTES], &request);
        let (_, mut state) = compare::fresh(case, &[1; 1283], 3);
        for place in 0..=0xFD {
            let byte = file[usize::from(place)];
            state = compare::write(case, &state, &[0x88, place, byte]).1;
        }
        let (reply, back) = compare::read_picture(case, &state[..256], &[0; REQUEST_BYTES]);
        let inputs: &[(&str, &[u8])] = &[("request", &request)];
        case.same("read back", (reply, &back[..]), (0, &request[..]), inputs);
        tally.meet(reply);
    });
    tally.finish(&[0], 1_000);
}
