//! Pictures written into a register file.

use thymeflask_tests::cases::{each_case, Tally};
use thymeflask_tests::compare;
use thymeflask_tests::inputs::{files, requests};
use thymeflask_tests::library::{FIELDS_BYTES, REQUEST_BYTES};
use thymeflask_tests::model::fields;

const SEED: u64 = 0x5750_4901;

#[test]
fn requests_of_all_kinds() {
    let mut tally = Tally::new("write_picture");
    each_case(SEED, 120_000, |case| {
        let file = files::any(&mut case.random);
        let request = requests::any(&mut case.random);
        let (reply, _) = compare::write_picture(case, &file, &request);
        tally.meet(reply);
    });
    tally.finish(&[0, 4, 5, 6, 7], 2_000);
}

/// What was written is read back as the same request, whatever the other bits of the file are; the
/// fields then hold what the check says.
#[test]
fn written_pictures_read_back() {
    let mut tally = Tally::new("write_picture, then read_picture");
    each_case(SEED + 1, 30_000, |case| {
        let file = files::any(&mut case.random);
        let request = requests::accepted(&mut case.random).to_bytes();
        let (reply, written) = compare::write_picture(case, &file, &request);
        tally.meet(reply);
        let lent = case.random.bytes(REQUEST_BYTES);
        let (reply, back) = compare::read_picture(case, &written, &lent);
        let inputs: &[(&str, &[u8])] = &[("file", &file), ("request", &request)];
        case.same("read back", (reply, &back[..]), (0, &request[..]), inputs);
        let (_, numbers) = compare::check(case, &request, &[0; FIELDS_BYTES]);
        let stored = fields::fetch(&written).map(|number| (number as u32).to_le_bytes());
        case.same("fields", numbers, stored.concat(), inputs);
    });
    tally.finish(&[0], 30_000);
}

/// Of two pictures one after another only the second is left.
#[test]
fn the_second_picture_stands() {
    let mut tally = Tally::new("write_picture, over another picture");
    each_case(SEED + 2, 10_000, |case| {
        let file = files::with_picture(&mut case.random);
        let request = requests::accepted(&mut case.random).to_bytes();
        let (reply, written) = compare::write_picture(case, &file, &request);
        tally.meet(reply);
        let (reply, back) = compare::read_picture(case, &written, &[0; REQUEST_BYTES]);
        let inputs: &[(&str, &[u8])] = &[("file", &file), ("request", &request)];
        case.same("read back", (reply, &back[..]), (0, &request[..]), inputs);
    });
    tally.finish(&[0], 10_000);
}
