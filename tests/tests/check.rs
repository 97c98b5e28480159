//! Requests checked, and the numbers of their fields.

use thymeflask_tests::cases::{each_case, Case, Tally};
use thymeflask_tests::compare;
use thymeflask_tests::inputs::requests::{self, FIGURE_1};
use thymeflask_tests::library::FIELDS_BYTES;
use thymeflask_tests::model::request::Request;
use thymeflask_tests::model::scaler;

const SEED: u64 = 0x4348_4501;

/// Number 8 is not among the replies: the limits before it keep both weights within their bits.
#[test]
fn requests_of_all_kinds() {
    let mut tally = Tally::new("check");
    each_case(SEED, 500_000, |case| {
        let request = requests::any(&mut case.random);
        let fields = case.random.bytes(FIELDS_BYTES);
        let (reply, _) = compare::check(case, &request, &fields);
        tally.meet(reply);
    });
    tally.finish(&[0, 4, 5, 6, 7], 5_000);
}

/// The lines of every source height with every output height, at a YSKIP that is drawn.
#[test]
fn every_height() {
    let mut tally = Tally::new("check, every height");
    let case = &mut Case::new(SEED, 0);
    let fields = case.random.bytes(FIELDS_BYTES);
    for standard in 0..=1 {
        let tallest = scaler::standard(standard)
            .expect("a known standard")
            .tallest;
        for out_lin in 0..=tallest + 1 {
            for in_lin in 0..=602 {
                let request = Request {
                    standard,
                    in_lin,
                    out_lin,
                    y_skip: case.random.pick(&[0, 0, 1024, 2048, 4095, 4096]),
                    offset: case.random.between(-9, 9),
                    ..FIGURE_1
                };
                let (reply, _) = compare::check(case, &request.to_bytes(), &fields);
                tally.meet(reply);
            }
        }
    }
    tally.finish(&[0, 4, 5, 6, 7], 500);
}

/// Every source width with every output width.
#[test]
fn every_width() {
    let mut tally = Tally::new("check, every width");
    let case = &mut Case::new(SEED, 1);
    let fields = case.random.bytes(FIELDS_BYTES);
    for in_pix in 0..=802 {
        for out_pix in in_pix / 2 - 1..=in_pix + 1 {
            let request = Request {
                standard: case.random.between(0, 1),
                in_pix,
                out_pix: out_pix.max(0),
                in_ppl: 1000,
                ..FIGURE_1
            };
            let (reply, _) = compare::check(case, &request.to_bytes(), &fields);
            tally.meet(reply);
        }
    }
    tally.finish(&[0, 4, 5], 500);
}

/// Every YSKIP, where the step rises and the even field moves to the next line.
#[test]
fn every_skip() {
    let mut tally = Tally::new("check, every YSKIP");
    let case = &mut Case::new(SEED, 2);
    let fields = case.random.bytes(FIELDS_BYTES);
    for y_skip in 0..=4200 {
        for (standard, in_lin, out_lin) in [(0, 480, 216), (0, 300, 200), (1, 600, 255), (1, 11, 4)]
        {
            let request = Request {
                standard,
                in_lin,
                out_lin,
                y_skip,
                y_ofso: case.random.pick(&[66, 1022, 1023]),
                ..FIGURE_1
            };
            let (reply, _) = compare::check(case, &request.to_bytes(), &fields);
            tally.meet(reply);
        }
    }
    tally.finish(&[0, 6], 500);
}

/// Every InPpl, across the clock limit and the end of HLEN's bits.
#[test]
fn every_line_length() {
    let mut tally = Tally::new("check, every InPpl");
    let case = &mut Case::new(SEED, 3);
    let fields = case.random.bytes(FIELDS_BYTES);
    for in_ppl in 0..=5000 {
        for (standard, in_lin, out_lin) in [(0, 480, 216), (0, 239, 240), (1, 286, 287)] {
            let request = Request {
                standard,
                in_lin,
                out_lin,
                in_ppl,
                ..FIGURE_1
            };
            let (reply, _) = compare::check(case, &request.to_bytes(), &fields);
            tally.meet(reply);
        }
    }
    tally.finish(&[0, 4, 6, 7], 500);
}
