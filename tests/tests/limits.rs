//! Each limit of a request: at it, one below and one above; and two limits broken at once.
//!
//! The replies stand here as numbers, so that the model is tested too.

use thymeflask_tests::cases::Case;
use thymeflask_tests::compare;
use thymeflask_tests::inputs::requests::{FIGURE_1, FIGURE_4};
use thymeflask_tests::library::{FIELDS_BYTES, FILE_BYTES};
use thymeflask_tests::model::request::Request;

fn replies(request: Request, expected: u32) {
    let case = &mut Case::new(0, 0);
    let bytes = request.to_bytes();
    let (reply, _) = compare::check(case, &bytes, &[0x5A; FIELDS_BYTES]);
    assert_eq!(reply, expected, "{request:?}");
    let (reply, _) = compare::write_picture(case, &[0x5A; FILE_BYTES], &bytes);
    assert_eq!(reply, expected, "{request:?}");
}

/// Sets one number of a request.
type Set = fn(&mut Request, i128);

const STANDARD: Set = |it, number| it.standard = number;
const IN_PIX: Set = |it, number| it.in_pix = number;
const IN_LIN: Set = |it, number| it.in_lin = number;
const IN_PPL: Set = |it, number| it.in_ppl = number;
const OUT_PIX: Set = |it, number| it.out_pix = number;
const OUT_LIN: Set = |it, number| it.out_lin = number;
const Y_SKIP: Set = |it, number| it.y_skip = number;
const X_OFS: Set = |it, number| it.x_ofs = number;
const Y_OFSO: Set = |it, number| it.y_ofso = number;
const OFFSET: Set = |it, number| it.offset = number;

/// The same request with one number in turn at each of these values.
fn turn(request: Request, set: Set, expected: &[(i128, u32)]) {
    for (number, reply) in expected {
        let mut turned = request;
        set(&mut turned, *number);
        replies(turned, *reply);
    }
    println!("limits: {} requests beside {request:?}", expected.len());
}

const WIDE: Request = Request {
    in_pix: 800,
    in_ppl: 900,
    out_pix: 640,
    ..FIGURE_1
};

const SMALL: Request = Request {
    in_pix: 2,
    in_lin: 1,
    in_ppl: 700,
    out_pix: 1,
    out_lin: 1,
    ..FIGURE_1
};

/// As many lines as the monitor has, so that the clock allows the longest lines.
const TALL: Request = Request {
    in_lin: 239,
    out_lin: 240,
    ..FIGURE_1
};

#[test]
fn standard() {
    turn(FIGURE_1, STANDARD, &[(0, 0), (1, 0), (2, 4), (255, 4)]);
}

#[test]
fn source_width() {
    turn(SMALL, IN_PIX, &[(0, 4), (1, 4), (2, 0), (3, 4)]);
    turn(WIDE, IN_PIX, &[(798, 0), (799, 4), (800, 0), (801, 4)]);
    turn(WIDE, IN_PIX, &[(802, 4), (65_534, 4)]);
}

#[test]
fn source_height() {
    turn(SMALL, IN_LIN, &[(0, 4), (1, 0), (2, 0), (3, 5)]);
    let tall = Request {
        out_lin: 240,
        ..FIGURE_1
    };
    turn(tall, IN_LIN, &[(599, 0), (600, 0), (601, 4), (65_535, 4)]);
}

#[test]
fn source_in_its_line() {
    turn(FIGURE_1, X_OFS, &[(159, 0), (160, 0), (161, 4)]);
    turn(FIGURE_1, IN_PPL, &[(0, 4), (719, 4), (720, 0), (721, 0)]);
}

#[test]
fn output_width() {
    turn(SMALL, OUT_PIX, &[(0, 5), (1, 0), (2, 0), (3, 5)]);
    turn(WIDE, OUT_PIX, &[(709, 0), (710, 0), (711, 5)]);
    let fifty = Request {
        standard: 1,
        ..WIDE
    };
    turn(fifty, OUT_PIX, &[(701, 0), (702, 0), (703, 5), (710, 5)]);
    turn(FIGURE_1, OUT_PIX, &[(639, 0), (640, 0), (641, 5)]);
    turn(FIGURE_1, OUT_PIX, &[(319, 5), (320, 0), (321, 0)]);
    turn(WIDE, OUT_PIX, &[(399, 5), (400, 0), (401, 0), (65_535, 5)]);
}

#[test]
fn output_height() {
    turn(TALL, OUT_LIN, &[(0, 5), (239, 0), (240, 0), (241, 5)]);
    let fifty = Request {
        standard: 1,
        in_lin: 286,
        ..TALL
    };
    turn(fifty, OUT_LIN, &[(0, 5), (286, 0), (287, 0), (288, 5)]);
    let slow = Request {
        in_ppl: 700,
        in_lin: 482,
        x_ofs: 60,
        ..FIGURE_1
    };
    turn(slow, OUT_LIN, &[(120, 5), (121, 0), (122, 0), (65_535, 5)]);
    let slow = Request {
        out_lin: 121,
        ..slow
    };
    turn(slow, IN_LIN, &[(481, 0), (482, 0), (483, 5)]);
}

#[test]
fn offset() {
    turn(FIGURE_1, OFFSET, &[(-128, 5), (-9, 5), (-8, 0), (-7, 0)]);
    turn(FIGURE_1, OFFSET, &[(7, 0), (8, 0), (9, 5), (127, 5)]);
}

#[test]
fn offsets_of_the_source() {
    let long = Request {
        in_pix: 2,
        out_pix: 2,
        in_ppl: 1283,
        ..FIGURE_1
    };
    turn(long, X_OFS, &[(1022, 0), (1023, 0), (1024, 6)]);
    turn(FIGURE_1, Y_OFSO, &[(0, 0), (1022, 0), (1023, 0)]);
    turn(FIGURE_1, Y_OFSO, &[(1024, 6), (65_535, 6)]);
    turn(FIGURE_4, Y_OFSO, &[(0, 0), (1021, 0), (1022, 0)]);
    turn(FIGURE_4, Y_OFSO, &[(1023, 6), (1024, 6), (65_535, 6)]);
}

/// HLEN has eleven bits in the map, so a line has 2,048 pixel clocks at most.
#[test]
fn line_length() {
    turn(TALL, IN_PPL, &[(2047, 0), (2048, 0), (2049, 6)]);
    // The clock limit would allow 2,854.
    turn(
        TALL,
        IN_PPL,
        &[(2854, 6), (2855, 6), (4096, 6), (65_535, 6)],
    );
}

#[test]
fn skip() {
    let filtered = Request {
        standard: 1,
        out_lin: 240,
        ..FIGURE_1
    };
    turn(filtered, Y_SKIP, &[(4094, 0), (4095, 0), (4096, 6)]);
    turn(filtered, Y_SKIP, &[(4097, 6), (65_535, 6)]);
}

/// YINC 4,095 is the last that fits; N/D is just below, then just above 4,095 and a half.
#[test]
fn vertical_step() {
    let steep = Request {
        in_lin: 425,
        out_lin: 232,
        ..FIGURE_1
    };
    turn(steep, Y_SKIP, &[(3439, 0), (3440, 0), (3441, 6)]);
    let plain = Request {
        in_lin: 236,
        ..TALL
    };
    turn(plain, OUT_LIN, &[(236, 0), (237, 0), (238, 6)]);
}

/// The one pair of heights at which N can be just YSKIP times D: the even field then begins on the odd
/// one's line, with no weight at all.
#[test]
fn even_field_on_the_same_line() {
    for standard in [0, 1] {
        for (y_skip, weight, line) in [(2519, 0, 66), (2520, 0, 66), (2521, 2520, 67)] {
            let request = Request {
                standard,
                in_lin: 510,
                out_lin: 195,
                y_skip,
                ..FIGURE_1
            };
            assert_eq!(even_field(request), (weight, line), "{request:?}");
        }
    }
}

/// YIWGTE and YOFSE, of which the high byte is not needed here.
fn even_field(request: Request) -> (u16, u8) {
    let case = &mut Case::new(0, 0);
    let (reply, fields) = compare::check(case, &request.to_bytes(), &[0; FIELDS_BYTES]);
    assert_eq!(reply, 0, "{request:?}");
    let weight = u16::from_le_bytes([fields[4 * 15], fields[4 * 15 + 1]]);
    (weight, fields[4 * 9])
}

/// Where 3 x InPpl x L is just 5 x F, at both standards.
#[test]
fn pixel_clock() {
    let sixty = Request {
        in_lin: 2,
        out_lin: 2,
        ..FIGURE_1
    };
    turn(sixty, IN_PPL, &[(1429, 0), (1430, 0), (1431, 7)]);
    let fifty = Request {
        standard: 1,
        ..sixty
    };
    turn(fifty, IN_PPL, &[(1439, 0), (1440, 0), (1441, 7)]);
    turn(FIGURE_1, IN_PPL, &[(1282, 0), (1283, 0), (1284, 7)]);
}

/// Breaks the limit of a reply number, and no other one.
fn break_one(request: &mut Request, number: u32) {
    match number {
        4 => request.in_pix = 641,
        5 => request.offset = 9,
        6 => request.y_ofso = 1024,
        _ => request.in_ppl = 1284,
    }
}

/// Of two broken limits the lower number is given.
#[test]
fn two_at_once() {
    for lower in 4..=7 {
        for higher in lower..=7 {
            let mut request = FIGURE_1;
            break_one(&mut request, higher);
            break_one(&mut request, lower);
            replies(request, lower);
        }
    }
}

/// Where a divisor is 0, or the standard unknown, a lower number has answered already.
#[test]
fn nothing_to_divide_by() {
    replies(Request::default(), 4);
    turn(FIGURE_1, OUT_LIN, &[(0, 5)]);
    turn(FIGURE_1, IN_PIX, &[(0, 4)]);
    let all_ones = Request::from_bytes(&[0xFF; 18]).expect("18 bytes");
    replies(all_ones, 4);
}
