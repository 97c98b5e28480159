//! The bench figures of the customer's paper, with the numbers that are printed there.

use thymeflask_tests::cases::Case;
use thymeflask_tests::compare;
use thymeflask_tests::inputs::requests::{FIGURE_1, FIGURE_4};
use thymeflask_tests::library::{FIELDS_BYTES, FILE_BYTES, REQUEST_BYTES, STATE_BYTES};
use thymeflask_tests::model::request::Request;
use thymeflask_tests::model::scaler::NAMES;

const FIGURE_2: Request = Request {
    out_lin: 220,
    ..FIGURE_1
};

const FIGURE_3: Request = Request {
    out_lin: 212,
    y_skip: 2048,
    ..FIGURE_1
};

const FIGURE_6: Request = Request {
    standard: 1,
    in_pix: 640,
    in_lin: 480,
    in_ppl: 800,
    out_pix: 640,
    out_lin: 240,
    y_skip: 4095,
    x_ofs: 80,
    y_ofso: 66,
    offset: 0,
};

fn reply(request: Request) -> u32 {
    let case = &mut Case::new(0, 0);
    compare::check(case, &request.to_bytes(), &[0; FIELDS_BYTES]).0
}

/// The request is accepted, its fields hold these numbers, and it is read back from a file.
fn has(request: Request, printed: &[(&str, u32)]) {
    let case = &mut Case::new(0, 0);
    let bytes = request.to_bytes();
    let (reply, fields) = compare::check(case, &bytes, &[0xFF; FIELDS_BYTES]);
    assert_eq!(reply, 0);
    for (name, number) in printed {
        let index = NAMES
            .iter()
            .position(|field| field == name)
            .expect("a field");
        let field = fields[4 * index..4 * index + 4]
            .try_into()
            .expect("four bytes");
        assert_eq!(u32::from_le_bytes(field), *number, "{name}");
    }
    let (reply, file) = compare::write_picture(case, &[0xFF; FILE_BYTES], &bytes);
    assert_eq!(reply, 0);
    let (reply, back) = compare::read_picture(case, &file, &[0; REQUEST_BYTES]);
    assert_eq!((reply, &back[..]), (0, &bytes[..]));
}

#[test]
fn figure_1() {
    let window = [("ADWHS", 326), ("ADWHE", 1606), ("FAL", 31), ("LAL", 247)];
    has(FIGURE_1, &window);
    has(FIGURE_1, &[("XINC", 0), ("PCL", 2_178_859), ("YINC", 1836)]);
    has(FIGURE_1, &[("YIWGTO", 2965), ("YIWGTE", 917)]);
}

/// The places of figure 1 in a file that was never written.
#[test]
fn figure_1_in_the_file() {
    let case = &mut Case::new(0, 0);
    let (_, file) = compare::write_picture(case, &[0; FILE_BYTES], &FIGURE_1.to_bytes());
    assert_eq!(file[0x61], 0x01);
    assert_eq!(file[0x70..0x73], [0x46, 0x46, 0x61]);
    assert_eq!(file[0x7A..0x7D], [31, 247, 0]);
    assert_eq!(file[0x81..0x84], [0x2B, 0x3F, 0x21]);
    assert_eq!(file[0x90..0x97], [80, 0x40, 66, 66, 0x04, 0xE0, 0x01]);
    // HLEN 799, XINC 0, YINC 1836.
    assert_eq!(file[0x98..0x9D], [0x1F, 0x03, 0x00, 0x2C, 0x70]);
    // YIWGTO 2965, YIWGTE 917, YSKIP 0.
    assert_eq!(file[0x9D..0xA2], [0x95, 0x95, 0x3B, 0x00, 0x00]);
}

#[test]
fn figure_2() {
    has(FIGURE_2, &[("PCL", 2_141_613), ("YINC", 1870)]);
}

#[test]
fn figure_3() {
    has(FIGURE_3, &[("PCL", 2_219_829), ("YINC", 2703)]);
    has(FIGURE_3, &[("YIWGTO", 3399), ("YIWGTE", 327)]);
}

#[test]
fn figure_4() {
    has(
        FIGURE_4,
        &[("XINC", 3277), ("PCL", 2_930_917), ("YINC", 3470)],
    );
    has(
        FIGURE_4,
        &[("YIWGTO", 3783), ("YIWGTE", 3157), ("YOFSE", 90)],
    );
}

#[test]
fn figure_5() {
    let with = |in_ppl| Request { in_ppl, ..FIGURE_1 };
    assert_eq!(reply(with(1283)), 0);
    assert_eq!(reply(with(1284)), 7);
}

#[test]
fn figure_6() {
    has(FIGURE_6, &[("YINC", 4079)]);
    let taller = Request {
        out_lin: 241,
        ..FIGURE_6
    };
    assert_eq!(reply(taller), 6);
}

/// Bytes and bursts of the list that changes these places.
fn list_of(places: &[usize]) -> (Vec<u8>, u64) {
    let case = &mut Case::new(0, 0);
    let from = [0; FILE_BYTES];
    let mut to = from;
    for place in places {
        to[*place] = 0x01;
    }
    let plan = compare::plan(case, &from, &to, &[0xEE; 254]);
    assert_eq!(plan.reply, 0);
    (plan.list, plan.bursts)
}

#[test]
fn figure_7() {
    assert_eq!(
        list_of(&[0x70, 0x71, 0x74]),
        (vec![0x70, 5, 1, 1, 0, 0, 1], 1)
    );
    assert_eq!(list_of(&[0x70, 0x74]), (vec![0x70, 1, 1, 0x74, 1, 1], 2));
}

#[test]
fn figure_8() {
    let case = &mut Case::new(0, 0);
    let state = case.random.bytes(STATE_BYTES);
    let (reply, next) = compare::write(case, &state, &[0x88, 0xFD, !state[0xFD]]);
    assert_eq!((reply, next[0xFD]), (0, !state[0xFD]));
    assert_eq!(
        compare::write(case, &state, &[0x88, 0xFD, 0x11, 0x22]),
        (3, state.clone())
    );
    assert_eq!(compare::write(case, &state, &[0x88]), (1, state));
}

#[test]
fn the_printed_session() {
    let case = &mut Case::new(0, 0);
    let lines = compare::session(case, &[0x02, 0x81, 0x2B, 0x05, 0x81], &[0; 65_536]);
    assert_eq!(lines, "02 0\n05 0 2b\n");
}
