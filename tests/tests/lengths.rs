//! Lent runs of a wrong length: reply 1 whatever else is wrong, and nothing changes. NULL with the
//! length 0 is an empty run.

use std::ptr::{null, null_mut};
use thymeflask_tests::cases::{each_case, Case, Tally};
use thymeflask_tests::compare;
use thymeflask_tests::inputs::{files, requests, transactions};
use thymeflask_tests::library::{raw, FIELDS_BYTES, FILE_BYTES, REQUEST_BYTES, STATE_BYTES};

const SEED: u64 = 0x4C45_4E01;

/// Lengths around the right one, and what is left where a length is kept in fewer bits.
fn lengths(right: usize) -> [usize; 7] {
    [0, 1, right - 1, right, right + 1, 2 * right, right + 65_536]
}

#[test]
fn states() {
    let mut tally = Tally::new("write and read, lengths of the state");
    each_case(SEED, 300, |case| {
        for length in lengths(STATE_BYTES) {
            let state = case.random.bytes(length);
            let transaction = transactions::write(&mut case.random);
            let (reply, _) = compare::write(case, &state, &transaction);
            assert!(length == STATE_BYTES || reply == 1);
            tally.meet(reply);
            let transaction = transactions::read(&mut case.random);
            let result = compare::read(case, &state, &transaction);
            assert!(length == STATE_BYTES || result == 1);
            tally.meet(result & 0xFF);
        }
    });
    tally.finish(&[0, 1, 2, 3, 12], 1);
}

#[test]
fn requests_and_fields() {
    let mut tally = Tally::new("check, lengths");
    each_case(SEED + 1, 300, |case| {
        for request_length in lengths(REQUEST_BYTES) {
            for fields_length in lengths(FIELDS_BYTES) {
                let request = resized(case, request_length);
                let fields = case.random.bytes(fields_length);
                let (reply, _) = compare::check(case, &request, &fields);
                let right = request_length == REQUEST_BYTES && fields_length == FIELDS_BYTES;
                assert_eq!(reply == 1, !right);
                tally.meet(reply);
            }
        }
    });
    tally.finish(&[0, 1, 4, 5, 6, 7], 1);
}

/// A request of any kind, cut or lengthened.
fn resized(case: &mut Case, length: usize) -> Vec<u8> {
    let mut request = requests::any(&mut case.random);
    request.resize(length, 0);
    request
}

#[test]
fn files_and_requests() {
    let mut tally = Tally::new("write_picture and read_picture, lengths");
    each_case(SEED + 2, 200, |case| {
        for file_length in lengths(FILE_BYTES) {
            for request_length in lengths(REQUEST_BYTES) {
                let mut file = files::with_picture(&mut case.random);
                file.resize(file_length, 0);
                let request = resized(case, request_length);
                let right = file_length == FILE_BYTES && request_length == REQUEST_BYTES;
                let (reply, _) = compare::write_picture(case, &file, &request);
                assert_eq!(reply == 1, !right);
                tally.meet(reply);
                let (reply, _) = compare::read_picture(case, &file, &request);
                assert_eq!(reply, if right { 0 } else { 1 });
                tally.meet(reply);
            }
        }
    });
    tally.finish(&[0, 1, 4, 5, 6, 7], 1);
}

#[test]
fn files_of_a_list() {
    let mut tally = Tally::new("plan, lengths");
    each_case(SEED + 3, 200, |case| {
        for from_length in lengths(FILE_BYTES) {
            for to_length in lengths(FILE_BYTES) {
                let mut from = files::any(&mut case.random);
                let mut to = files::changed(&mut case.random, &from);
                from.resize(from_length, 0);
                to.resize(to_length, 0);
                let room = case.random.pick(&[0, 254, 300]);
                let plan = compare::plan(case, &from, &to, &vec![0xEE; room]);
                let right = from_length == FILE_BYTES && to_length == FILE_BYTES;
                assert_eq!(plan.reply == 1, !right);
                tally.meet(plan.reply);
            }
        }
    });
    tally.finish(&[0, 1, 10, 11], 1);
}

#[test]
fn null_states() {
    let transaction = [0x88, 0x00, 0x89];
    let (bytes, count) = (transaction.as_ptr(), transaction.len());
    // Sound: NULL comes with the length 0, the other pointers with the length of their array.
    unsafe {
        assert_eq!(raw::thymeflask_fresh(null_mut(), 0, 2), 1);
        assert_eq!(raw::thymeflask_fresh(null_mut(), 0, 9), 1);
        assert_eq!(raw::thymeflask_set_status(null_mut(), 0, 7), 1);
        assert_eq!(raw::thymeflask_set_fifo(null_mut(), 0, 7), 1);
        assert_eq!(raw::thymeflask_write(null_mut(), 0, bytes, count), 1);
        assert_eq!(raw::thymeflask_write(null_mut(), 0, null(), 0), 1);
        assert_eq!(raw::thymeflask_read(null_mut(), 0, bytes, count), 1);
        assert_eq!(raw::thymeflask_read(null_mut(), 0, null(), 0), 1);
    }
}

#[test]
fn null_transactions() {
    let mut state = [0x3C; STATE_BYTES];
    let lent = state.as_mut_ptr();
    // Sound: NULL comes with the length 0, the other pointer with the length of its array.
    unsafe {
        assert_eq!(raw::thymeflask_write(lent, STATE_BYTES, null(), 0), 1);
        assert_eq!(raw::thymeflask_read(lent, STATE_BYTES, null(), 0), 1);
    }
    assert_eq!(state, [0x3C; STATE_BYTES]);
}

#[test]
fn null_pictures() {
    let mut request = requests::FIGURE_1.to_bytes();
    let before = request;
    let lent = request.as_mut_ptr();
    let mut fields = [0x3C; FIELDS_BYTES];
    let mut file = [0x3C; FILE_BYTES];
    let (numbers, registers) = (fields.as_mut_ptr(), file.as_mut_ptr());
    // Sound: NULL comes with the length 0, the other pointers with the length of their array.
    unsafe {
        assert_eq!(raw::thymeflask_check(null(), 0, numbers, FIELDS_BYTES), 1);
        assert_eq!(raw::thymeflask_check(lent, REQUEST_BYTES, null_mut(), 0), 1);
        assert_eq!(raw::thymeflask_check(null(), 0, null_mut(), 0), 1);
        assert_eq!(
            raw::thymeflask_write_picture(null_mut(), 0, lent, REQUEST_BYTES),
            1
        );
        assert_eq!(
            raw::thymeflask_write_picture(registers, FILE_BYTES, null(), 0),
            1
        );
        assert_eq!(raw::thymeflask_write_picture(null_mut(), 0, null(), 0), 1);
        assert_eq!(
            raw::thymeflask_read_picture(null(), 0, lent, REQUEST_BYTES),
            1
        );
        assert_eq!(
            raw::thymeflask_read_picture(registers, FILE_BYTES, null_mut(), 0),
            1
        );
        assert_eq!(raw::thymeflask_read_picture(null(), 0, null_mut(), 0), 1);
    }
    assert_eq!((fields, file), ([0x3C; FIELDS_BYTES], [0x3C; FILE_BYTES]));
    assert_eq!(request, before);
}

#[test]
fn null_lists() {
    let from = [0x3C; FILE_BYTES];
    let mut to = from;
    to[0x70] ^= 1;
    let mut stuck = to;
    stuck[0x00] ^= 1;
    let mut out = [0x3C; 254];
    let (first, second, third) = (from.as_ptr(), to.as_ptr(), stuck.as_ptr());
    let buffer = out.as_mut_ptr();
    const FILE: usize = FILE_BYTES;
    // Sound: NULL comes with the length 0, the other pointers with the length of their array.
    unsafe {
        assert_eq!(
            raw::thymeflask_plan(first, FILE, first, FILE, null_mut(), 0),
            0
        );
        assert_eq!(
            raw::thymeflask_plan(first, FILE, second, FILE, null_mut(), 0),
            11
        );
        assert_eq!(
            raw::thymeflask_plan(first, FILE, third, FILE, null_mut(), 0),
            10
        );
        assert_eq!(
            raw::thymeflask_plan(null(), 0, second, FILE, buffer, 254),
            1
        );
        assert_eq!(raw::thymeflask_plan(first, FILE, null(), 0, buffer, 254), 1);
        assert_eq!(raw::thymeflask_plan(null(), 0, null(), 0, null_mut(), 0), 1);
    }
    assert_eq!(out, [0x3C; 254]);
}

#[test]
fn null_sessions_and_maps() {
    let session = [5, 0];
    let mut out = vec![0x3C; 65_536];
    // Sound: NULL comes with the length 0, the other pointers with the length of their memory.
    unsafe {
        let buffer = out.as_mut_ptr();
        assert_eq!(raw::thymeflask_session(null(), 0, buffer, 65_536), 0);
        assert_eq!(
            raw::thymeflask_session(session.as_ptr(), 2, null_mut(), 0),
            0
        );
        assert_eq!(raw::thymeflask_session(null(), 0, null_mut(), 0), 0);
        assert_eq!(raw::thymeflask_cursor_row(null(), 0, 0), 0);
        assert_eq!(raw::thymeflask_cursor_row(null(), 0, 31), 0);
        assert_eq!(raw::thymeflask_cursor_row(null(), 0, u32::MAX), 0);
    }
    assert!(out.iter().all(|byte| *byte == 0x3C));
}
