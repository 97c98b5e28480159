//! A wanted picture into a register file, and a register file back.

use super::fields;
use super::limits;
use super::request::Request;
use super::scaler;
use crate::library::{FIELDS_BYTES, FILE_BYTES, REQUEST_BYTES};

/// Checks the request; beside reply 0 the 68 bytes of its fields are stored.
pub fn check(request: &[u8], fields: &mut [u8]) -> u32 {
    let Some(request) = Request::from_bytes(request) else {
        return 1;
    };
    if fields.len() != FIELDS_BYTES {
        return 1;
    }
    let reply = limits::reply(&request);
    if reply == 0 {
        for (index, number) in accepted_numbers(&request).into_iter().enumerate() {
            let number = u32::try_from(number).expect("an accepted number fits its field");
            fields[4 * index..4 * index + 4].copy_from_slice(&number.to_le_bytes());
        }
    }
    reply
}

/// Writes the request's numbers into their fields.
pub fn write(file: &mut [u8], request: &[u8]) -> u32 {
    let Some(request) = Request::from_bytes(request) else {
        return 1;
    };
    if file.len() != FILE_BYTES {
        return 1;
    }
    let reply = limits::reply(&request);
    if reply == 0 {
        fields::store(file, &accepted_numbers(&request));
    }
    reply
}

fn accepted_numbers(request: &Request) -> [i128; 17] {
    scaler::numbers(request).expect("an accepted request has numbers")
}

/// Reads the file back, by a search: of each of the request's numbers, those within the limits are
/// kept that write the file's own fields. Whatever is left over is tried as a whole.
pub fn read(file: &[u8], request: &mut [u8]) -> u32 {
    if file.len() != FILE_BYTES || request.len() != REQUEST_BYTES {
        return 1;
    }
    let numbers = fields::fetch(file);
    let found: Vec<Request> = (0..=1)
        .flat_map(|standard| candidates(standard, &numbers))
        .filter(|candidate| limits::reply(candidate) == 0 && accepted_numbers(candidate) == numbers)
        .collect();
    assert!(
        found.len() <= 1,
        "two pictures write the same fields: {found:?}"
    );
    match found.first() {
        Some(picture) => {
            request.copy_from_slice(&picture.to_bytes());
            0
        }
        None => 9,
    }
}

/// The requests of a standard that write the fields which hang on one or two numbers only.
fn candidates(number: i128, fields: &[i128; 17]) -> Vec<Request> {
    let standard = scaler::standard(number).expect("a known standard");
    let [fise, adwhs, _, fal, lal, _, x_ofs, xpix, y_ofso, _, ypix, hlen, ..] = *fields;
    if standard.fise != fise {
        return Vec::new();
    }
    let widths = (1..=standard.widest).filter(|out_pix| standard.adwhs(*out_pix) == adwhs);
    let sources = (2..=800).step_by(2).filter(|in_pix| in_pix / 2 == xpix);
    let heights = (1..=standard.tallest).filter(|out_lin| fal + out_lin == lal);
    let moved = pairs(heights, -8..=8);
    let moved = moved.filter(|(out_lin, offset)| standard.fal(*out_lin, *offset) == fal);
    let moved: Vec<(i128, i128)> = moved.collect();
    let request = |out_pix, in_pix, out_lin, offset| Request {
        standard: number,
        in_pix,
        in_lin: ypix,
        in_ppl: hlen + 1,
        out_pix,
        out_lin,
        y_skip: fields[16],
        x_ofs,
        y_ofso,
        offset,
    };
    let mut found = Vec::new();
    for (out_pix, in_pix) in pairs(widths, sources) {
        for (out_lin, offset) in &moved {
            found.push(request(out_pix, in_pix, *out_lin, *offset));
        }
    }
    found
}

/// Every number of the first run with every number of the second.
fn pairs(
    first: impl Iterator<Item = i128>,
    second: impl Iterator<Item = i128> + Clone,
) -> impl Iterator<Item = (i128, i128)> {
    first.flat_map(move |one| second.clone().map(move |other| (one, other)))
}
