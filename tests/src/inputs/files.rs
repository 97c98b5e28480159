//! Register files.

use super::requests;
use crate::library::FILE_BYTES;
use crate::model::fields;
use crate::model::masks::{self, CAPTIONS};
use crate::model::request::Request;
use crate::model::scaler;
use crate::random::Random;

/// A file of any bytes, or one that was never written.
pub fn any(random: &mut Random) -> Vec<u8> {
    if random.one_in(8) {
        vec![0; FILE_BYTES]
    } else {
        random.bytes(FILE_BYTES)
    }
}

/// A file in which an accepted picture stands.
pub fn with_picture(random: &mut Random) -> Vec<u8> {
    let mut file = any(random);
    let request = requests::accepted(random);
    let numbers = scaler::numbers(&request).expect("an accepted request has numbers");
    fields::store(&mut file, &numbers);
    file
}

/// A file that is read back as a picture, or only just not.
pub fn near_a_picture(random: &mut Random) -> Vec<u8> {
    let mut file = with_picture(random);
    match random.below(8) {
        0 => return any(random),
        1 | 2 => {}
        3 => flip_bits(random, &mut file, |place| !fields::field_bits(place)),
        4 | 5 => flip_bits(random, &mut file, fields::field_bits),
        6 => move_a_number(random, &mut file),
        _ => store_unlimited(random, &mut file),
    }
    file
}

/// Flips one to three of the bits that a place is said to have.
fn flip_bits(random: &mut Random, file: &mut [u8], bits: impl Fn(usize) -> u8) {
    let wanted = 1 + random.below(3);
    let mut flipped = 0;
    while flipped < wanted {
        let place = random.below(FILE_BYTES);
        let bit = 1 << random.below(8);
        if bits(place) & bit != 0 {
            file[place] ^= bit;
            flipped += 1;
        }
    }
}

/// Moves one field, or FAL and LAL together, by a little.
fn move_a_number(random: &mut Random, file: &mut [u8]) {
    let mut numbers = fields::fetch(file);
    let step = random.pick(&[-9, -8, -2, -1, 1, 2, 8, 9]);
    let index = random.below(numbers.len());
    numbers[index] += step;
    if index == 3 {
        numbers[4] += step;
    }
    if fields::fits(&numbers) {
        fields::store(file, &numbers);
    }
}

/// Stores the numbers of a request that may break any limit, as far as they fit.
fn store_unlimited(random: &mut Random, file: &mut [u8]) {
    let bytes = requests::any(random);
    let request = Request::from_bytes(&bytes).expect("the bytes of a request");
    if let Some(numbers) = scaler::numbers(&request) {
        if fields::fits(&numbers) {
            fields::store(file, &numbers);
        }
    }
}

/// A file that differs from another one in some of its places: in bits that can be written, and now
/// and then in one that cannot.
pub fn changed(random: &mut Random, from: &[u8]) -> Vec<u8> {
    let mut to = from.to_vec();
    match random.below(12) {
        0 => return any(random),
        1 => fields::store(&mut to, &fields::fetch(&with_picture(random))),
        2 => touch_a_few(random, &mut to),
        3 => touch_all(&mut to),
        _ => touch_many(random, &mut to),
    }
    match random.below(16) {
        0 => touch_unnamed(random, &mut to),
        1 => to[random.pick(&CAPTIONS)] ^= 1 << random.below(8),
        _ => {}
    }
    to
}

/// The bits of a place that a list of writes may change.
pub fn writable(place: usize) -> u8 {
    if CAPTIONS.contains(&place) {
        0
    } else {
        masks::mask(place)
    }
}

/// Changes writable bits of one place, if it has any.
fn touch(random: &mut Random, to: &mut [u8], place: usize) {
    let bits = writable(place);
    if bits != 0 {
        let flipped = random.byte() & bits;
        // At least one bit, so that the place is changed.
        to[place] ^= if flipped == 0 { bits } else { flipped };
    }
}

fn touch_a_few(random: &mut Random, to: &mut [u8]) {
    let first = random.below(FILE_BYTES);
    for _ in 0..random.below(5) {
        let place = (first + random.below(9)) % FILE_BYTES;
        touch(random, to, place);
    }
}

fn touch_many(random: &mut Random, to: &mut [u8]) {
    let sparse = 2 + random.below(8);
    for place in 0..FILE_BYTES {
        if random.one_in(sparse) {
            touch(random, to, place);
        }
    }
}

fn touch_all(to: &mut [u8]) {
    for (place, byte) in to.iter_mut().enumerate() {
        *byte ^= writable(place);
    }
}

fn touch_unnamed(random: &mut Random, to: &mut [u8]) {
    flip_bits(random, to, |place| !masks::mask(place));
}
