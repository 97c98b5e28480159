//! The fields of a picture in a register file: where their bits lie, and storing and fetching them bit
//! by bit.

use super::masks;
use super::scaler::NAMES;
use std::sync::OnceLock;

/// The places and bits of all fields, from the map, in the order of the names.
fn layout() -> &'static [Vec<(usize, u32)>] {
    static LAYOUT: OnceLock<Vec<Vec<(usize, u32)>>> = OnceLock::new();
    LAYOUT.get_or_init(|| NAMES.iter().map(|name| masks::bits_of(name)).collect())
}

/// Whether every number fits the named bits of its field.
pub fn fits(numbers: &[i128; 17]) -> bool {
    let widths = layout().iter().map(Vec::len);
    numbers
        .iter()
        .zip(widths)
        .all(|(number, width)| (0..1 << width).contains(number))
}

/// Stores the numbers bit by bit.
pub fn store(file: &mut [u8], numbers: &[i128; 17]) {
    assert!(fits(numbers), "a number does not fit: {numbers:?}");
    for (number, bits) in numbers.iter().zip(layout()) {
        for (index, (place, bit)) in bits.iter().enumerate() {
            let value = (number >> index & 1) as u8;
            file[*place] = file[*place] & !(1 << bit) | value << bit;
        }
    }
}

/// Fetches the numbers bit by bit.
pub fn fetch(file: &[u8]) -> [i128; 17] {
    let mut numbers = [0; 17];
    for (number, bits) in numbers.iter_mut().zip(layout()) {
        for (index, (place, bit)) in bits.iter().enumerate() {
            *number |= i128::from(file[*place] >> bit & 1) << index;
        }
    }
    numbers
}

/// The bits of a place that belong to a field.
pub fn field_bits(place: usize) -> u8 {
    let bits = layout().iter().flatten().filter(|(at, _)| *at == place);
    bits.map(|(_, bit)| 1 << bit).sum()
}

/// The largest number that a field's named bits hold.
pub fn largest(field: &str) -> i128 {
    let index = NAMES.iter().position(|name| *name == field);
    let bits = &layout()[index.expect("the name of a field")];
    (1 << bits.len()) - 1
}

#[cfg(test)]
mod tests {
    use super::*;
    use crate::library::FILE_BYTES;
    use crate::random::Random;

    #[test]
    fn fields_share_no_bit_and_lie_in_named_bits() {
        let mut bits: Vec<(usize, u32)> = layout().concat();
        let count = bits.len();
        bits.sort_unstable();
        bits.dedup();
        assert_eq!((bits.len(), count), (186, 186));
        assert!(bits
            .iter()
            .all(|(place, bit)| masks::mask(*place) >> bit & 1 == 1));
    }

    #[test]
    fn stored_numbers_come_back_and_no_other_bit_moves() {
        let mut random = Random::new(1);
        for _ in 0..1000 {
            let before = random.bytes(FILE_BYTES);
            let numbers = fetch(&random.bytes(FILE_BYTES));
            let mut file = before.clone();
            store(&mut file, &numbers);
            assert_eq!(fetch(&file), numbers);
            for place in 0..FILE_BYTES {
                assert_eq!((file[place] ^ before[place]) & !field_bits(place), 0);
            }
        }
    }
}
