//! The rows of a cursor map.

use crate::library::MAP_BYTES;

/// Where a row begins; the map's length where there is no such row.
pub fn row(map_length: usize, row: u32) -> usize {
    if map_length == MAP_BYTES && row <= 31 {
        8 * row as usize
    } else {
        map_length
    }
}
