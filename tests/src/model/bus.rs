//! A state of the chip, and bus writes and reads on it.

use super::lowest;
use super::masks::{self, REGISTERS_END};
use crate::library::STATE_BYTES;

/// Where the parts of a state begin.
pub const COLOURS: usize = 256;
pub const CURSOR: usize = 1024;
pub const STATUS: usize = 1280;
pub const CHIP: usize = 1281;
pub const FIFO: usize = 1282;

const WRITE_ADDRESS: u8 = 0x88;
const READ_ADDRESS: u8 = 0x89;
const CURSOR_MAP: usize = 0xFE;
const COLOUR_TABLE: usize = 0xFF;
const CELLS: usize = 256;

/// A fresh state: all zero but for the chip byte; with a wrong chip byte all zero.
pub fn fresh(state: &mut [u8], chip: u8) -> u32 {
    if state.len() != STATE_BYTES {
        return 1;
    }
    state.fill(0);
    if chip != 2 && chip != 3 {
        return 4;
    }
    state[CHIP] = chip;
    0
}

pub fn set_status(state: &mut [u8], byte: u8) -> u32 {
    set(state, STATUS, byte)
}

pub fn set_fifo(state: &mut [u8], byte: u8) -> u32 {
    set(state, FIFO, byte)
}

fn set(state: &mut [u8], place: usize, byte: u8) -> u32 {
    if state.len() != STATE_BYTES {
        return 1;
    }
    state[place] = byte;
    0
}

/// A bus write.
pub fn write(state: &mut [u8], transaction: &[u8]) -> u32 {
    let reply = lowest(&[
        (1, state.len() != STATE_BYTES || transaction.len() < 2),
        (2, transaction.first() != Some(&WRITE_ADDRESS)),
        (3, run_is_wrong(transaction)),
    ]);
    if reply != 0 {
        return reply;
    }
    let data = &transaction[2..];
    match usize::from(transaction[1]) {
        CURSOR_MAP => write_cells(&mut state[CURSOR..STATUS], 1, data),
        COLOUR_TABLE => write_cells(&mut state[COLOURS..CURSOR], 3, data),
        subaddress => write_registers(state, subaddress, data),
    }
    0
}

/// Whether the data passes the end of what it is written to, or breaks a cell in two.
fn run_is_wrong(transaction: &[u8]) -> bool {
    let Some((subaddress, data)) = transaction.get(1..).and_then(<[u8]>::split_first) else {
        return false;
    };
    match usize::from(*subaddress) {
        CURSOR_MAP => cells_are_wrong(data, 1),
        COLOUR_TABLE => cells_are_wrong(data, 3),
        subaddress => subaddress + data.len() > REGISTERS_END,
    }
}

fn cells_are_wrong(data: &[u8], width: usize) -> bool {
    match data.split_first() {
        None => false,
        Some((start, cells)) => {
            cells.len() % width != 0 || usize::from(*start) + cells.len() / width > CELLS
        }
    }
}

/// The named bits of each place take the new value; the others stay.
pub fn write_registers(file: &mut [u8], subaddress: usize, data: &[u8]) {
    for (place, byte) in (subaddress..).zip(data) {
        for bit in 0..8 {
            if masks::mask(place) >> bit & 1 == 1 {
                file[place] = file[place] & !(1 << bit) | byte & 1 << bit;
            }
        }
    }
}

fn write_cells(cells: &mut [u8], width: usize, data: &[u8]) {
    if let Some((start, bytes)) = data.split_first() {
        let first = usize::from(*start) * width;
        cells[first..first + bytes.len()].copy_from_slice(bytes);
    }
}

/// A bus read: the reply in bits 0 to 7, the byte in bits 8 to 15.
pub fn read(state: &[u8], transaction: &[u8]) -> u32 {
    let place = transaction.get(1).copied().unwrap_or(0);
    let reply = lowest(&[
        (1, state.len() != STATE_BYTES || transaction.len() != 3),
        (2, transaction.first() != Some(&WRITE_ADDRESS)),
        (2, transaction.get(2) != Some(&READ_ADDRESS)),
        (12, ![0x00, 0x1C, 0x80].contains(&place)),
    ]);
    if reply != 0 {
        return reply;
    }
    let byte = match place {
        0x00 => state[STATUS],
        0x1C => state[CHIP],
        _ => state[FIFO],
    };
    256 * u32::from(byte)
}
