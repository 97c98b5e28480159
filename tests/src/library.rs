//! The library's C interface, as include/thymeflask.h declares it, and a wrapper over slices for
//! each of its functions.

/// The declarations of the header. A test calls them by themselves where a slice cannot say what is
/// asked: NULL with the length 0.
pub mod raw {
    extern "C" {
        pub fn thymeflask_fresh(state: *mut u8, state_length: usize, chip: u8) -> u32;
        pub fn thymeflask_set_status(state: *mut u8, state_length: usize, status: u8) -> u32;
        pub fn thymeflask_set_fifo(state: *mut u8, state_length: usize, fifo: u8) -> u32;
        pub fn thymeflask_write(
            state: *mut u8,
            state_length: usize,
            transaction: *const u8,
            transaction_length: usize,
        ) -> u32;
        pub fn thymeflask_read(
            state: *mut u8,
            state_length: usize,
            transaction: *const u8,
            transaction_length: usize,
        ) -> u32;
        pub fn thymeflask_check(
            request: *const u8,
            request_length: usize,
            fields: *mut u8,
            fields_length: usize,
        ) -> u32;
        pub fn thymeflask_write_picture(
            file: *mut u8,
            file_length: usize,
            request: *const u8,
            request_length: usize,
        ) -> u32;
        pub fn thymeflask_read_picture(
            file: *const u8,
            file_length: usize,
            request: *mut u8,
            request_length: usize,
        ) -> u32;
        pub fn thymeflask_plan(
            from: *const u8,
            from_length: usize,
            to: *const u8,
            to_length: usize,
            out: *mut u8,
            out_length: usize,
        ) -> u64;
        pub fn thymeflask_session(
            session: *const u8,
            session_length: usize,
            out: *mut u8,
            out_length: usize,
        ) -> usize;
        pub fn thymeflask_cursor_row(map: *const u8, map_length: usize, row: u32) -> usize;
    }
}

/// The lengths of what is lent.
pub const FILE_BYTES: usize = 256;
pub const MAP_BYTES: usize = 256;
pub const REQUEST_BYTES: usize = 18;
pub const FIELDS_BYTES: usize = 68;
pub const STATE_BYTES: usize = 1283;
pub const SESSION_BYTES: usize = 16_384;
pub const PRINT_BYTES: usize = 65_536;

// In each wrapper below the call is sound since a slice's pointer and length name memory that may be
// read, and written where the slice is `&mut`, and since such slices do not overlap.

/// A fresh state of the chip.
pub fn fresh(state: &mut [u8], chip: u8) -> u32 {
    unsafe { raw::thymeflask_fresh(state.as_mut_ptr(), state.len(), chip) }
}

/// Sets the status byte of a state.
pub fn set_status(state: &mut [u8], byte: u8) -> u32 {
    unsafe { raw::thymeflask_set_status(state.as_mut_ptr(), state.len(), byte) }
}

/// Sets the fifo byte of a state.
pub fn set_fifo(state: &mut [u8], byte: u8) -> u32 {
    unsafe { raw::thymeflask_set_fifo(state.as_mut_ptr(), state.len(), byte) }
}

/// A bus write.
pub fn write(state: &mut [u8], transaction: &[u8]) -> u32 {
    unsafe {
        raw::thymeflask_write(
            state.as_mut_ptr(),
            state.len(),
            transaction.as_ptr(),
            transaction.len(),
        )
    }
}

/// A bus read: the reply in bits 0 to 7, the byte in bits 8 to 15.
pub fn read(state: &mut [u8], transaction: &[u8]) -> u32 {
    unsafe {
        raw::thymeflask_read(
            state.as_mut_ptr(),
            state.len(),
            transaction.as_ptr(),
            transaction.len(),
        )
    }
}

/// The numbers of a request's fields.
pub fn check(request: &[u8], fields: &mut [u8]) -> u32 {
    unsafe {
        raw::thymeflask_check(
            request.as_ptr(),
            request.len(),
            fields.as_mut_ptr(),
            fields.len(),
        )
    }
}

/// A request's numbers into a register file.
pub fn write_picture(file: &mut [u8], request: &[u8]) -> u32 {
    unsafe {
        raw::thymeflask_write_picture(
            file.as_mut_ptr(),
            file.len(),
            request.as_ptr(),
            request.len(),
        )
    }
}

/// A register file back to the request that writes its fields.
pub fn read_picture(file: &[u8], request: &mut [u8]) -> u32 {
    unsafe {
        raw::thymeflask_read_picture(
            file.as_ptr(),
            file.len(),
            request.as_mut_ptr(),
            request.len(),
        )
    }
}

/// The shortest list of writes: the reply in bits 0 to 7, the bytes in bits 8 to 31, the bursts in
/// bits 32 to 63.
pub fn plan(from: &[u8], to: &[u8], out: &mut [u8]) -> u64 {
    unsafe {
        raw::thymeflask_plan(
            from.as_ptr(),
            from.len(),
            to.as_ptr(),
            to.len(),
            out.as_mut_ptr(),
            out.len(),
        )
    }
}

/// A session of records: how many bytes it printed.
pub fn session(session: &[u8], out: &mut [u8]) -> usize {
    unsafe { raw::thymeflask_session(session.as_ptr(), session.len(), out.as_mut_ptr(), out.len()) }
}

/// Where a row begins in a cursor map.
pub fn cursor_row(map: &[u8], row: u32) -> usize {
    unsafe { raw::thymeflask_cursor_row(map.as_ptr(), map.len(), row) }
}
