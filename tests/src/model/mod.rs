//! What the papers say of every operation, in plain code: slow where that is simpler, and written
//! without a look at the library.

pub mod brute;
pub mod bus;
pub mod cursor;
pub mod fields;
pub mod limits;
pub mod masks;
pub mod picture;
pub mod plan;
pub mod request;
pub mod scaler;
pub mod session;

/// The lowest of the reply numbers that apply, or 0 where none does.
pub fn lowest(replies: &[(u32, bool)]) -> u32 {
    let applying = replies.iter().filter(|(_, applies)| *applies);
    applying.map(|(number, _)| *number).min().unwrap_or(0)
}
