//! Inputs for the cases: mostly near to what is accepted, since bytes that are drawn blindly are
//! nearly always refused.

pub mod files;
pub mod requests;
pub mod sessions;
pub mod transactions;
