//! A model of the driver core, written from the papers alone, and what is needed to compare the
//! library with it: the bindings of the C interface, inputs, and lent memory that is watched.

pub mod cases;
pub mod compare;
pub mod inputs;
pub mod lent;
pub mod library;
pub mod model;
pub mod random;
