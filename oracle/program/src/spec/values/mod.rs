//! Stand-in for the crate's list of modules.
mod datum;
mod decimal_utils;
mod literal;
mod map;
mod primitive;
pub(crate) mod serde;
mod struct_value;
mod temporal;

pub use datum::*;
pub use literal::*;
pub use map::*;
pub use primitive::*;
pub use struct_value::*;
