//! Stand-in for the crate's list of modules.
pub mod datatypes;
mod schema;
pub mod values;

pub use datatypes::*;
pub use schema::*;
pub use values::*;

/// Of a data file the part that an evaluator reads: its row.
#[derive(Debug)]
pub struct DataFile {
    pub row: Struct,
}

impl DataFile {
    pub fn partition(&self) -> &Struct {
        &self.row
    }
}
