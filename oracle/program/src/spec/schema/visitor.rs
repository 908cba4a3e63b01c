//! Stand-in for the visitors of schemas, of which one is used.
use super::index::IndexByName;
use crate::Result;
use crate::spec::StructType;

pub fn visit_struct(fields: &StructType, index: &mut IndexByName) -> Result<()> {
    index.add_all(fields);
    Ok(())
}
