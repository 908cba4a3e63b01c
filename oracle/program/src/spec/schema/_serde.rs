//! Stand-in for how schemas are serialized: no case does.
use super::Schema;
use crate::{Error, Result};

#[derive(serde::Serialize, serde::Deserialize)]
pub struct SchemaEnum;

impl TryFrom<SchemaEnum> for Schema {
    type Error = Error;

    fn try_from(_: SchemaEnum) -> Result<Self> {
        unimplemented!()
    }
}

impl From<Schema> for SchemaEnum {
    fn from(_: Schema) -> Self {
        unimplemented!()
    }
}
