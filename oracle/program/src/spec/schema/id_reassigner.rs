//! Stand-in for new field numbers: no case gives any.
use std::collections::HashSet;

use bimap::BiHashMap;

use crate::Result;
use crate::spec::NestedFieldRef;

pub struct ReassignFieldIds;

impl ReassignFieldIds {
    pub fn new(_: i32) -> Self {
        unimplemented!()
    }

    pub fn reassign_field_ids(&mut self, _: Vec<NestedFieldRef>) -> Result<Vec<NestedFieldRef>> {
        unimplemented!()
    }

    pub fn apply_to_identifier_fields(&self, _: HashSet<i32>) -> Result<HashSet<i32>> {
        unimplemented!()
    }

    pub fn apply_to_aliases(&self, _: BiHashMap<String, i32>) -> Result<BiHashMap<String, i32>> {
        unimplemented!()
    }
}
