//! Stand-in for the indexes of a schema's fields by number and by full name, of structs within structs alone. What the crate
//! says of a number or a name that repeats cannot be learned from it.
use std::collections::HashMap;

use crate::Result;
use crate::spec::{NestedFieldRef, StructType, Type};

/// Each field, with its parent and its full name, parents first.
fn each(
    fields: &StructType,
    parent: Option<(i32, &str)>,
    visit: &mut impl FnMut(&NestedFieldRef, Option<i32>, &str),
) {
    for field in fields.fields() {
        let name = match parent {
            Some((_, above)) => format!("{above}.{}", field.name),
            None => field.name.clone(),
        };
        visit(field, parent.map(|(id, _)| id), &name);
        if let Type::Struct(inner) = field.field_type.as_ref() {
            each(inner, Some((field.id, &name)), visit);
        }
    }
}

pub fn index_by_id(fields: &StructType) -> Result<HashMap<i32, NestedFieldRef>> {
    let mut by_id = HashMap::new();
    each(fields, None, &mut |field, _, _| {
        by_id.insert(field.id, field.clone());
    });
    Ok(by_id)
}

pub fn index_parents(fields: &StructType) -> Result<HashMap<i32, i32>> {
    let mut parents = HashMap::new();
    each(fields, None, &mut |field, parent, _| {
        parents.extend(parent.map(|parent| (field.id, parent)));
    });
    Ok(parents)
}

#[derive(Default)]
pub struct IndexByName {
    ids: HashMap<String, i32>,
    names: HashMap<i32, String>,
}

impl IndexByName {
    pub fn add_all(&mut self, fields: &StructType) {
        each(fields, None, &mut |field, _, name| {
            self.ids.insert(name.to_string(), field.id);
            self.names.insert(field.id, name.to_string());
        });
    }

    pub fn indexes(self) -> (HashMap<String, i32>, HashMap<i32, String>) {
        (self.ids, self.names)
    }
}
