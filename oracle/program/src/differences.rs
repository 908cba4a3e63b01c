//! The named differences: which cases are left out of runs, and a case of each that the crate can be run on.
use std::collections::BTreeSet;
use std::sync::Arc;

use chrono::{DateTime, NaiveDateTime};

use crate::expr::Bind;
use crate::expr::accessor::StructAccessor;
use crate::expr::visitors::expression_evaluator::ExpressionEvaluator;
use crate::filters::built;
use crate::literals::{literal, literal_word};
use crate::spec::{
    DataFile, Datum, Literal, NestedField, PrimitiveLiteral, PrimitiveType, Schema, Struct,
};

pub const CASES: [&str; 22] = [
    "compare/zeros double:8000000000000000 double:0000000000000000",
    "compare/zeros float:80000000 float:00000000",
    "filter/zeros in v double:8000000000000000 double:0000000000000000",
    "convert/nanoseconds timestamp_ns:1999 timestamp",
    "convert/nanoseconds timestamptz_ns:-1001 timestamptz",
    "convert/time-of-day time:5 timestamp",
    "convert/time-of-day time:5 timestamptz",
    "convert/text-read string:35 int",
    "convert/text-read string:74727565 boolean",
    "convert/text-read string:31 long",
    // 1970-01-01T00:00:01, without and with a zone
    "convert/text-read string:313937302d30312d30315430303a30303a3031 timestamp",
    "convert/text-read string:313937302d30312d30315430303a30303a30312b30303a3030 timestamptz",
    "filter/extremes eq v int:above",
    "filter/extremes in v int:below",
    "filter/storages eq v date@long:5",
    "filter/fixed-lengths eq v fixed(3):0102",
    "filter/other-family binary in v int:5",
    "evaluate/other-family int:5 binary in v int:5",
    "compare/not-a-numbers double:fff8000000000000 double:fff0000000000000",
    "compare/not-a-numbers float:ffc00000 float:7fc00000",
    "find/any-case DEPOT Depot depot",
    "read/short-row 1 int:5",
];

fn is_negative_zero(value: &PrimitiveLiteral) -> Option<bool> {
    match value {
        PrimitiveLiteral::Float(number) if number.0 == 0.0 => Some(number.is_sign_negative()),
        PrimitiveLiteral::Double(number) if number.0 == 0.0 => Some(number.is_sign_negative()),
        _ => None,
    }
}

/// Two zeros of two signs.
pub fn is_left_out_of_comparing(first: &Datum, second: &Datum) -> bool {
    match (
        is_negative_zero(first.literal()),
        is_negative_zero(second.literal()),
    ) {
        (Some(sign), Some(other)) => sign != other && first.data_type() == second.data_type(),
        _ => false,
    }
}

/// Whether the crate reads the text as another kind.
fn is_read(text: &str) -> bool {
    text.parse::<bool>().is_ok()
        || text.parse::<i128>().is_ok()
        || text.parse::<NaiveDateTime>().is_ok()
        || DateTime::parse_from_rfc3339(text).is_ok()
}

/// A time of day as a timestamp, nanoseconds as microseconds, and text that the crate reads.
pub fn is_left_out_of_converting(literal: &Datum, to: &PrimitiveType) -> bool {
    let is_stamp = matches!(to, PrimitiveType::Timestamp | PrimitiveType::Timestamptz);
    match (literal.literal(), literal.data_type()) {
        (PrimitiveLiteral::Long(_), PrimitiveType::Time) => is_stamp,
        (
            PrimitiveLiteral::Long(number),
            PrimitiveType::TimestampNs | PrimitiveType::TimestamptzNs,
        ) => is_stamp && number.div_euclid(1000) != *number,
        (PrimitiveLiteral::String(text), kind) => kind != to && is_read(text),
        _ => false,
    }
}

/// A schema of optional ints.
fn schema(names: &[&str]) -> Schema {
    let fields = names.iter().zip(1..).map(|(name, number)| {
        Arc::new(NestedField::optional(
            number,
            *name,
            PrimitiveType::Int.into(),
        ))
    });
    Schema::builder()
        .with_fields(fields)
        .build()
        .expect("a schema")
}

/// A row of such cells.
fn row(words: &str) -> Struct {
    let cells = words
        .split(' ')
        .map(|word| Some(Literal::Primitive(literal(word).literal().clone())));
    Struct::from_iter(cells)
}

/// Which of the fields the name finds where case is ignored, in many tries.
pub fn found(words: &str) -> String {
    let (name, names) = words.split_once(' ').expect("a name and fields");
    let names: Vec<&str> = names.split(' ').collect();
    let find = |_| {
        let schema = schema(&names);
        let field = schema.field_by_name_case_insensitive(name);
        field.map_or("none".to_string(), |field| field.name.clone())
    };
    let found: BTreeSet<String> = (0..100).map(find).collect();
    Vec::from_iter(found).join(" or ")
}

/// What stands at the place of a row of such cells.
pub fn read(words: &str) -> String {
    let (place, cells) = words.split_once(' ').expect("a place and cells");
    let accessor = StructAccessor::new(place.parse().expect("a place"), PrimitiveType::Int);
    match accessor.get(&row(cells)) {
        Ok(Some(literal)) => literal_word(&literal),
        Ok(None) => "absent".to_string(),
        Err(error) => format!("error {}", error.message()),
    }
}

/// What the filter that the calls leave answers on a row of one cell, the column v.
pub fn evaluated(words: &str) -> String {
    let (cell, calls) = words.split_once(' ').expect("a cell and calls");
    let bound = built(calls).bind(Arc::new(schema(&["v"])), true);
    let answer =
        bound.and_then(|bound| ExpressionEvaluator::new(bound).eval(&DataFile { row: row(cell) }));
    match answer {
        Ok(truth) => truth.to_string(),
        Err(error) => format!("error {}", error.message()),
    }
}
