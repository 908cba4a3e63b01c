//! Kinds and literals in the words of a case: KIND:CONTENT, and KIND@STORAGE:CONTENT where the storage is not the kind's own.
use ordered_float::OrderedFloat;

use crate::spec::{Datum, PrimitiveLiteral, PrimitiveType};

/// The storages by their words.
pub const STORAGES: [&str; 7] = [
    "boolean", "int", "long", "float", "double", "string", "binary",
];

pub fn kind(word: &str) -> PrimitiveType {
    match word {
        "boolean" => PrimitiveType::Boolean,
        "int" => PrimitiveType::Int,
        "date" => PrimitiveType::Date,
        "long" => PrimitiveType::Long,
        "time" => PrimitiveType::Time,
        "timestamp" => PrimitiveType::Timestamp,
        "timestamptz" => PrimitiveType::Timestamptz,
        "timestamp_ns" => PrimitiveType::TimestampNs,
        "timestamptz_ns" => PrimitiveType::TimestamptzNs,
        "float" => PrimitiveType::Float,
        "double" => PrimitiveType::Double,
        "string" => PrimitiveType::String,
        "binary" => PrimitiveType::Binary,
        _ => {
            let length = word
                .strip_prefix("fixed(")
                .and_then(|rest| rest.strip_suffix(')'));
            PrimitiveType::Fixed(length.expect("a kind").parse().expect("a length"))
        }
    }
}

pub fn kind_word(kind: &PrimitiveType) -> String {
    let word = match kind {
        PrimitiveType::Boolean => "boolean",
        PrimitiveType::Int => "int",
        PrimitiveType::Date => "date",
        PrimitiveType::Long => "long",
        PrimitiveType::Time => "time",
        PrimitiveType::Timestamp => "timestamp",
        PrimitiveType::Timestamptz => "timestamptz",
        PrimitiveType::TimestampNs => "timestamp_ns",
        PrimitiveType::TimestamptzNs => "timestamptz_ns",
        PrimitiveType::Float => "float",
        PrimitiveType::Double => "double",
        PrimitiveType::String => "string",
        PrimitiveType::Binary => "binary",
        PrimitiveType::Fixed(length) => return format!("fixed({length})"),
        _ => panic!("no kind of a case"),
    };
    word.to_string()
}

/// The storage that a kind's values are kept in.
pub fn storage_of(kind: &PrimitiveType) -> &'static str {
    match kind {
        PrimitiveType::Boolean => "boolean",
        PrimitiveType::Int | PrimitiveType::Date => "int",
        PrimitiveType::Float => "float",
        PrimitiveType::Double => "double",
        PrimitiveType::String => "string",
        PrimitiveType::Fixed(_) | PrimitiveType::Binary => "binary",
        _ => "long",
    }
}

/// The storage of a value; an extreme is in none.
pub fn storage(value: &PrimitiveLiteral) -> Option<&'static str> {
    match value {
        PrimitiveLiteral::Boolean(_) => Some("boolean"),
        PrimitiveLiteral::Int(_) => Some("int"),
        PrimitiveLiteral::Long(_) => Some("long"),
        PrimitiveLiteral::Float(_) => Some("float"),
        PrimitiveLiteral::Double(_) => Some("double"),
        PrimitiveLiteral::String(_) => Some("string"),
        PrimitiveLiteral::Binary(_) => Some("binary"),
        _ => None,
    }
}

fn from_hex(digits: &str) -> Vec<u8> {
    let pairs = digits.as_bytes().chunks(2);
    pairs
        .map(|pair| u8::from_str_radix(str::from_utf8(pair).unwrap(), 16).expect("hexadecimal"))
        .collect()
}

fn to_hex(bytes: &[u8]) -> String {
    bytes.iter().map(|byte| format!("{byte:02x}")).collect()
}

/// A value by its storage: numbers in decimal, floats by their bits and text by its bytes, both in hexadecimal.
pub fn value(storage: &str, content: &str) -> PrimitiveLiteral {
    match (storage, content) {
        (_, "above") => PrimitiveLiteral::AboveMax,
        (_, "below") => PrimitiveLiteral::BelowMin,
        ("boolean", _) => PrimitiveLiteral::Boolean(content.parse().expect("true or false")),
        ("int", _) => PrimitiveLiteral::Int(content.parse().expect("an int")),
        ("long", _) => PrimitiveLiteral::Long(content.parse().expect("a long")),
        ("float", _) => {
            let bits = u32::from_str_radix(content, 16).expect("bits");
            PrimitiveLiteral::Float(OrderedFloat(f32::from_bits(bits)))
        }
        ("double", _) => {
            let bits = u64::from_str_radix(content, 16).expect("bits");
            PrimitiveLiteral::Double(OrderedFloat(f64::from_bits(bits)))
        }
        ("string", _) => {
            PrimitiveLiteral::String(String::from_utf8(from_hex(content)).expect("UTF-8"))
        }
        ("binary", _) => PrimitiveLiteral::Binary(from_hex(content)),
        _ => panic!("a storage"),
    }
}

fn content(value: &PrimitiveLiteral) -> String {
    match value {
        PrimitiveLiteral::Boolean(truth) => truth.to_string(),
        PrimitiveLiteral::Int(number) => number.to_string(),
        PrimitiveLiteral::Long(number) => number.to_string(),
        PrimitiveLiteral::Float(number) => format!("{:08x}", number.to_bits()),
        PrimitiveLiteral::Double(number) => format!("{:016x}", number.to_bits()),
        PrimitiveLiteral::String(text) => to_hex(text.as_bytes()),
        PrimitiveLiteral::Binary(bytes) => to_hex(bytes),
        PrimitiveLiteral::AboveMax => "above".to_string(),
        PrimitiveLiteral::BelowMin => "below".to_string(),
        _ => panic!("no value of a case"),
    }
}

pub fn literal(word: &str) -> Datum {
    let (kept, content) = word.split_once(':').expect("a literal");
    let (kind_word, forced) = match kept.split_once('@') {
        Some((kind_word, storage)) => (kind_word, Some(storage)),
        None => (kept, None),
    };
    let kind = kind(kind_word);
    let storage = forced.unwrap_or(storage_of(&kind));
    let value = value(storage, content);
    Datum::new(kind, value)
}

pub fn literal_word(literal: &Datum) -> String {
    let kind = literal.data_type();
    let word = kind_word(kind);
    let content = content(literal.literal());
    match storage(literal.literal()) {
        Some(storage) if storage != storage_of(kind) => format!("{word}@{storage}:{content}"),
        _ => format!("{word}:{content}"),
    }
}
