//! Cases to compare by: every rule at its boundaries, and random ones that a seed determines.
use std::io::Result;

use crate::differences::{is_left_out_of_comparing, is_left_out_of_converting};
use crate::filters::OPERATORS;
use crate::literals::{STORAGES, kind, kind_word, literal_word, storage, storage_of, value};
use crate::random::Random;
use crate::spec::{Datum, PrimitiveLiteral, PrimitiveType};

type Take<'a> = &'a mut dyn FnMut(String) -> Result<()>;

const KINDS: [&str; 16] = [
    "boolean",
    "int",
    "date",
    "long",
    "time",
    "timestamp",
    "timestamptz",
    "timestamp_ns",
    "timestamptz_ns",
    "float",
    "double",
    "string",
    "fixed(0)",
    "fixed(2)",
    "fixed(3)",
    "binary",
];

/// The contents of a storage at its boundaries; in the middle of each list stand the plain ones.
fn boundary_contents(storage: &str) -> &'static [&'static str] {
    match storage {
        "boolean" => &["false", "true"],
        "int" => &[
            "-2147483648",
            "-2147483647",
            "-1",
            "0",
            "1",
            "2147483646",
            "2147483647",
        ],
        "long" => &[
            "-9223372036854775808",
            "-2147483649",
            "-2147483648",
            "-1001",
            "-1000",
            "-1",
            "0",
            "1",
            "999",
            "1000",
            "2147483647",
            "2147483648",
            "9223372036854775807",
        ],
        // -inf, the numbers of greatest size, -1, the least normal and the least of all numbers, the zeros, not-a-number
        "float" => &[
            "ff800000", "ff7fffff", "bf800000", "80800000", "80000001", "80000000", "00000000",
            "00000001", "00800000", "3f800000", "7f7fffff", "7f800000", "7fc00000",
        ],
        "double" => &[
            "fff0000000000000",
            "ffefffffffffffff",
            "bff0000000000000",
            "8010000000000000",
            "8000000000000001",
            "8000000000000000",
            "0000000000000000",
            "0000000000000001",
            "0010000000000000",
            "3ff0000000000000",
            "7fefffffffffffff",
            "7ff0000000000000",
            "7ff8000000000000",
        ],
        // "", NUL, "5 ", "True", "a", "ab", "abc", "b", letters of two and four bytes, one more than any 128-bit number
        "string" => &[
            "",
            "00",
            "3520",
            "54727565",
            "61",
            "6162",
            "616263",
            "62",
            "c3a9",
            "f48fbfbf",
            "313730313431313833343630343639323331373331363837333033373135383834313035373238",
        ],
        _ => &[
            "", "00", "0000", "0001", "000102", "01", "7f", "7fff", "80", "8000", "ff", "ffff",
            "ffffff",
        ],
    }
}

fn of_length(content: &str, kind: &PrimitiveType) -> bool {
    match kind {
        PrimitiveType::Fixed(length) => content.len() as u64 == 2 * length,
        _ => true,
    }
}

/// The kind's own literals at the boundaries, as they may be handed in.
fn own(kind_word: &str) -> Vec<Datum> {
    let kind = kind(kind_word);
    let storage = storage_of(&kind);
    let contents = boundary_contents(storage)
        .iter()
        .filter(|content| of_length(content, &kind));
    contents
        .map(|content| Datum::new(kind.clone(), value(storage, content)))
        .collect()
}

/// Some of them, from the one end to the other.
fn some_own(kind: &str) -> Vec<Datum> {
    let all = own(kind);
    let last = all.len() - 1;
    let mut places = vec![0, last / 2, (last / 2 + 1).min(last), last];
    places.dedup();
    places.into_iter().map(|place| all[place].clone()).collect()
}

fn extremes(kind_word: &str) -> [Datum; 2] {
    [PrimitiveLiteral::AboveMax, PrimitiveLiteral::BelowMin]
        .map(|value| Datum::new(kind(kind_word), value))
}

/// Literals under the kind in the other storages, at each storage's boundaries in turn.
fn foreign(kind_word: &str, turn: usize) -> Vec<Datum> {
    let kind = kind(kind_word);
    let others = STORAGES
        .iter()
        .filter(|storage| **storage != storage_of(&kind));
    others
        .map(|storage| {
            let contents = boundary_contents(storage);
            Datum::new(
                kind.clone(),
                value(storage, contents[turn % contents.len()]),
            )
        })
        .collect()
}

fn is_in_own_storage(literal: &Datum) -> bool {
    storage(literal.literal()) == Some(storage_of(literal.data_type()))
}

/// The rule of conversion that the case is for.
fn rule_of_converting(literal: &Datum, to: &PrimitiveType) -> &'static str {
    match (storage(literal.literal()), kind_word(to).as_str()) {
        (None, _) => "extremes",
        (Some("int"), "int" | "date" | "long") => "the-number",
        (Some("long"), "int") => "narrowed",
        (Some("long"), "timestamp" | "timestamptz") => "stamped",
        (Some("string"), "boolean" | "int" | "long" | "timestamp" | "timestamptz") => "text",
        _ if literal.data_type() == to => "own-kind",
        _ => "other-kind",
    }
}

/// Gives the case, and says so, unless it shows a named difference.
fn convert(literal: &Datum, to: &PrimitiveType, take: Take) -> Result<bool> {
    if is_left_out_of_converting(literal, to) {
        return Ok(false);
    }
    let rule = rule_of_converting(literal, to);
    take(format!(
        "convert/{rule} {} {}",
        literal_word(literal),
        kind_word(to)
    ))?;
    Ok(true)
}

/// The rule of comparison that the case is for.
fn rule_of_comparing(first: &Datum, second: &Datum) -> &'static str {
    let (kind, other) = (first.data_type(), second.data_type());
    let fixeds = matches!(
        (kind, other),
        (PrimitiveType::Fixed(_), PrimitiveType::Fixed(_))
    );
    if storage(first.literal()).is_none() || storage(second.literal()).is_none() {
        "extremes"
    } else if kind != other && !fixeds {
        "other-kinds"
    } else if !is_in_own_storage(first) || !is_in_own_storage(second) {
        "other-storages"
    } else if kind != other {
        "fixed-lengths"
    } else {
        "one-kind"
    }
}

/// The same of a comparison.
fn compare(first: &Datum, second: &Datum, take: Take) -> Result<bool> {
    if is_left_out_of_comparing(first, second) {
        return Ok(false);
    }
    let rule = rule_of_comparing(first, second);
    take(format!(
        "compare/{rule} {} {}",
        literal_word(first),
        literal_word(second)
    ))?;
    Ok(true)
}

fn conversions_at_boundaries(take: Take) -> Result<()> {
    for (turn, from) in KINDS.into_iter().enumerate() {
        for to in KINDS.map(kind) {
            let literals = own(from);
            let each = match rule_of_converting(&literals[0], &to) {
                "other-kind" => &literals[..1],
                _ => &literals[..],
            };
            for literal in each {
                convert(literal, &to, take)?;
            }
            for literal in foreign(from, turn) {
                convert(&literal, &to, take)?;
            }
        }
        for literal in extremes(from) {
            for to in [from, "int", "long", "string"].map(kind) {
                convert(&literal, &to, take)?;
            }
        }
    }
    Ok(())
}

fn comparisons_at_boundaries(take: Take) -> Result<()> {
    for (turn, kind_word) in KINDS.into_iter().enumerate() {
        let all = matches!(
            kind_word,
            "int" | "long" | "float" | "double" | "string" | "binary"
        );
        let literals = if all {
            own(kind_word)
        } else {
            some_own(kind_word)
        };
        for first in &literals {
            for second in &literals {
                compare(first, second, take)?;
            }
        }
        // the same contents under every other kind
        for other in KINDS {
            for first in some_own(kind_word).iter().take(1) {
                let second = Datum::new(kind(other), first.literal().clone());
                compare(first, &second, take)?;
            }
        }
        for first in foreign(kind_word, turn) {
            compare(&first, &first, take)?;
            compare(&first, &literals[0], take)?;
        }
        let [above, below] = extremes(kind_word);
        for first in [&above, &below, &literals[0]] {
            for second in [&above, &below] {
                compare(first, second, take)?;
                compare(second, first, take)?;
            }
        }
    }
    // fixeds of two lengths, and of lengths that their bytes have not
    let fixeds: Vec<Datum> = ["fixed(0)", "fixed(2)", "fixed(3)"]
        .into_iter()
        .flat_map(own)
        .collect();
    for first in &fixeds {
        for second in &fixeds {
            compare(first, second, take)?;
            compare(
                first,
                &Datum::new(kind("fixed(3)"), second.literal().clone()),
                take,
            )?;
        }
    }
    Ok(())
}

fn conditions_at_boundaries(take: Take) -> Result<()> {
    let afterwards = [
        "",
        "; negate",
        "; not",
        "; rewrite",
        "; not; not",
        "; not; negate",
        "; negate; not",
        "; not; rewrite",
        "; not; not; rewrite",
        "; not; not; not; rewrite",
        "; negate; negate",
        "; not; negate; negate",
    ];
    for (operator, number) in OPERATORS {
        let literals = match () {
            () if number.is_unary() => "",
            () if number.is_binary() => " string:6162",
            () => " string:6162 string:63 string:6162",
        };
        for calls in afterwards {
            take(format!("filter/operators {operator} v{literals}{calls}"))?;
        }
    }
    for kind in KINDS {
        for literal in own(kind) {
            take(format!("filter/literals eq v {}", literal_word(&literal)))?;
        }
    }
    Ok(())
}

fn set(operator: &str, name: &str, literals: &[Datum]) -> String {
    let mut words = vec![operator.to_string(), name.to_string()];
    words.extend(literals.iter().map(literal_word));
    words.join(" ")
}

/// The literals without those that a named difference keeps from standing in one set.
fn without_differences(literals: Vec<Datum>) -> Vec<Datum> {
    let mut kept: Vec<Datum> = Vec::new();
    for literal in literals {
        if !kept
            .iter()
            .any(|earlier| is_left_out_of_comparing(earlier, &literal))
        {
            kept.push(literal);
        }
    }
    kept
}

fn sets_at_boundaries(take: Take) -> Result<()> {
    for kind in KINDS {
        let literals = without_differences(own(kind));
        let first = literals[0].clone();
        let repeats: Vec<Datum> = [&literals[..], &literals[..]].concat();
        take(format!("filter/sets {}", set("in", "v", &[])))?;
        take(format!(
            "filter/sets {}",
            set("in", "v", std::slice::from_ref(&first))
        ))?;
        take(format!(
            "filter/sets {}",
            set("not-in", "v", &[first.clone(), first])
        ))?;
        take(format!("filter/sets {}", set("in", "v", &literals)))?;
        take(format!("filter/sets {}", set("not-in", "v", &repeats)))?;
        take(format!(
            "filter/sets {}; not; rewrite",
            set("in", "v", &repeats)
        ))?;
    }
    // equal contents under several kinds are not equal
    for value in [
        value("int", "0"),
        value("long", "0"),
        value("binary", "0000"),
    ] {
        let kinds = KINDS
            .map(kind)
            .into_iter()
            .filter(|kind| storage(&value) == Some(storage_of(kind)));
        let literals: Vec<Datum> = kinds
            .map(|kind| Datum::new(kind, value.clone()))
            .filter(|literal| !matches!(literal.data_type(), PrimitiveType::Fixed(length) if *length != 2))
            .collect();
        take(format!(
            "filter/sets {}",
            set("in", "v", &[&literals[..], &literals[..]].concat())
        ))?;
    }
    Ok(())
}

fn constants_at_boundaries(take: Take) -> Result<()> {
    let sides = [
        "true",
        "false",
        "is-null a",
        "is-null a; not",
        "true; not",
        "false; not",
    ];
    for left in sides {
        for right in sides {
            for connective in ["and", "or"] {
                for afterwards in ["", "; negate", "; rewrite", "; not; rewrite"] {
                    take(format!(
                        "filter/constants {left}; {right}; {connective}{afterwards}"
                    ))?;
                }
            }
        }
    }
    for constant in ["true", "false"] {
        for afterwards in [
            "",
            "; not",
            "; negate",
            "; not; not",
            "; not; rewrite",
            "; not; negate",
        ] {
            take(format!("filter/constants {constant}{afterwards}"))?;
        }
        // a constant in every place of a join of three
        for connectives in [["and", "and"], ["and", "or"], ["or", "and"], ["or", "or"]] {
            for place in 0..3 {
                let mut sides = ["is-null a", "is-null b", "is-null c"].map(str::to_string);
                sides[place] = format!("{constant}; not");
                let [first, second] = connectives;
                let [a, b, c] = sides;
                take(format!(
                    "filter/constants {a}; {b}; {first}; {c}; {second}; rewrite"
                ))?;
                take(format!(
                    "filter/constants {a}; {b}; {c}; {second}; {first}; rewrite"
                ))?;
            }
        }
    }
    Ok(())
}

fn shapes_at_boundaries(take: Take) -> Result<()> {
    for deep in [3, 4, 5, 64, 127, 254, 255] {
        let nots = "; not".repeat(deep);
        take(format!("filter/deep is-null a{nots}"))?;
        take(format!("filter/deep is-null a{nots}; rewrite"))?;
        take(format!("filter/deep is-null a{nots}; negate"))?;
        take(format!("filter/deep true{nots}; rewrite"))?;
    }
    for connective in ["and", "or"] {
        for leaves in [3, 16, 128] {
            let leaf = |number: usize| format!("eq v int:{number}");
            let rest = 1..leaves;
            let joined_at_once: Vec<String> = rest
                .clone()
                .map(|number| format!("{}; {connective}", leaf(number)))
                .collect();
            let joined_at_the_end: Vec<String> = rest.map(leaf).collect();
            let joins = vec![connective; leaves - 1].join("; ");
            for afterwards in ["", "; negate", "; rewrite"] {
                let calls = joined_at_once.join("; ");
                take(format!("filter/wide {}; {calls}{afterwards}", leaf(0)))?;
                let calls = joined_at_the_end.join("; ");
                take(format!(
                    "filter/wide {}; {calls}; {joins}{afterwards}",
                    leaf(0)
                ))?;
            }
        }
    }
    // the most literals that one book keeps
    let literals: Vec<Datum> = (0..1024).map(Datum::int).collect();
    take(format!("filter/wide {}", set("in", "v", &literals)))
}

pub fn boundaries(take: Take) -> Result<()> {
    conversions_at_boundaries(take)?;
    comparisons_at_boundaries(take)?;
    conditions_at_boundaries(take)?;
    sets_at_boundaries(take)?;
    constants_at_boundaries(take)?;
    shapes_at_boundaries(take)
}

/// A number of up to so many bits, the small ones as likely as the great ones.
fn number(random: &mut Random, bits: usize) -> i64 {
    let shift = 64 - 1 - random.below(bits);
    (random.bits() as i64) >> shift
}

fn text(random: &mut Random) -> Vec<u8> {
    let length = random.below(6);
    (0..length).map(|_| random.choice(b"abz")).collect()
}

fn bytes(random: &mut Random, kind: &PrimitiveType) -> Vec<u8> {
    let length = match kind {
        PrimitiveType::Fixed(length) => *length as usize,
        _ => random.below(6),
    };
    (0..length)
        .map(|_| {
            if random.once_in(2) {
                random.bits() as u8
            } else {
                random.choice(&[0, 1, 255])
            }
        })
        .collect()
}

/// A content of the storage; a not-a-number has the one pattern.
fn random_value(random: &mut Random, storage: &str, kind: &PrimitiveType) -> PrimitiveLiteral {
    if random.once_in(2) {
        let contents = boundary_contents(storage).iter().copied();
        let contents: Vec<&str> = contents
            .filter(|content| of_length(content, kind))
            .collect();
        if !contents.is_empty() {
            return value(storage, random.choice(&contents));
        }
    }
    match storage {
        "boolean" => PrimitiveLiteral::Boolean(random.once_in(2)),
        "int" => PrimitiveLiteral::Int(number(random, 32) as i32),
        "long" => PrimitiveLiteral::Long(number(random, 64)),
        "float" => {
            let number = f32::from_bits(random.bits() as u32);
            let bits = if number.is_nan() {
                0x7fc0_0000
            } else {
                number.to_bits()
            };
            PrimitiveLiteral::Float(f32::from_bits(bits).into())
        }
        "double" => {
            let number = f64::from_bits(random.bits());
            let bits = if number.is_nan() {
                0x7ff8_0000_0000_0000
            } else {
                number.to_bits()
            };
            PrimitiveLiteral::Double(f64::from_bits(bits).into())
        }
        "string" => PrimitiveLiteral::String(String::from_utf8(text(random)).unwrap()),
        _ => PrimitiveLiteral::Binary(bytes(random, kind)),
    }
}

fn random_kind(random: &mut Random) -> PrimitiveType {
    match random.below(20) {
        0 => PrimitiveType::Fixed(random.below(6) as u64),
        _ => kind(random.choice(&KINDS)),
    }
}

/// A literal as it may be handed in.
fn random_own(random: &mut Random) -> Datum {
    let kind = random_kind(random);
    let value = random_value(random, storage_of(&kind), &kind);
    Datum::new(kind, value)
}

/// A literal under the kind, now and then in another storage, of another length or beyond every value.
fn random_literal(random: &mut Random, kind: PrimitiveType) -> Datum {
    let value = match random.below(20) {
        0 => PrimitiveLiteral::AboveMax,
        1 => PrimitiveLiteral::BelowMin,
        2..5 => {
            let storage = random.choice(&STORAGES);
            random_value(random, storage, &PrimitiveType::Binary)
        }
        _ => random_value(random, storage_of(&kind), &kind),
    };
    Datum::new(kind, value)
}

fn random_conversion(random: &mut Random, take: Take) -> Result<bool> {
    let kind = random_kind(random);
    let literal = random_literal(random, kind.clone());
    let to = match random.below(4) {
        0 => random_kind(random),
        1 => kind,
        // the columns that more than their own kind goes to
        _ => crate::literals::kind(random.choice(&[
            "boolean",
            "int",
            "date",
            "long",
            "timestamp",
            "timestamptz",
        ])),
    };
    convert(&literal, &to, take)
}

fn random_comparison(random: &mut Random, take: Take) -> Result<bool> {
    let kind = random_kind(random);
    let first = random_literal(random, kind.clone());
    let second = match random.below(8) {
        // the same, or the same content under another kind
        0 => first.clone(),
        1 => Datum::new(random_kind(random), first.literal().clone()),
        2 => {
            let other = random_kind(random);
            random_literal(random, other)
        }
        _ => random_literal(random, kind),
    };
    compare(&first, &second, take)
}

/// Calls on filters as they are chosen: never more nodes or literals than one book has.
struct Calls {
    words: String,
    laid: usize,
    nodes: usize,
    literals: usize,
}

impl Calls {
    const NODES: usize = 256;
    const LITERALS: usize = 1024;

    fn new() -> Calls {
        Calls {
            words: String::new(),
            laid: 0,
            nodes: 0,
            literals: 0,
        }
    }

    fn say(&mut self, words: &str) {
        if !self.words.is_empty() {
            self.words.push_str("; ");
        }
        self.words.push_str(words);
    }

    /// A constant or a condition; of sets now and then one of many literals.
    fn lay(&mut self, random: &mut Random) {
        let name = random.choice(&["a", "b", "c", "hauler.name"]);
        let words = if random.once_in(6) {
            random.choice(&["true", "false"]).to_string()
        } else {
            let (operator, number) = random.choice(&OPERATORS);
            let room = Self::LITERALS - self.literals;
            if number.is_unary() || room < 64 {
                format!(
                    "{} {name}",
                    if number.is_unary() {
                        operator
                    } else {
                        "is-null"
                    }
                )
            } else if number.is_binary() {
                self.literals += 1;
                format!("{operator} {name} {}", literal_word(&random_own(random)))
            } else {
                let bound = if random.once_in(20) { 60 } else { 6 };
                let count = random.below(bound);
                let some: Vec<Datum> = (0..count).map(|_| random_own(random)).collect();
                let literals: Vec<Datum> = (0..count)
                    .map(|place| some[random.below(place + 1)].clone())
                    .collect();
                let literals = without_differences(literals);
                self.literals += literals.len();
                set(operator, name, &literals)
            }
        };
        self.say(&words);
        self.laid += 1;
        self.nodes += 1;
    }

    fn join(&mut self, random: &mut Random) {
        self.say(random.choice(&["and", "or"]));
        self.laid -= 1;
        self.nodes += 1;
    }

    fn turn(&mut self, random: &mut Random) {
        let call = random.choice(&["not", "not", "negate", "rewrite"]);
        self.say(call);
        self.nodes += usize::from(call == "not");
    }

    /// Whether that many leaves more, and the joins of all, still fit.
    fn has_room(&self, leaves: usize) -> bool {
        self.nodes + 2 * leaves + self.laid + 1 < Self::NODES
    }

    fn join_all(&mut self, random: &mut Random) {
        while self.laid > 1 {
            self.join(random);
        }
    }
}

fn random_calls(random: &mut Random) -> (&'static str, Calls) {
    let mut calls = Calls::new();
    let shape = match random.below(20) {
        0 => {
            calls.lay(random);
            let deep = 20 + random.below(60);
            for _ in 0..deep {
                if random.once_in(4) && calls.has_room(1) {
                    calls.lay(random);
                    calls.join(random);
                } else if calls.has_room(0) {
                    calls.turn(random);
                }
            }
            "deep"
        }
        1 => {
            let wide = 20 + random.below(80);
            for _ in 0..wide {
                calls.lay(random);
            }
            while calls.laid > 1 {
                calls.join(random);
                if random.once_in(8) && calls.has_room(0) {
                    calls.turn(random);
                }
            }
            "wide"
        }
        2..5 => {
            calls.lay(random);
            if random.once_in(2) {
                calls.turn(random);
            }
            "one"
        }
        _ => {
            let leaves = 1 + random.below(12);
            for _ in 0..leaves {
                calls.lay(random);
                while random.once_in(2) && calls.has_room(0) {
                    calls.turn(random);
                }
                while calls.laid > 1 && random.once_in(2) {
                    calls.join(random);
                    while random.once_in(3) && calls.has_room(0) {
                        calls.turn(random);
                    }
                }
            }
            calls.join_all(random);
            "mixed"
        }
    };
    if random.once_in(2) && calls.has_room(0) {
        calls.say("rewrite");
    }
    (shape, calls)
}

pub fn random(seed: u64, count: u64, take: Take) -> Result<()> {
    let mut random = Random::new(seed);
    let mut given = 0;
    while given < count {
        let is_given = match random.below(10) {
            0..3 => random_conversion(&mut random, take)?,
            3..6 => random_comparison(&mut random, take)?,
            _ => {
                let (shape, calls) = random_calls(&mut random);
                take(format!("filter/{shape} {}", calls.words))?;
                true
            }
        };
        given += u64::from(is_given);
    }
    Ok(())
}
