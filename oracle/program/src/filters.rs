//! Filters: built by calls written one after another, and printed as trees, each join before its sides.
use std::ops::Not;

use crate::expr::{
    BinaryExpression, Predicate, PredicateOperator, Reference, SetExpression, UnaryExpression,
};
use crate::literals::{literal, literal_word};

pub const OPERATORS: [(&str, PredicateOperator); 14] = [
    ("is-null", PredicateOperator::IsNull),
    ("not-null", PredicateOperator::NotNull),
    ("is-nan", PredicateOperator::IsNan),
    ("not-nan", PredicateOperator::NotNan),
    ("lt", PredicateOperator::LessThan),
    ("le", PredicateOperator::LessThanOrEq),
    ("gt", PredicateOperator::GreaterThan),
    ("ge", PredicateOperator::GreaterThanOrEq),
    ("eq", PredicateOperator::Eq),
    ("ne", PredicateOperator::NotEq),
    ("starts-with", PredicateOperator::StartsWith),
    ("not-starts-with", PredicateOperator::NotStartsWith),
    ("in", PredicateOperator::In),
    ("not-in", PredicateOperator::NotIn),
];

fn operator(word: &str) -> PredicateOperator {
    let named = OPERATORS.iter().find(|(name, _)| *name == word);
    named.expect("an operator").1
}

fn operator_word(operator: PredicateOperator) -> &'static str {
    let named = OPERATORS.iter().find(|(_, other)| *other == operator);
    named.expect("an operator").0
}

/// The filter that the calls leave: a constant or a condition is laid, and every other call takes what was laid last.
pub fn built(calls: &str) -> Predicate {
    let mut laid: Vec<Predicate> = Vec::new();
    for call in calls.split("; ") {
        let mut words = call.split(' ');
        let filter = match words.next().expect("a call") {
            "true" => Predicate::AlwaysTrue,
            "false" => Predicate::AlwaysFalse,
            "not" => laid.pop().expect("a filter").not(),
            "negate" => laid.pop().expect("a filter").negate(),
            "rewrite" => laid.pop().expect("a filter").rewrite_not(),
            connective @ ("and" | "or") => {
                let right = laid.pop().expect("a right side");
                let left = laid.pop().expect("a left side");
                if connective == "and" {
                    left.and(right)
                } else {
                    left.or(right)
                }
            }
            // a condition against one literal, whatever its operator's family
            "binary" => {
                let operator = operator(words.next().expect("an operator"));
                condition(operator, true, words)
            }
            word => {
                let operator = operator(word);
                condition(operator, operator.is_binary(), words)
            }
        };
        laid.push(filter);
    }
    let [filter] = laid.try_into().expect("one filter");
    filter
}

fn condition<'a>(
    operator: PredicateOperator,
    is_binary: bool,
    mut words: impl Iterator<Item = &'a str>,
) -> Predicate {
    let name = Reference::new(words.next().expect("a name"));
    if is_binary {
        let literal = literal(words.next().expect("a literal"));
        Predicate::Binary(BinaryExpression::new(operator, name, literal))
    } else if operator.is_unary() {
        Predicate::Unary(UnaryExpression::new(operator, name))
    } else {
        Predicate::Set(SetExpression::new(
            operator,
            name,
            words.map(literal).collect(),
        ))
    }
}

fn condition_words(operator: PredicateOperator, name: &Reference) -> String {
    format!("{} {}", operator_word(operator), name.name())
}

/// The tree in words, each join before its sides. A set is in no order, so its literals are put in the order of their words.
pub fn printed(filter: &Predicate) -> String {
    match filter {
        Predicate::AlwaysTrue => "true".to_string(),
        Predicate::AlwaysFalse => "false".to_string(),
        Predicate::And(join) => format!("and {}", join.inputs().map(printed).join(" ")),
        Predicate::Or(join) => format!("or {}", join.inputs().map(printed).join(" ")),
        Predicate::Not(over) => format!("not {}", over.inputs().map(printed).join(" ")),
        Predicate::Unary(leaf) => condition_words(leaf.op(), leaf.term()),
        Predicate::Binary(leaf) => {
            let literal = literal_word(leaf.literal());
            format!("{} {literal}", condition_words(leaf.op(), leaf.term()))
        }
        Predicate::Set(leaf) => {
            let mut literals: Vec<String> = leaf.literals().iter().map(literal_word).collect();
            literals.sort();
            let mut words = vec![
                condition_words(leaf.op(), leaf.term()),
                literals.len().to_string(),
            ];
            words.append(&mut literals);
            words.join(" ")
        }
    }
}
