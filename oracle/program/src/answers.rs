//! What the crate answers to a case.
use std::cmp::Ordering;
use std::panic::{AssertUnwindSafe, catch_unwind};

use crate::differences;
use crate::filters::{built, printed};
use crate::literals::{kind, literal, literal_word};
use crate::spec::{Datum, Type};
use crate::{Error, Result};

/// The two refusals of a conversion, told apart by their messages.
fn refusal(error: &Error) -> String {
    let message = error.message();
    if message.starts_with("Can't convert datum") {
        "refused 10".to_string()
    } else if message.starts_with("Can't parse") {
        "refused 11".to_string()
    } else {
        format!("error {message}")
    }
}

fn converted(words: &str) -> String {
    let (word, to) = words.split_once(' ').expect("a literal and a kind");
    match literal(word).to(&Type::Primitive(kind(to))) {
        Ok(literal) => literal_word(&literal),
        Err(error) => refusal(&error),
    }
}

fn compared(words: &str) -> String {
    let (first, second) = words.split_once(' ').expect("two literals");
    let (first, second) = (literal(first), literal(second));
    let equality = if first == second { "equal" } else { "unequal" };
    let order = match first.partial_cmp(&second) {
        Some(Ordering::Less) => "before",
        Some(Ordering::Equal) => "level",
        Some(Ordering::Greater) => "after",
        None => "apart",
    };
    format!("{equality} {order}")
}

/// A case is its sort, which may be followed by a stroke and the rule that it is for, and then what is asked.
pub fn answer(case: &str) -> String {
    let (sort, words) = case.split_once(' ').expect("a sort");
    let (sort, _) = sort.split_once('/').unwrap_or((sort, ""));
    let answer = AssertUnwindSafe(|| match sort {
        "convert" => converted(words),
        "compare" => compared(words),
        "filter" => printed(&built(words)),
        "find" => differences::found(words),
        "read" => differences::read(words),
        "evaluate" => differences::evaluated(words),
        _ => panic!("no such sort"),
    });
    catch_unwind(answer).unwrap_or_else(|panic| {
        let words = panic.downcast_ref::<String>().map(String::as_str);
        let words = words.or_else(|| panic.downcast_ref::<&str>().copied());
        format!("panics: {}", words.unwrap_or_default())
    })
}
