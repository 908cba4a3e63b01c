//! What the genuine crate answers: its own sources, beside stand-ins for the files and crates that they name and no case needs.
//!
//!     oracle boundaries           prints cases of every rule at its boundaries
//!     oracle random SEED COUNT    prints so many random cases
//!     oracle differences          prints a case of each named difference that the crate can be run on
//!     oracle answer               reads cases, one a line, and prints each with the crate's answer
//!
//! oracle/README.md says how a case is written.
#![allow(dead_code, unused_imports, unreachable_pub)]

mod answers;
mod cases;
mod differences;
mod error;
mod expr;
mod filters;
mod literals;
mod random;
mod spec;

pub use error::{Error, ErrorKind, Result};

use std::io::{self, BufWriter, Write};

fn main() -> io::Result<()> {
    let arguments: Vec<String> = std::env::args().skip(1).collect();
    let words: Vec<&str> = arguments.iter().map(String::as_str).collect();
    let mut out = BufWriter::new(io::stdout().lock());
    match words[..] {
        ["boundaries"] => cases::boundaries(&mut |case| writeln!(out, "{case}"))?,
        ["random", seed, count] => {
            let number = |word: &str| word.parse::<u64>().map_err(io::Error::other);
            cases::random(number(seed)?, number(count)?, &mut |case| {
                writeln!(out, "{case}")
            })?
        }
        ["differences"] => {
            for case in differences::CASES {
                writeln!(out, "{case}")?
            }
        }
        ["answer"] => {
            // a panic is an answer, and says so itself
            std::panic::set_hook(Box::new(|_| {}));
            for line in io::stdin().lines() {
                let line = line?;
                writeln!(out, "{line} => {}", answers::answer(&line))?
            }
        }
        _ => {
            return Err(io::Error::other(
                "boundaries, random SEED COUNT, differences or answer",
            ));
        }
    }
    out.flush()
}
