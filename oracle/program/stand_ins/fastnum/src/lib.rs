//! Stand-in for decimals, of which no case has any.
use std::fmt;

#[derive(Clone, Copy, Debug, PartialEq, PartialOrd)]
pub struct D128;

pub struct Digits;

#[derive(Debug)]
pub struct ParseError;

pub mod decimal {
    #[derive(Default)]
    pub struct Context;
}

impl D128 {
    pub fn from_i128(_: i128) -> Option<D128> {
        unimplemented!()
    }

    pub fn from_str(_: &str, _: decimal::Context) -> Result<D128, ParseError> {
        unimplemented!()
    }

    pub fn digits(&self) -> Digits {
        unimplemented!()
    }

    pub fn is_sign_negative(&self) -> bool {
        unimplemented!()
    }

    pub fn fractional_digits_count(&self) -> i16 {
        unimplemented!()
    }

    pub fn rescale(self, _: i16) -> D128 {
        unimplemented!()
    }
}

impl Digits {
    pub fn to_u128(self) -> Option<u128> {
        unimplemented!()
    }
}

impl fmt::Display for D128 {
    fn fmt(&self, _: &mut fmt::Formatter) -> fmt::Result {
        unimplemented!()
    }
}

impl fmt::Display for ParseError {
    fn fmt(&self, _: &mut fmt::Formatter) -> fmt::Result {
        unimplemented!()
    }
}
