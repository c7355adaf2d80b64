//! Values, their conversions and the operators.

use std::cmp::Ordering;

use crate::refusal::{Outcome, Refusal};
use crate::tree::{Infix, Prefix, Type};

/// "FIXED is a signed whole number from -99,999 to 99,999".
#[derive(Clone, Copy, Debug, PartialEq, Eq, PartialOrd, Ord)]
pub struct Fixed(i64);

impl Fixed {
    pub const LEAST: i64 = -99_999;
    pub const GREATEST: i64 = 99_999;
    pub const ZERO: Fixed = Fixed(0);
    pub const ONE: Fixed = Fixed(1);

    /// Refused with 9 outside the range.
    pub fn new(number: i64) -> Outcome<Fixed> {
        if (Fixed::LEAST..=Fixed::GREATEST).contains(&number) {
            Ok(Fixed(number))
        } else {
            Err(Refusal::Range)
        }
    }

    pub fn get(self) -> i64 {
        self.0
    }

    pub fn plus(self, other: Fixed) -> Outcome<Fixed> {
        Fixed::new(self.0 + other.0)
    }
}

/// A value; the digits of a BIT value are kept as the bytes `0` and `1`.
#[derive(Clone, Debug, PartialEq, Eq)]
pub enum Value {
    Fixed(Fixed),
    Character(Vec<u8>),
    Bit(Vec<u8>),
}

impl Value {
    /// "CHARACTER and BIT hold 0 to 512 places."
    pub const MOST_PLACES: usize = 512;

    /// FIXED to BIT: "17 bits of the magnitude".
    const FIXED_BITS: u32 = 17;

    /// C-12: a FIXED value is turned "into eight characters".
    const FIXED_CHARACTERS: usize = 8;

    pub fn character(places: Vec<u8>) -> Outcome<Value> {
        within_places(places).map(Value::Character)
    }

    pub fn bit(places: Vec<u8>) -> Outcome<Value> {
        within_places(places).map(Value::Bit)
    }

    /// The outcome of a comparison: one bit.
    fn truth(holds: bool) -> Value {
        Value::Bit(vec![if holds { b'1' } else { b'0' }])
    }

    /// What the value takes of the room of unfinished values (reading 28).
    pub fn size(&self) -> usize {
        match self {
            Value::Fixed(_) => 0,
            Value::Character(places) | Value::Bit(places) => places.len(),
        }
    }

    fn is_fixed(&self) -> bool {
        matches!(self, Value::Fixed(_))
    }

    pub fn is_bit(&self) -> bool {
        matches!(self, Value::Bit(_))
    }

    /// The type to which both sides of a comparison are brought.
    pub fn comparison(left: &Value, right: &Value) -> Comparison {
        if left.is_fixed() || right.is_fixed() {
            Comparison::Numeric
        } else if left.is_bit() && right.is_bit() {
            Comparison::Bits
        } else {
            Comparison::Characters
        }
    }

    pub fn to_fixed(&self) -> Outcome<Fixed> {
        match self {
            Value::Fixed(number) => Ok(*number),
            Value::Character(places) => characters_to_fixed(places),
            Value::Bit(places) => bits_to_fixed(places),
        }
    }

    pub fn into_characters(self) -> Vec<u8> {
        match self {
            Value::Fixed(number) => fixed_to_characters(number),
            Value::Character(places) | Value::Bit(places) => places,
        }
    }

    /// "CHARACTER to BIT: only 0 and 1."
    pub fn into_bits(self) -> Outcome<Vec<u8>> {
        match self {
            Value::Fixed(number) => Ok(fixed_to_bits(number)),
            Value::Character(places) if !places.iter().all(is_binary) => Err(Refusal::Conversion),
            Value::Character(places) | Value::Bit(places) => Ok(places),
        }
    }

    /// Conversion to a declared type.
    pub fn into_type(self, kind: Type) -> Outcome<Value> {
        match kind {
            Type::Fixed => self.to_fixed().map(Value::Fixed),
            Type::Character => Ok(Value::Character(self.into_characters())),
        }
    }
}

/// How two values are compared.
#[derive(Clone, Copy, Debug, PartialEq, Eq)]
pub enum Comparison {
    Numeric,
    Characters,
    Bits,
}

/// 16 for a value over 512 places.
fn within_places(places: Vec<u8>) -> Outcome<Vec<u8>> {
    if places.len() > Value::MOST_PLACES {
        return Err(Refusal::Length);
    }
    Ok(places)
}

fn is_binary(digit: &u8) -> bool {
    matches!(digit, b'0' | b'1')
}

/// "blanks, at most one sign directly before one or more digits, blanks; empty
/// or all blank is 0"; the form over the whole value first, then the range.
fn characters_to_fixed(places: &[u8]) -> Outcome<Fixed> {
    let trimmed = trim_blanks(places);
    if trimmed.is_empty() {
        return Ok(Fixed::ZERO);
    }
    let (negative, digits) = match trimmed.split_first() {
        Some((b'-', rest)) => (true, rest),
        Some((b'+', rest)) => (false, rest),
        _ => (false, trimmed),
    };
    if digits.is_empty() || !digits.iter().all(u8::is_ascii_digit) {
        return Err(Refusal::Conversion);
    }
    let magnitude = magnitude(digits, 10);
    Fixed::new(if negative { -magnitude } else { magnitude })
}

fn trim_blanks(places: &[u8]) -> &[u8] {
    let mut rest = places;
    while let Some((b' ', behind)) = rest.split_first() {
        rest = behind;
    }
    while let Some((b' ', before)) = rest.split_last() {
        rest = before;
    }
    rest
}

/// "BIT to FIXED: its binary value."
fn bits_to_fixed(places: &[u8]) -> Outcome<Fixed> {
    Fixed::new(magnitude(places, 2))
}

/// The number that the digits say, held at one past the range once it is passed.
pub fn magnitude(digits: &[u8], base: i64) -> i64 {
    digits.iter().fold(0, |so_far, digit| {
        let next = so_far * base + i64::from(digit.saturating_sub(b'0'));
        next.min(Fixed::GREATEST + 1)
    })
}

/// "eight characters, digits at the right, the minus sign directly before the
/// first digit, blanks in front" (C-12).
fn fixed_to_characters(number: Fixed) -> Vec<u8> {
    let width = Value::FIXED_CHARACTERS;
    format!("{:>width$}", number.get()).into_bytes()
}

fn fixed_to_bits(number: Fixed) -> Vec<u8> {
    let magnitude = number.get().unsigned_abs();
    (0..Value::FIXED_BITS)
        .rev()
        .map(|place| {
            if magnitude >> place & 1 == 1 {
                b'1'
            } else {
                b'0'
            }
        })
        .collect()
}

/// `+ - * /` of two FIXED values; "Division cuts towards zero."
pub fn arithmetic(operator: Infix, left: Fixed, right: Fixed) -> Outcome<Value> {
    let (left, right) = (left.get(), right.get());
    let result = match operator {
        Infix::Add => left + right,
        Infix::Subtract => left - right,
        Infix::Multiply => left * right,
        _ => left.checked_div(right).ok_or(Refusal::ZeroDivisor)?,
    };
    Fixed::new(result).map(Value::Fixed)
}

/// `&` and `|`, "the shorter side filled with zeros at the right".
pub fn logic(operator: Infix, left: &[u8], right: &[u8]) -> Value {
    let places = padded_pairs(left, right, b'0')
        .map(|(a, b)| {
            if operator == Infix::And {
                a.min(b)
            } else {
                a.max(b)
            }
        })
        .collect();
    Value::Bit(places)
}

/// The pairs of places of two values, the shorter filled at the right.
fn padded_pairs<'a>(
    left: &'a [u8],
    right: &'a [u8],
    filler: u8,
) -> impl Iterator<Item = (u8, u8)> + 'a {
    let at = move |side: &[u8], place: usize| side.get(place).copied().unwrap_or(filler);
    (0..left.len().max(right.len())).map(move |place| (at(left, place), at(right, place)))
}

/// Byte order of two values, the shorter filled at the right.
pub fn order_of_places(left: &[u8], right: &[u8], filler: u8) -> Ordering {
    padded_pairs(left, right, filler)
        .map(|(a, b)| a.cmp(&b))
        .find(|order| *order != Ordering::Equal)
        .unwrap_or(Ordering::Equal)
}

/// Whether a comparison operator holds for an order.
pub fn compare(operator: Infix, order: Ordering) -> Value {
    Value::truth(match operator {
        Infix::Greater => order == Ordering::Greater,
        Infix::GreaterOrEqual => order != Ordering::Less,
        Infix::Equal => order == Ordering::Equal,
        Infix::Less => order == Ordering::Less,
        Infix::LessOrEqual => order != Ordering::Greater,
        Infix::NotGreater => order != Ordering::Greater,
        Infix::NotLess => order != Ordering::Less,
        _ => order != Ordering::Equal,
    })
}

/// Prefix `+` and `-`.
pub fn signed(operator: Prefix, operand: Fixed) -> Outcome<Value> {
    let number = match operator {
        Prefix::Minus => -operand.get(),
        _ => operand.get(),
    };
    Fixed::new(number).map(Value::Fixed)
}

/// Prefix `^`.
pub fn inverted(places: &[u8]) -> Value {
    let flip = |digit: &u8| if *digit == b'1' { b'0' } else { b'1' };
    Value::Bit(places.iter().map(flip).collect())
}

/// SUBSTR: places i to i+n-1, without n to the end; 19 outside.
pub fn substr(string: Value, start: Fixed, count: Option<Fixed>) -> Outcome<Value> {
    let bits = string.is_bit();
    let places = string.into_characters();
    let start = usize::try_from(start.get() - 1).map_err(|_| Refusal::Substr)?;
    let rest = places.get(start..).ok_or(Refusal::Substr)?;
    let taken = match count {
        None => rest,
        Some(count) => {
            let count = usize::try_from(count.get()).map_err(|_| Refusal::Substr)?;
            rest.get(..count).ok_or(Refusal::Substr)?
        }
    };
    let taken = taken.to_vec();
    Ok(if bits {
        Value::Bit(taken)
    } else {
        Value::Character(taken)
    })
}
