//! Numbers in texts: blanks or none, an optional plus or minus, one or more decimal digits of any length, blanks or none.

use crate::text::is_blank;

/// What a text is as a number.
#[derive(Debug, Clone, Copy, PartialEq, Eq)]
pub enum Number {
    /// The text is no number.
    Not,
    /// A number of more than thirty digits after its leading zeros: outside every range that is asked for.
    Huge,
    Value(i128),
}

/// The text without the blanks at its two ends.
pub fn without_blanks(text: &[u8]) -> &[u8] {
    let Some(first) = text.iter().position(|byte| !is_blank(*byte)) else { return &[] };
    let last = text.iter().rposition(|byte| !is_blank(*byte)).unwrap_or(first);
    &text[first..=last]
}

/// Whether a minus stands first, and what is behind the sign, if there is one.
fn signed(text: &[u8]) -> (bool, &[u8]) {
    match text.split_first() {
        Some((b'-', rest)) => (true, rest),
        Some((b'+', rest)) => (false, rest),
        _ => (false, text),
    }
}

pub fn number(text: &[u8]) -> Number {
    let (negative, digits) = signed(without_blanks(text));
    if digits.is_empty() || !digits.iter().all(u8::is_ascii_digit) {
        return Number::Not;
    }
    let zeros = digits.iter().take_while(|digit| **digit == b'0').count();
    let significant = &digits[zeros..];
    if significant.len() > 30 {
        return Number::Huge;
    }
    let magnitude = significant.iter().fold(0i128, |value, digit| value * 10 + (*digit - b'0') as i128);
    Number::Value(if negative { -magnitude } else { magnitude })
}
