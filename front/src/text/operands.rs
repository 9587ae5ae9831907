//! Single words of a text: registers, numbers, steps as the programs print them.

use crate::case::Step;
use crate::messages::What;
use crate::sizes;

/// A step as the programs print it: I0, M0.1 or P1.
pub struct Short<'a> {
    pub step: Step,
    /// The digits of its thread; a persist has none.
    pub thread: Option<&'a str>,
    /// The digits of its last number.
    pub last: &'a str,
}

pub fn short_step(text: &str) -> Option<Short<'_>> {
    if let Some(last) = text.strip_prefix('I') {
        let thread = low(digits(last)?);
        let step = Step::Issue { thread };
        return Some(Short {
            step,
            thread: Some(last),
            last,
        });
    }
    if let Some((of, last)) = text.strip_prefix('M').and_then(|rest| rest.split_once('.')) {
        let (thread, position) = (low(digits(of)?), low(digits(last)?));
        let step = Step::Move { thread, position };
        return Some(Short {
            step,
            thread: Some(of),
            last,
        });
    }
    let last = text.strip_prefix('P')?;
    let line = low(digits(last)?);
    Some(Short {
        step: Step::Persist { line },
        thread: None,
        last,
    })
}

impl Short<'_> {
    /// What is wrong with its position; which lines there are is known only when all is read.
    pub fn fault(&self) -> Option<What> {
        match self.step {
            Step::Move { position, .. } if position as usize >= sizes::POSITIONS => {
                Some(What::MostPosition)
            }
            _ => None,
        }
    }
}

pub fn register(text: &str) -> Option<u32> {
    let number = text.strip_prefix('r').filter(|rest| rest.len() == 1)?;
    digits(number).filter(|number| (*number as usize) < sizes::REGISTERS)
}

/// Decimal digits; what is too large for anything counts as the largest.
pub fn digits(text: &str) -> Option<u32> {
    let is_number = !text.is_empty() && text.bytes().all(|byte| byte.is_ascii_digit());
    is_number.then(|| text.parse().unwrap_or(u32::MAX))
}

/// A word: none where it is no number, a mistake where it is too large.
pub fn number(text: &str) -> Option<Result<u32, What>> {
    let (digits, radix) = match text.strip_prefix("0x") {
        Some(rest) => (rest, 16),
        None => (text, 10),
    };
    let is_number = !digits.is_empty() && digits.chars().all(|c| c.is_digit(radix));
    is_number.then(|| u32::from_str_radix(digits, radix).map_err(|_| What::MostWord))
}

/// What is out of range was told; 255 is out of every range.
pub fn low(number: u32) -> u8 {
    number.min(255) as u8
}

/// A word of the text as a message shows it.
pub fn shown(text: &str) -> String {
    let cut: String = text
        .chars()
        .take(40)
        .map(|c| if c.is_control() { '?' } else { c })
        .collect();
    if cut.len() < text.len() {
        cut + ".."
    } else {
        cut
    }
}
