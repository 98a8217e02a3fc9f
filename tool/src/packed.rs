//! A coupon as the ledger sends it, in packed decimal (T-14): the line
//! `coupon packed 01000000`, with its bytes in hexadecimal, two digits a byte.
//!
//! The model judges the bytes. What it refuses is no coupon, so it is a mistake
//! of the text, even where a deck could hold the number.

use crate::quote;
use lavroudem_model::packed::{self, IMAGE_LENGTH};
use lavroudem_model::refusal::{refuse_if, Refusal};
use lavroudem_model::sheet::MAX_COUPON;

/// What stands between the command and the digits.
pub const PACKED: &str = "packed";

/// The coupon of the words behind `packed`, or why there is none.
pub fn coupon(words: &[&str]) -> Result<u64, String> {
    let [word] = words else {
        let found = words.len();
        return Err(format!(
            "write `coupon {PACKED} digits`; operands found: {found}"
        ));
    };
    let subject = format!("packed coupon `{}`", quote::word(word));
    if !word.chars().all(|digit| digit.is_ascii_hexdigit()) {
        return Err(format!("{subject} is not in hexadecimal digits"));
    }
    let coupon = bytes(word).and_then(|image| packed::read(&image));
    coupon.map_err(|refusal| {
        let (number, name) = (refusal.number(), refusal.word());
        format!(
            "{subject} is refused {number} ({name}): {}",
            cause(refusal, word)
        )
    })
}

/// Half a byte at the end makes no length right.
fn bytes(digits: &str) -> Result<Vec<u8>, Refusal> {
    refuse_if(digits.len() % 2 == 1, Refusal::Length)?;
    let byte = |place| u8::from_str_radix(&digits[place..place + 2], 16).expect("two digits");
    Ok((0..digits.len()).step_by(2).map(byte).collect())
}

/// What is at fault. Places are counted from 1.
fn cause(refusal: Refusal, digits: &str) -> String {
    let odd = digits
        .char_indices()
        .find(|(_, digit)| !digit.is_ascii_digit());
    match (refusal, odd) {
        (Refusal::Length, _) => format!("{} of {} digits", digits.len(), 2 * IMAGE_LENGTH),
        (Refusal::Digit, Some((place, digit))) => {
            format!("half byte {} is {digit}, above 9", place + 1)
        }
        _ => format!("above {MAX_COUPON}"),
    }
}
