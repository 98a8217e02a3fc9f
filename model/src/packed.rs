//! Coupons in packed decimal, as the ledger sends them (T-14).
//!
//! Two decimal digits a byte, most significant first, are what the bytes show
//! in hexadecimal. So an image is read and written by its text: the same eight
//! digits are the image in hexadecimal and the coupon in decimal.

use crate::refusal::{refuse_if, Refusal};
use crate::sheet::MAX_COUPON;

/// In bytes.
pub const IMAGE_LENGTH: usize = 4;

/// The coupon of an image. Checks 2, 30 and 8: what has no digits has no
/// value that could be over the limit.
pub fn read(image: &[u8]) -> Result<u64, Refusal> {
    let bytes: [u8; IMAGE_LENGTH] = image.try_into().map_err(|_| Refusal::Length)?;
    let digits = format!("{:08X}", u32::from_be_bytes(bytes));
    // A half byte above 9 shows as a letter.
    let coupon: u64 = digits.parse().map_err(|_| Refusal::Digit)?;
    check_limit(coupon)?;
    Ok(coupon)
}

/// Writes the image of a coupon. Checks 2 and 8, before any byte is written.
pub fn write(image: &mut [u8], coupon: u64) -> Result<(), Refusal> {
    refuse_if(image.len() != IMAGE_LENGTH, Refusal::Length)?;
    check_limit(coupon)?;
    // Zeros in front, so that every coupon has the same eight places.
    let digits = format!("{coupon:08}");
    let bytes = u32::from_str_radix(&digits, 16).expect("eight digits");
    image.copy_from_slice(&bytes.to_be_bytes());
    Ok(())
}

fn check_limit(coupon: u64) -> Result<(), Refusal> {
    refuse_if(u128::from(coupon) > MAX_COUPON, Refusal::Coupon)
}
