//! One figure for a whole book (T-09): what all positions are worth together,
//! and apart from it what the gains and what the losses among them are.
//!
//! A product has up to 24 digits and a sum up to 27, so that 128 bits hold all
//! of them without rounding.

use crate::refusal::{refuse_if, Refusal};

/// In bytes, as lent for the line.
pub const LINE_ROOM: usize = 96;

pub const MAX_POSITIONS: usize = 4_096;

/// In pools, of either sign.
pub const MAX_NOMINAL: i64 = 1_000_000;

/// Of a position's W, of either sign.
pub const MAX_VALUE: i64 = 200_000_000_000_000_000;

/// Writes the line of a book at the start of `out` and gives its length. Checks
/// 2 and 28, before anything is added up or written.
pub fn book(nominals: &[i64], values: &[i64], out: &mut [u8]) -> Result<usize, Refusal> {
    refuse_if(out.len() != LINE_ROOM, Refusal::Length)?;
    refuse_if(fault(nominals, values), Refusal::Book)?;
    let line = line(nominals, values);
    out[..line.len()].copy_from_slice(line.as_bytes());
    Ok(line.len())
}

fn fault(nominals: &[i64], values: &[i64]) -> bool {
    let within = |list: &[i64], most: i64| list.iter().all(|n| (-most..=most).contains(n));
    nominals.len() != values.len()
        || nominals.len() > MAX_POSITIONS
        || !within(nominals, MAX_NOMINAL)
        || !within(values, MAX_VALUE)
}

/// Total, gains and losses, as a line of a deck's listing.
fn line(nominals: &[i64], values: &[i64]) -> String {
    let positions = nominals.iter().zip(values);
    let worth: Vec<i128> = positions
        .map(|(&nominal, &value)| i128::from(nominal) * i128::from(value))
        .collect();
    let (mut gains, mut losses) = (0, 0);
    for &each in &worth {
        if each > 0 {
            gains += each;
        } else {
            losses += each;
        }
    }
    // By itself, so that the other two can be held to it.
    let total: i128 = worth.iter().sum();
    format!("book 0 {total} {gains} {losses}\n")
}
