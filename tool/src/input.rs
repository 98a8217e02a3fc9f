//! How much of a file is read: no more than could matter.
//!
//! Of a deck that is one byte more than the longest, which the engine refuses
//! by its length. A text may be longer, for its comments: [`MAX_TEXT`].

use crate::form::{starts_like_text, Form};
use lavroudem_model::deck::MAX_DECK;
use std::io::{self, Read};

/// The longest text, in bytes: 64 for each byte of the longest deck.
pub const MAX_TEXT: usize = 64 * MAX_DECK;

/// The bytes of a file: all of them, or one more than it may have.
pub fn read(file: &mut dyn Read, form: Form) -> io::Result<Vec<u8>> {
    let mut bytes = Vec::new();
    read_up_to(file, MAX_DECK + 1, &mut bytes)?;
    let goes_on = bytes.len() > MAX_DECK;
    let may_be_text = match form {
        Form::Text => true,
        Form::Either => starts_like_text(&bytes),
        Form::Binary => false,
    };
    if goes_on && may_be_text {
        read_up_to(file, MAX_TEXT + 1, &mut bytes)?;
    }
    Ok(bytes)
}

/// A text, whatever it looks like.
pub fn read_text(file: &mut dyn Read) -> io::Result<Vec<u8>> {
    read(file, Form::Text)
}

/// A deck as it is.
pub fn read_deck(file: &mut dyn Read) -> io::Result<Vec<u8>> {
    read(file, Form::Binary)
}

fn read_up_to(file: &mut dyn Read, most: usize, bytes: &mut Vec<u8>) -> io::Result<()> {
    let rest = most - bytes.len();
    Read::take(&mut *file, rest as u64).read_to_end(bytes)?;
    Ok(())
}
