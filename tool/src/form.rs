//! Text told from a deck, and what is nearly text.

use crate::course::course;
use crate::text::{is_command, Mistake};
use lavroudem_model::deck::MAX_DECK;
use lavroudem_model::refusal::Refusal;

/// How the bytes of a file are taken.
#[derive(Clone, Copy, Debug, PartialEq, Eq)]
pub enum Form {
    Text,
    Binary,
    /// Text if they look like it.
    Either,
}

/// Some editors put it in front of a text.
const BYTE_ORDER_MARK: &[u8] = b"\xEF\xBB\xBF";

/// Those of other encodings. The first starts with the third.
const OTHER_MARKS: [(&[u8], &str); 4] = [
    (b"\xFF\xFE\0\0", UTF_32),
    (b"\0\0\xFE\xFF", UTF_32),
    (b"\xFF\xFE", UTF_16),
    (b"\xFE\xFF", UTF_16),
];

const UTF_16: &str = "UTF-16";
const UTF_32: &str = "UTF-32";

/// The text without a byte order mark.
pub fn without_mark(bytes: &[u8]) -> &[u8] {
    bytes.strip_prefix(BYTE_ORDER_MARK).unwrap_or(bytes)
}

/// Valid UTF-8, without control characters other than those of lines and
/// tabs. A deck with a sheet in it has a byte 01, so it never looks so.
pub fn looks_like_text(bytes: &[u8]) -> bool {
    std::str::from_utf8(bytes).is_ok_and(is_plain)
}

/// The same of the start of a longer text, which may end within a character.
pub fn starts_like_text(bytes: &[u8]) -> bool {
    match std::str::from_utf8(bytes) {
        Ok(text) => is_plain(text),
        Err(fault) => {
            let valid = std::str::from_utf8(&bytes[..fault.valid_up_to()]);
            fault.error_len().is_none() && valid.is_ok_and(is_plain)
        }
    }
}

fn is_plain(text: &str) -> bool {
    text.chars().all(|c| !is_odd(c))
}

fn is_odd(c: char) -> bool {
    c.is_control() && !matches!(c, '\t' | '\n' | '\r')
}

/// The characters of a text, or where they are no UTF-8.
pub fn as_text(bytes: &[u8]) -> Result<&str, Mistake> {
    let text = without_mark(bytes);
    let fault = match std::str::from_utf8(text) {
        Ok(text) => return Ok(text),
        Err(fault) => fault,
    };
    if let Some(mistake) = other_encoding(bytes) {
        return Err(mistake);
    }
    let place = bytes.len() - text.len() + fault.valid_up_to();
    Err(odd_byte(bytes, place, "which is not UTF-8"))
}

/// The characters of what can be nothing but text. A control character in it
/// is a mistake.
pub fn plain_text(bytes: &[u8]) -> Result<&str, Mistake> {
    let text = as_text(bytes)?;
    if is_plain(text) {
        return Ok(text);
    }
    let oddity = other_encoding(bytes).or_else(|| first_oddity(bytes));
    oddity.map_or(Ok(text), Err)
}

/// What keeps a file from being text that was clearly meant to be. Such a
/// file is no deck either: a deck stops at an unknown byte or a cut command
/// where words stand. So nothing that the engine runs to its end is held up.
pub fn nearly_text(bytes: &[u8]) -> Option<Mistake> {
    if let Some(mistake) = other_encoding(bytes) {
        return Some(mistake);
    }
    let stop = course(&bytes[..bytes.len().min(MAX_DECK)]).stop?;
    if stop.refusal == Refusal::TooMany || !has_words(bytes) {
        return None;
    }
    first_oddity(bytes)
}

fn first_oddity(bytes: &[u8]) -> Option<Mistake> {
    let valid = match std::str::from_utf8(bytes) {
        Ok(text) => text,
        Err(fault) => std::str::from_utf8(&bytes[..fault.valid_up_to()]).unwrap_or_default(),
    };
    match valid.char_indices().find(|&(_, c)| is_odd(c)) {
        Some((place, _)) => Some(odd_byte(bytes, place, "a control character")),
        None if valid.len() == bytes.len() => None,
        None => Some(odd_byte(bytes, valid.len(), "which is not UTF-8")),
    }
}

/// A comment at the start, or a line that starts with a command's word.
fn has_words(bytes: &[u8]) -> bool {
    let is_word = |line: &[u8]| {
        let line = line.trim_ascii_start();
        let end = line.iter().position(|byte| !byte.is_ascii_lowercase());
        let word = std::str::from_utf8(&line[..end.unwrap_or(line.len())]);
        word.is_ok_and(is_command)
    };
    let text = without_mark(bytes);
    text.starts_with(b"#") || text.split(|&byte| byte == b'\n').any(is_word)
}

/// Told by its mark, or by words in every other byte and zeros between.
fn other_encoding(bytes: &[u8]) -> Option<Mistake> {
    let marked = OTHER_MARKS.iter().find(|(mark, _)| bytes.starts_with(mark));
    let name = match marked {
        Some(&(_, name)) => name,
        None if is_utf_16(bytes) => UTF_16,
        None => return None,
    };
    Some(Mistake {
        line: 1,
        reason: format!("this is {name}; a text is UTF-8"),
    })
}

fn is_utf_16(bytes: &[u8]) -> bool {
    [0, 1].into_iter().any(|first| {
        let every_other = |from: usize| bytes.iter().copied().skip(from).step_by(2);
        let words: Vec<u8> = every_other(first).collect();
        every_other(1 - first).all(|byte| byte == 0) && has_words(&words)
    })
}

/// Tells a byte by its line and its place there, counted from 1.
fn odd_byte(bytes: &[u8], place: usize, why: &str) -> Mistake {
    let before = &bytes[..place];
    let start = before.iter().rposition(|&byte| byte == b'\n');
    let column = place - start.map_or(0, |end| end + 1) + 1;
    let byte = bytes[place];
    Mistake {
        line: 1 + before.iter().filter(|&&byte| byte == b'\n').count(),
        reason: format!("byte {column} of the line is {byte:02X}, {why}, so this is no text"),
    }
}
