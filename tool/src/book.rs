//! A book of positions as text, and the engine's line of it.
//!
//! A position is a line of two whole numbers, its nominal in pools and its W.
//! Comments, empty lines and all else are as in a deck's text. What the engine
//! would refuse by 28 is a mistake of the text, told by its line.
//!
//! The engine adds: here its line is only read. A line is taken only if it is
//! whole, its gains and losses add to its total, and so many positions can
//! have made them.

use crate::form::plain_text;
use crate::quote;
use crate::table::{decimal, laid_out, Line};
use crate::text::{is_digits, within_length, words_of, Mistake};
use lavroudem_model::refusal::Refusal;

pub const MAX_POSITIONS: usize = 4_096;

/// In pools, of either sign.
pub const MAX_NOMINAL: i64 = 1_000_000;

/// The largest W, of either sign.
pub const MAX_VALUE: i64 = 200_000_000_000_000_000;

/// The bytes that the engine is lent for its line.
pub const ROOM: usize = 96;

/// What an accepted book's line starts with.
const ACCEPTED: &str = "book 0 ";

/// W is in ten-millionths of a unit.
const UNIT_PLACES: usize = 7;

const NOTE: &str = "\
Nominal times W, added over all positions: the total, and of it the positions with a gain and those
with a loss. Exact, in units: a unit is a billionth of the pool.

";

/// Positions in their order: the nominal and the W of each.
#[derive(Clone, Debug, Default, PartialEq, Eq)]
pub struct Book {
    pub nominals: Vec<i64>,
    pub values: Vec<i64>,
}

impl Book {
    /// For a file that a later command reads.
    pub fn to_text(&self) -> String {
        let positions = self.nominals.iter().zip(&self.values);
        let line = |(nominal, value): (&i64, &i64)| format!("{nominal} {value}\n");
        positions.map(line).collect()
    }
}

// ---- the text

/// The book that a text holds; the first mistake is named.
pub fn read(bytes: &[u8]) -> Result<Book, Mistake> {
    within_length(bytes)?;
    let mut book = Book::default();
    for (place, line) in plain_text(bytes)?.lines().enumerate() {
        let mistake = |reason| Mistake {
            line: place + 1,
            reason,
        };
        let Some((nominal, value)) = position(line).map_err(mistake)? else {
            continue;
        };
        if book.nominals.len() == MAX_POSITIONS {
            return Err(mistake(one_too_many()));
        }
        book.nominals.push(nominal);
        book.values.push(value);
    }
    Ok(book)
}

/// The position of a line, if it has one.
fn position(line: &str) -> Result<Option<(i64, i64)>, String> {
    match words_of(line)?[..] {
        [] => Ok(None),
        [nominal, value] => {
            let nominal = number("nominal", MAX_NOMINAL, nominal)?;
            let value = number("W", MAX_VALUE, value)?;
            Ok(Some((nominal, value)))
        }
        ref words => {
            let found = words.len();
            Err(format!("write `nominal W`; columns found: {found}"))
        }
    }
}

/// A whole number, at most so far from 0.
fn number(name: &str, most: i64, word: &str) -> Result<i64, String> {
    let shown = quote::word(word);
    let digits = word.strip_prefix('-').unwrap_or(word);
    if digits.is_empty() || !is_digits(digits) {
        return Err(format!("{name} `{shown}` is not a whole number"));
    }
    // The engine has no such number to refuse.
    let Ok(number) = word.parse::<i64>() else {
        return Err(format!(
            "{name} {shown} does not fit 64 bits; it is from -{most} to {most}"
        ));
    };
    let side = match number {
        _ if number > most => format!("above {most}"),
        _ if number < -most => format!("below -{most}"),
        _ => return Ok(number),
    };
    Err(format!("{name} {shown} is {}: {side}", refused()))
}

fn one_too_many() -> String {
    let place = MAX_POSITIONS + 1;
    format!(
        "position {place} is {}: at most {MAX_POSITIONS} in a book",
        refused()
    )
}

fn refused() -> String {
    let (number, word) = (Refusal::Book.number(), Refusal::Book.word());
    format!("refused {number} ({word})")
}

// ---- the engine's line

/// The figures of a line, in its order.
#[derive(Clone, Copy, Debug, PartialEq, Eq)]
pub struct Totals {
    pub total: i128,
    pub gains: i128,
    pub losses: i128,
}

/// The line that a call gives, which is lent [`ROOM`] bytes and tells the
/// length or its refusal in words. The text has no mistake here, so a refusal
/// is a fault.
pub fn line_by(call: impl FnOnce(&mut [u8]) -> Result<usize, String>) -> Result<Vec<u8>, String> {
    let mut room = [0; ROOM];
    let length =
        call(&mut room).map_err(|refusal| format!("the engine refuses this book: {refusal}"))?;
    let line = room.get(..length);
    let line = line.ok_or_else(|| format!("the engine tells a line of {length} bytes"))?;
    Ok(line.to_vec())
}

/// The totals of a line, if it can be that of so many positions.
pub fn totals(line: &[u8], positions: usize) -> Result<Totals, String> {
    let text = String::from_utf8_lossy(line);
    let shown = quote::word(&text);
    let not_whole = || format!("`{shown}` is not the line of a book");
    let figures = text.strip_prefix(ACCEPTED).ok_or_else(not_whole)?;
    let figures = figures.strip_suffix('\n').ok_or_else(not_whole)?;
    let figures: Option<Vec<i128>> = figures.split(' ').map(figure).collect();
    let Some([total, gains, losses]) = figures.as_deref() else {
        return Err(not_whole());
    };
    let totals = Totals {
        total: *total,
        gains: *gains,
        losses: *losses,
    };
    totals.hold(positions)?;
    Ok(totals)
}

/// A number as the engine writes it, and no other way.
fn figure(field: &str) -> Option<i128> {
    let number: i128 = field.parse().ok()?;
    (number.to_string() == field).then_some(number)
}

impl Totals {
    /// Whether these can be the figures of so many positions.
    fn hold(&self, positions: usize) -> Result<(), String> {
        let Totals {
            total,
            gains,
            losses,
        } = *self;
        let most = positions as i128 * i128::from(MAX_NOMINAL) * i128::from(MAX_VALUE);
        if gains < 0 || losses > 0 {
            return Err(format!("gains {gains} and losses {losses}: a wrong sign"));
        }
        // Neither sum can overflow where each figure is within its limit.
        if gains > most || losses < -most || gains - losses > most {
            return Err(format!(
                "gains {gains} and losses {losses} are beyond {positions} positions"
            ));
        }
        if gains + losses != total {
            return Err(format!(
                "gains {gains} and losses {losses} do not add to the total {total}"
            ));
        }
        Ok(())
    }

    /// For people.
    pub fn table(&self, positions: usize) -> String {
        let heading = match positions {
            1 => "1 position".to_string(),
            _ => format!("{positions} positions"),
        };
        let figures = [self.total, self.gains, self.losses];
        let [total, gains, losses] = figures.map(|figure| decimal(figure, UNIT_PLACES));
        let lines: [Line; 5] = [
            (vec!["book", &heading], ""),
            (vec!["", "units"], ""),
            (vec!["total", &total], ""),
            (vec!["gains", &gains], ""),
            (vec!["losses", &losses], ""),
        ];
        NOTE.to_string() + &laid_out(&lines, 1)
    }
}
