//! The totals of a book as numbers.

use crate::archive::book;
use crate::refusal::Refusal;
use crate::BOOK_LENGTH;

/// What the positions of a book are worth, in ten-millionths of a unit. Each
/// total is exact.
#[derive(Clone, Copy, Debug, PartialEq, Eq, Hash)]
pub struct BookTotals {
    /// Of all positions: gains and losses together.
    pub total: i128,
    /// Of those that are worth more than 0.
    pub gains: i128,
    /// Of those that are worth less; 0 or below.
    pub losses: i128,
}

/// Adds up a book, as [`book`] does, and gives its totals. Refusal 28.
///
/// ```
/// use lavroudem::{book_totals, BookTotals, Refusal};
///
/// let totals = book_totals(&[1_000_000, -2], &[100_000_000_000_000_000, 7])?;
/// let expected = BookTotals {
///     total: 99_999_999_999_999_999_999_986,
///     gains: 100_000_000_000_000_000_000_000,
///     losses: -14,
/// };
/// assert_eq!(totals, expected);
/// assert_eq!(book_totals(&[1, 2], &[3]), Err(Refusal::Book));
/// # Ok::<(), Refusal>(())
/// ```
pub fn book_totals(nominals: &[i64], values: &[i64]) -> Result<BookTotals, Refusal> {
    let mut out = [0; BOOK_LENGTH];
    let length = book(nominals, values, &mut out)?;
    Ok(read(&out[..length]).expect("a line of the engine"))
}

/// The totals that have this line; no other line is read.
fn read(line: &[u8]) -> Option<BookTotals> {
    let text = str::from_utf8(line).ok()?;
    let mut words = text.strip_prefix("book 0 ")?.split_whitespace();
    let mut number = || words.next()?.parse().ok();
    let totals = BookTotals {
        total: number()?,
        gains: number()?,
        losses: number()?,
    };
    (text == shown(totals)).then_some(totals)
}

fn shown(totals: BookTotals) -> String {
    let BookTotals {
        total,
        gains,
        losses,
    } = totals;
    format!("book 0 {total} {gains} {losses}\n")
}

#[cfg(test)]
mod tests {
    use super::*;

    #[test]
    fn lines_are_read() {
        let least = BookTotals {
            total: 0,
            gains: 0,
            losses: 0,
        };
        assert_eq!(read(b"book 0 0 0 0\n"), Some(least));
        let wide = BookTotals {
            total: -819_200_000_000_000_000_000_000_000,
            gains: 0,
            losses: -819_200_000_000_000_000_000_000_000,
        };
        let line = b"book 0 -819200000000000000000000000 0 -819200000000000000000000000\n";
        assert_eq!(read(line), Some(wide));
    }

    /// What is nearly a line is none.
    #[test]
    fn other_bytes_are_not_read() {
        let others: [&[u8]; 14] = [
            b"",
            b"book 28\n",
            b"book 0 1 2 -1",
            b"book 0 1 2 -1\n\n",
            b"book 0 1 2 -1\n\0",
            b"book 0 1 2\n",
            b"book 0 1 2 -1 0\n",
            b"book 0 1  2 -1\n",
            b"book 0 +1 2 -1\n",
            b"book 0 1 02 -1\n",
            b"book 0 0 0 -0\n",
            b"book 0 1 2 x\n",
            b"Book 0 1 2 -1\n",
            b"book 0 1 2 \xFF1\n",
        ];
        for line in others {
            assert_eq!(read(line), None, "{}", line.escape_ascii());
        }
        assert!(read(b"book 0 1 2 -1\n").is_some());
    }
}
