//! A listing held to its deck, before a line of it is shown.
//!
//! A listing is taken only if it is whole: every line ends in 0A, there is
//! one for each call of the deck, in order and of its word, and a `deck` line
//! stands just where the deck stops. A figure that was cut has lost its line's
//! end, so no cut figure is ever taken.

use crate::course::{Course, Placed, Stop};
use crate::quote;
use crate::text::Mistake;
use lavroudem_model::commands::{Command, BACK, DELTA, FORWARD, VALUE};
use lavroudem_model::refusal::Refusal;

/// The figures of an accepted call, or why it was refused.
pub type Answer = Result<Vec<i128>, Refusal>;

/// The word of the line that tells where a deck stops.
const DECK: &str = "deck";

/// The answers to the calls of a deck, in their order. The mistake is one of
/// the listing.
pub fn read(course: &Course, listing: &[u8]) -> Result<Vec<Answer>, Mistake> {
    let mut lines = Lines {
        rest: listing,
        number: 0,
    };
    let mut answers = Vec::new();
    for placed in calls(course) {
        answers.push(lines.next(|line| answer(placed, line))?);
    }
    if let Some(stop) = course.stop {
        lines.next(|line| stops(stop, line))?;
    }
    match lines.rest {
        [] => Ok(answers),
        _ => lines.next(|line| Err(strange(line))),
    }
}

/// The commands that print a line.
pub fn calls(course: &Course) -> impl Iterator<Item = &Placed> {
    let is_call = |placed: &&Placed| !placed.read.command.is_entry();
    course.commands.iter().filter(is_call)
}

struct Lines<'a> {
    rest: &'a [u8],
    /// That of the last line read.
    number: usize,
}

impl Lines<'_> {
    /// What the next line says, by a reader of lines without their end.
    fn next<T>(&mut self, read: impl FnOnce(&str) -> Result<T, String>) -> Result<T, Mistake> {
        self.number += 1;
        let said = self.take().and_then(|line| read(&line));
        said.map_err(|reason| Mistake {
            line: self.number,
            reason,
        })
    }

    fn take(&mut self) -> Result<String, String> {
        if self.rest.is_empty() {
            return Err("the listing ends before its deck".to_string());
        }
        let end = self.rest.iter().position(|&byte| byte == b'\n');
        let end = end.ok_or("the last line has no end: the listing was cut short")?;
        let line = String::from_utf8_lossy(&self.rest[..end]).into_owned();
        self.rest = &self.rest[end + 1..];
        Ok(line)
    }
}

/// The answer that a line gives to a call.
fn answer(placed: &Placed, line: &str) -> Result<Answer, String> {
    let command = placed.read.command;
    let (word, numbers) = fields(line)?;
    if word != command.word {
        return Err(strange(line));
    }
    match numbers[..] {
        [0, ref figures @ ..] if figures.len() == figure_count(command) => Ok(Ok(figures.to_vec())),
        [0, ..] => Err(format!("these are not the figures of `{word}`")),
        [number] => refusal(number).map(Err),
        _ => Err(no_line(line)),
    }
}

/// Whether a line tells the stop of the deck.
fn stops(stop: Stop, line: &str) -> Result<(), String> {
    let (word, numbers) = fields(line)?;
    match numbers[..] {
        _ if word != DECK => Err(strange(line)),
        [number, offset] => {
            let Stop {
                refusal,
                offset: at,
            } = stop;
            if (number, offset) == (i128::from(refusal.number()), at as i128) {
                return Ok(());
            }
            let number = refusal.number();
            Err(format!("`{line}`, but the deck stops by {number} at {at}"))
        }
        _ => Err(format!("`{DECK}` comes with a refusal and an offset")),
    }
}

/// How many figures the answer to an accepted call has.
fn figure_count(command: &Command) -> usize {
    match command.byte {
        VALUE => 3,
        BACK | DELTA | FORWARD => 1,
        _ => 0,
    }
}

/// The word of a line and its numbers, each behind one space.
fn fields(line: &str) -> Result<(&str, Vec<i128>), String> {
    let mut fields = line.split(' ');
    let word = fields.next().unwrap_or_default();
    let numbers: Option<Vec<i128>> = fields.map(number).collect();
    match numbers {
        Some(numbers) if !numbers.is_empty() => Ok((word, numbers)),
        _ => Err(no_line(line)),
    }
}

/// A number as the engine writes it, and no other way. All of its figures fit
/// 64 bits.
fn number(field: &str) -> Option<i128> {
    let number: i64 = field.parse().ok()?;
    (number.to_string() == field).then_some(i128::from(number))
}

/// Those of a deck's calls; 18 to 20 stop the deck, its one period is never at
/// fault, its coupons are not packed, and it has no book and no turn table.
fn refusal(number: i128) -> Result<Refusal, String> {
    let known = Refusal::ALL
        .into_iter()
        .filter(|refusal| !refusal.stops_a_deck())
        .filter(|refusal| {
            !matches!(
                refusal,
                Refusal::Periods | Refusal::Book | Refusal::Turns | Refusal::Digit
            )
        })
        .find(|refusal| i128::from(refusal.number()) == number);
    known.ok_or_else(|| format!("no call of a deck is refused {number}"))
}

fn no_line(line: &str) -> String {
    format!("`{}` is no line of a listing", quote::word(line))
}

fn strange(line: &str) -> String {
    let line = quote::word(line);
    format!("`{line}` does not belong to the deck's call")
}
