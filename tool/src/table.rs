//! A deck and its listing as a table for people.
//!
//! Every figure comes from the listing; the deck only tells what was asked:
//! which tranche, count and step, and between which attachment points a
//! tranche lies. The position is that of the last accepted open or back.
//!
//! Decimals are exact, but for the net value in basis points of its tranche:
//! a quotient, rounded to the nearest thousandth, a half away from zero.

use crate::course::{course, Course, Placed, Stop};
use crate::listing::{self, Answer};
use crate::text::Mistake;
use lavroudem_model::commands::{
    Decoded, BACK, CUT, DELTA, FORWARD, ISSUE, OPEN, POOL, VALUE, WITHDRAW,
};
use lavroudem_model::refusal::Refusal;
use lavroudem_model::sheet::B;

const NOTE: &str = "\
The legs are in per cent of the pool, the premium leg times years: the worth of a coupon of 1 a year.
The net value, default leg less coupon times premium leg, is in basis points of the tranche (index: of
the pool). The hedge ratio is the index on the whole pool that hedges the whole tranche against the
next default. The step is where the walk stands; a forward line has its own, and the chance of the
count there.

";

/// Heading and unit of each column.
const HEADINGS: [[&str; COLUMNS]; 2] = [
    [
        "call",
        "tranche",
        "count",
        "step",
        "default leg",
        "premium leg",
        "net value",
        "hedge ratio",
        "chance",
    ],
    [
        "",
        "",
        "",
        "",
        "% of pool",
        "% of pool x years",
        "bp of tranche",
        "",
        "%",
    ],
];

const COLUMNS: usize = 9;

/// These columns say what was asked; the others hold figures.
const ASKED: usize = 4;

/// The first columns hold words, which stand at the left.
const WORDS: usize = 2;

/// Units of a billionth of the pool have these decimals in per cent.
const PERCENT_PLACES: usize = 7;

/// Decimals of a hedge ratio, which is told in millionths.
const RATIO_PLACES: usize = 6;

/// Decimals of basis points, as those of a coupon.
const BASIS_POINT_PLACES: usize = 3;

type Asked = [String; ASKED];
type Figures = [String; COLUMNS - ASKED];

struct Row {
    asked: Asked,
    /// The figures, or the refusal in words.
    answer: Result<Figures, String>,
}

/// The table of a deck by the listing that it printed. A row for each value,
/// delta and forward line, and for each refusal. The mistake is one of the
/// listing: it is not that of the deck.
pub fn table(deck: &[u8], listing: &str) -> Result<String, Mistake> {
    let course = course(deck);
    let answers = listing::read(&course, listing.as_bytes())?;
    of_answers(&course, answers)
}

/// The same of a listing that was read.
pub fn of_answers(course: &Course, answers: Vec<Answer>) -> Result<String, Mistake> {
    if course.commands.is_empty() && course.stop.is_none() {
        return Ok(String::new());
    }
    let mut run = Run::default();
    let mut rows = Vec::new();
    let mut answers = answers.into_iter();
    let mut line = 0;
    for Placed { read, .. } in &course.commands {
        if read.command.is_entry() {
            run.enter(read);
            continue;
        }
        line += 1;
        let row = match answers.next() {
            Some(Ok(figures)) => run.accepted(read, &figures),
            Some(Err(refusal)) => Ok(Some(run.refused(read, refusal))),
            None => Err("the listing ends before its deck".to_string()),
        };
        rows.extend(row.map_err(|reason| Mistake { line, reason })?);
    }
    rows.extend(course.stop.map(deck_row));
    Ok(NOTE.to_string() + &aligned(&rows))
}

/// The last row: the deck is read no further.
fn deck_row(Stop { refusal, offset }: Stop) -> Row {
    Row {
        asked: [cell("deck"), cell(""), cell(""), cell("")],
        answer: Err(format!("{}, at byte {offset}", in_words(refusal))),
    }
}

/// What deck and listing have told up to a line.
#[derive(Default)]
struct Run {
    /// m and r of the pool; 0 without one.
    steps: u64,
    tranches: u64,
    attachments: Vec<u64>,
    position: Option<i128>,
}

impl Run {
    /// A command that adds to the sheet.
    fn enter(&mut self, read: &Decoded) {
        match (read.command.byte, read.operands()) {
            (POOL, &[_, steps, tranches, _, _]) => {
                self.steps = steps;
                self.tranches = tranches;
            }
            (CUT, &[point]) => self.attachments.push(point),
            _ => {}
        }
    }

    fn refused(&self, call: &Decoded, refusal: Refusal) -> Row {
        Row {
            asked: self.asked(call),
            answer: Err(in_words(refusal)),
        }
    }

    /// Only a line with figures to show has a row; the others may move the
    /// walk.
    fn accepted(&mut self, call: &Decoded, figures: &[i128]) -> Result<Option<Row>, String> {
        match (call.command.byte, figures) {
            (ISSUE | WITHDRAW, []) => return Ok(None),
            (OPEN, []) => {
                self.position = Some(i128::from(self.steps));
                return Ok(None);
            }
            (BACK, &[position]) => {
                self.position = Some(position);
                return Ok(None);
            }
            _ => {}
        }
        Ok(Some(Row {
            asked: self.asked(call),
            answer: Ok(self.figures(call, figures)?),
        }))
    }

    fn figures(&self, call: &Decoded, figures: &[i128]) -> Result<Figures, String> {
        let empty = || cell("");
        match (call.command.byte, figures) {
            (VALUE, &[default, premium, net]) => {
                let width = self.width(call.operands()[0])?;
                let points = decimal(nearest(net, width), BASIS_POINT_PLACES);
                Ok([percent(default), percent(premium), points, empty(), empty()])
            }
            (DELTA, &[ratio]) => {
                let ratio = decimal(ratio, RATIO_PLACES);
                Ok([empty(), empty(), empty(), ratio, empty()])
            }
            (FORWARD, &[chance]) => {
                let chance = percent(chance);
                Ok([empty(), empty(), empty(), empty(), chance])
            }
            _ => {
                let word = call.command.word;
                Err(format!("these are not the figures of `{word}`"))
            }
        }
    }

    fn asked(&self, call: &Decoded) -> Asked {
        let position = self.position.map_or(cell("-"), |p| p.to_string());
        let word = call.command.word.to_string();
        match (call.command.byte, call.operands()) {
            (VALUE | DELTA, &[tranche, count]) => {
                [word, self.tranche(tranche), count.to_string(), position]
            }
            (FORWARD, &[step, count]) => [word, cell(""), count.to_string(), step.to_string()],
            (_, &[operand]) => [format!("{word} {operand}"), cell(""), cell(""), position],
            _ => [word, cell(""), cell(""), position],
        }
    }

    /// The lower and the upper attachment point, if the deck has them.
    fn points(&self, tranche: u64) -> Option<(u64, u64)> {
        let lower = usize::try_from(tranche).ok()?;
        match self.attachments.get(lower..lower + 2) {
            Some(&[lower, upper]) if tranche < self.tranches => Some((lower, upper)),
            _ => None,
        }
    }

    fn is_index(&self, tranche: u64) -> bool {
        self.tranches > 0 && tranche == self.tranches
    }

    fn tranche(&self, tranche: u64) -> String {
        match self.points(tranche) {
            _ if self.is_index(tranche) => cell("index"),
            Some((lower, upper)) => format!("{}-{} %", short_percent(lower), short_percent(upper)),
            None => format!("no. {tranche}"),
        }
    }

    /// What the net value is told in basis points of.
    fn width(&self, tranche: u64) -> Result<i128, String> {
        match self.points(tranche) {
            _ if self.is_index(tranche) => Ok(B as i128),
            Some((lower, upper)) if lower < upper => Ok(i128::from(upper - lower)),
            _ => Err(format!("a value, but the deck has no tranche {tranche}")),
        }
    }
}

fn cell(text: &str) -> String {
    text.to_string()
}

// ---- refusals

fn in_words(refusal: Refusal) -> String {
    let (number, word) = (refusal.number(), refusal.word());
    format!("refused {number}: {word} ({})", explanation(refusal))
}

/// What is wrong, from the side of one who wrote the deck.
fn explanation(refusal: Refusal) -> &'static str {
    match refusal {
        Refusal::Pool => "names 1 to 125, steps 1 to 3650, tranches 1 to 8",
        Refusal::Length => {
            "too few or too many cuts, hazards, steps, elapsed or coupons for the pool"
        }
        Refusal::Recovery => "the recovery is above 1000000000",
        Refusal::Attachments => "the cuts do not rise, or one is above 1000000000",
        Refusal::Hazard => "a hazard is above 1000000000",
        Refusal::Discount => "a discount is 0 or above 1000000000",
        Refusal::Accrual => "an accrual or their sum is too high, or the last is 0",
        Refusal::Coupon => "a coupon is above 10000000",
        Refusal::Withdrawn => "the sheet number was withdrawn, for good",
        Refusal::Unissued => "the sheet number was never issued",
        Refusal::NoWalk => "no walk is open for this sheet",
        Refusal::OverCeiling => "a row has an entry that no walk can have left",
        Refusal::OutOfSteps => "more steps than there are",
        Refusal::OffTree => "no such tranche or count; a delta needs a name left to default",
        Refusal::FlatHedge => "the next default does not move the index",
        Refusal::OffScale => "the ratio would be a million or more",
        Refusal::Live => "the sheet number is in use already",
        Refusal::Unknown => "no command has this byte; the deck is read no further",
        Refusal::CutShort => "the deck ends within a command",
        Refusal::TooMany => "a second pool, a list too long, or a deck above 65536 bytes",
        Refusal::Elapsed => "an elapsed fraction is above the accrual of the next premium date",
        Refusal::Periods => "not met by a deck, whose one period starts at step 1",
        Refusal::Book => "not met by a deck, which has no book",
        Refusal::Turns => "not met by a deck, which has no turn table",
        Refusal::Digit => "not met by a deck, whose coupons are not packed",
    }
}

// ---- numbers as text

/// So many units of a billionth, in per cent of the whole.
fn percent(units: i128) -> String {
    decimal(units, PERCENT_PLACES)
}

/// The same without zeros at its end.
fn short_percent(units: u64) -> String {
    let full = percent(i128::from(units));
    full.trim_end_matches('0').trim_end_matches('.').to_string()
}

/// A number of the smallest decimal, with so many decimals.
pub fn decimal(number: i128, places: usize) -> String {
    let sign = if number < 0 { "-" } else { "" };
    let one = 10_u128.pow(places as u32);
    let (whole, part) = (number.unsigned_abs() / one, number.unsigned_abs() % one);
    format!("{sign}{whole}.{part:0places$}")
}

/// The whole number nearest to a quotient by a positive divisor, a half away
/// from zero.
pub fn nearest(number: i128, divisor: i128) -> i128 {
    let size = (2 * number.abs() + divisor) / (2 * divisor);
    size * number.signum()
}

// ---- layout

fn aligned(rows: &[Row]) -> String {
    let headings = HEADINGS.iter().map(|heading| (heading.to_vec(), ""));
    let rows = rows.iter().map(|row| match &row.answer {
        Ok(figures) => (row.cells(figures), ""),
        Err(refused) => (row.cells(&[]), &refused[..]),
    });
    let lines: Vec<Line> = headings.chain(rows).collect();
    laid_out(&lines, WORDS)
}

impl Row {
    fn cells<'a>(&'a self, figures: &'a [String]) -> Vec<&'a str> {
        self.asked
            .iter()
            .chain(figures)
            .map(|text| &text[..])
            .collect()
    }
}

/// The first cells of a line, and what lies across the columns after them.
pub(crate) type Line<'a> = (Vec<&'a str>, &'a str);

/// Lines in columns, of which the first so many stand at the left.
pub(crate) fn laid_out(lines: &[Line], words: usize) -> String {
    let widths = widths(lines);
    let line = |(cells, across): &Line| {
        let places = cells.iter().zip(&widths).enumerate();
        let padded = places.map(|(column, (text, &width))| {
            if column < words {
                format!("{text:<width$}  ")
            } else {
                format!("{text:>width$}  ")
            }
        });
        let text = padded.collect::<String>() + across;
        text.trim_end().to_string() + "\n"
    };
    lines.iter().map(line).collect()
}

/// The longest text of each column.
fn widths(lines: &[Line]) -> Vec<usize> {
    let columns = lines.iter().map(|(cells, _)| cells.len()).max();
    let mut widths = vec![0; columns.unwrap_or(0)];
    for (cells, _) in lines {
        for (width, text) in widths.iter_mut().zip(cells) {
            *width = text.len().max(*width);
        }
    }
    widths
}
