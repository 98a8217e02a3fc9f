//! Why a sheet was refused, with the place in the file.
//!
//! The engine's refusal is the verdict. This stands beside it: for a call
//! that the listing shows as refused by 1 to 8 or 21 it names what breaks that
//! limit, and for a deck that stopped, what stands there. Of all else it says
//! nothing.

use crate::course::{most_entries, Course, Placed, Stop};
use crate::listing::Answer;
use crate::text::Lines;
use lavroudem_model::commands::{Decoded, COMMANDS, COUPON, CUT, ELAPSED, HAZARD, POOL, STEP};
use lavroudem_model::deck::MAX_DECK;
use lavroudem_model::refusal::Refusal;
use lavroudem_model::sheet::{B, MAX_ACCRUAL_SUM, MAX_COUPON, MAX_NAMES, MAX_STEPS, MAX_TRANCHES};
use std::fmt;

const ONE: u64 = B as u64;

/// Causes that are told of a refusal, and refusals that are explained.
const MOST_TOLD: usize = 5;

/// A call that was refused, or the stop of a deck, and all its causes.
#[derive(Clone, Debug, PartialEq, Eq)]
pub struct Finding {
    pub offset: usize,
    pub word: &'static str,
    pub refusal: Refusal,
    /// How many calls after it were refused for the same causes.
    pub more_calls: usize,
    pub causes: Vec<Cause>,
}

/// What is at fault, and the offset of the command that entered it.
#[derive(Clone, Debug, PartialEq, Eq)]
pub struct Cause {
    pub offset: usize,
    pub fault: Fault,
}

/// Places in a list are counted from 1.
#[derive(Clone, Debug, PartialEq, Eq)]
pub enum Fault {
    NoPool,
    /// Names, steps or tranches.
    Shape {
        what: &'static str,
        found: u64,
        most: usize,
    },
    Length {
        list: &'static str,
        found: usize,
        asked: usize,
    },
    Recovery(u64),
    Above {
        list: &'static str,
        place: usize,
        number: u64,
        most: u64,
    },
    NotRising {
        place: usize,
        number: u64,
        before: u64,
    },
    NoDiscount {
        step: usize,
    },
    AccrualSum {
        sum: u128,
    },
    LastAccrual {
        step: usize,
    },
    /// The next premium date, and its accrual.
    AboveAccrual {
        place: usize,
        number: u64,
        accrual: u64,
        date: usize,
    },
    Stop(StopFault),
}

/// What stands where a deck stops.
#[derive(Clone, Debug, PartialEq, Eq)]
pub enum StopFault {
    UnknownByte(u8),
    CutCommand {
        word: &'static str,
        found: usize,
        asked: usize,
    },
    SecondPool,
    FullList {
        word: &'static str,
        most: usize,
    },
    LongDeck,
}

impl fmt::Display for Fault {
    fn fmt(&self, out: &mut fmt::Formatter) -> fmt::Result {
        match self {
            Fault::NoPool => write!(out, "no pool comes before this call"),
            Fault::Shape { what, found, most } => {
                write!(out, "{what} is {found}, not 1 to {most}")
            }
            Fault::Length { list, found, asked } => write!(out, "{list}: {found} of {asked}"),
            Fault::Recovery(number) => write!(out, "the recovery is {number}, above {ONE}"),
            Fault::Above {
                list,
                place,
                number,
                most,
            } => write!(out, "{list} {place} is {number}, above {most}"),
            Fault::NotRising {
                place,
                number,
                before,
            } => write!(
                out,
                "cut {place} is {number}, not above the one before, {before}"
            ),
            Fault::NoDiscount { step } => write!(out, "the discount of step {step} is 0"),
            Fault::AccrualSum { sum } => {
                write!(
                    out,
                    "here the accruals reach {sum}, above {MAX_ACCRUAL_SUM}"
                )
            }
            Fault::LastAccrual { step } => {
                write!(out, "the accrual of step {step}, the last, is 0")
            }
            Fault::AboveAccrual {
                place,
                number,
                accrual,
                date,
            } => write!(
                out,
                "elapsed {place} is {number}, above {accrual}, \
                 the accrual of the next premium date, step {date}"
            ),
            Fault::Stop(fault) => fault.fmt(out),
        }
    }
}

impl fmt::Display for StopFault {
    fn fmt(&self, out: &mut fmt::Formatter) -> fmt::Result {
        match self {
            StopFault::UnknownByte(byte) => write!(out, "no command has the byte {byte:02X}"),
            StopFault::CutCommand { word, found, asked } => write!(
                out,
                "the deck ends in `{word}`, after {found} of {asked} bytes"
            ),
            StopFault::SecondPool => write!(out, "a second pool"),
            StopFault::FullList { word, most } => write!(out, "one {word} more than {most}"),
            StopFault::LongDeck => write!(out, "here the deck passes {MAX_DECK} bytes"),
        }
    }
}

/// A figure of the sheet, and the offset of the command that entered it.
type Entry = (usize, u64);

/// The sheet as a deck has entered it so far.
#[derive(Default)]
struct Draft {
    /// Names, steps, tranches and recovery.
    pool: Option<(usize, [u64; 4])>,
    cuts: Vec<Entry>,
    hazards: Vec<Entry>,
    discounts: Vec<Entry>,
    accruals: Vec<Entry>,
    elapsed: Vec<Entry>,
    coupons: Vec<Entry>,
}

impl Draft {
    fn enter(&mut self, offset: usize, read: &Decoded) {
        match (read.command.byte, read.operands()) {
            (POOL, &[names, steps, tranches, recovery, _]) => {
                self.pool = Some((offset, [names, steps, tranches, recovery]));
            }
            (CUT, &[point]) => self.cuts.push((offset, point)),
            (HAZARD, &[chance]) => self.hazards.push((offset, chance)),
            (STEP, &[discount, accrual]) => {
                self.discounts.push((offset, discount));
                self.accruals.push((offset, accrual));
            }
            (ELAPSED, &[fraction]) => self.elapsed.push((offset, fraction)),
            (COUPON, &[rate]) => self.coupons.push((offset, rate)),
            _ => {}
        }
    }

    /// What breaks the limit of a refusal, for a call at this offset.
    fn causes(&self, refusal: Refusal, call: usize) -> Vec<Cause> {
        let Some((offset, [names, steps, tranches, recovery])) = self.pool else {
            let fault = Fault::NoPool;
            return vec![Cause {
                offset: call,
                fault,
            }];
        };
        match refusal {
            Refusal::Pool => shape(offset, names, steps, tranches),
            Refusal::Length => self.lengths(offset, names, steps, tranches),
            Refusal::Recovery if recovery > ONE => vec![Cause {
                offset,
                fault: Fault::Recovery(recovery),
            }],
            Refusal::Attachments => rising(&self.cuts),
            Refusal::Hazard => above("hazard", &self.hazards, ONE),
            Refusal::Discount => discounts(&self.discounts),
            Refusal::Accrual => accruals(&self.accruals),
            Refusal::Elapsed => elapsed(&self.elapsed, &self.accruals),
            Refusal::Coupon => above("coupon", &self.coupons, MAX_COUPON as u64),
            _ => vec![],
        }
    }

    /// The lists that are short, told at the pool that asks for more, or
    /// long, told at the first entry too many. No elapsed fraction at all is
    /// not too few.
    fn lengths(&self, pool: usize, names: u64, steps: u64, tranches: u64) -> Vec<Cause> {
        let fractions = if self.elapsed.is_empty() { 0 } else { steps };
        let lists = [
            ("cuts", &self.cuts, tranches + 1),
            ("hazards", &self.hazards, names),
            ("steps", &self.discounts, steps),
            ("elapsed", &self.elapsed, fractions),
            ("coupons", &self.coupons, tranches + 1),
        ];
        let cause = |(list, entries, asked): (&'static str, &Vec<Entry>, u64)| {
            let (found, asked) = (entries.len(), asked as usize);
            let offset = entries.get(asked).map_or(pool, |&(offset, _)| offset);
            let fault = Fault::Length { list, found, asked };
            (found != asked).then_some(Cause { offset, fault })
        };
        lists.into_iter().filter_map(cause).collect()
    }
}

fn shape(offset: usize, names: u64, steps: u64, tranches: u64) -> Vec<Cause> {
    let figures = [
        ("names", names, MAX_NAMES),
        ("steps", steps, MAX_STEPS),
        ("tranches", tranches, MAX_TRANCHES),
    ];
    let outside = |&(_, found, most): &(&str, u64, usize)| !(1..=most as u64).contains(&found);
    let cause = |(what, found, most)| Cause {
        offset,
        fault: Fault::Shape { what, found, most },
    };
    figures.into_iter().filter(outside).map(cause).collect()
}

fn above(list: &'static str, entries: &[Entry], most: u64) -> Vec<Cause> {
    let too_high = |&(_, &(_, number)): &(usize, &Entry)| number > most;
    let cause = |(place, &(offset, number)): (usize, &Entry)| Cause {
        offset,
        fault: Fault::Above {
            list,
            place: place + 1,
            number,
            most,
        },
    };
    let entries = entries.iter().enumerate();
    entries.filter(too_high).map(cause).collect()
}

fn rising(cuts: &[Entry]) -> Vec<Cause> {
    let falls = |(place, pair): (usize, &[Entry])| {
        let ((_, before), (offset, number)) = (pair[0], pair[1]);
        let fault = Fault::NotRising {
            place: place + 2,
            number,
            before,
        };
        (number <= before).then_some(Cause { offset, fault })
    };
    let falls = cuts.windows(2).enumerate().filter_map(falls);
    above("cut", cuts, ONE).into_iter().chain(falls).collect()
}

fn discounts(entries: &[Entry]) -> Vec<Cause> {
    let is_zero = |&(_, &(_, number)): &(usize, &Entry)| number == 0;
    let cause = |(place, &(offset, _)): (usize, &Entry)| Cause {
        offset,
        fault: Fault::NoDiscount { step: place + 1 },
    };
    let zeros = entries.iter().enumerate().filter(is_zero).map(cause);
    let high = above("the discount of step", entries, ONE).into_iter();
    high.chain(zeros).collect()
}

fn accruals(entries: &[Entry]) -> Vec<Cause> {
    let mut causes = above("the accrual of step", entries, ONE);
    let mut sum = 0;
    for &(offset, number) in entries {
        sum += u128::from(number);
        if sum > MAX_ACCRUAL_SUM {
            let fault = Fault::AccrualSum { sum };
            causes.push(Cause { offset, fault });
            break;
        }
    }
    if let Some(&(offset, 0)) = entries.last() {
        let step = entries.len();
        let fault = Fault::LastAccrual { step };
        causes.push(Cause { offset, fault });
    }
    causes
}

/// The fractions above the accrual of the next premium date, at their step or
/// after it.
fn elapsed(fractions: &[Entry], accruals: &[Entry]) -> Vec<Cause> {
    let mut causes = Vec::new();
    let mut next = None;
    // From the last step, which is a premium date: 7 comes before.
    let steps = fractions.iter().zip(accruals).enumerate();
    for (at, (&(offset, number), &(_, accrual))) in steps.rev() {
        let place = at + 1;
        if accrual != 0 {
            next = Some((place, accrual));
        }
        let above = next.filter(|&(_, accrual)| number > accrual);
        causes.extend(above.map(|(date, accrual)| Cause {
            offset,
            fault: Fault::AboveAccrual {
                place,
                number,
                accrual,
                date,
            },
        }));
    }
    causes.reverse();
    causes
}

/// Those that a sheet meets by its own figures, and a deck can have.
fn is_of_the_sheet(refusal: Refusal) -> bool {
    refusal.number() <= Refusal::Coupon.number() || refusal == Refusal::Elapsed
}

/// What the listing refused by 1 to 8 or 21, and where the deck stopped.
pub fn findings(deck: &[u8], course: &Course, answers: &[Answer]) -> Vec<Finding> {
    let mut findings: Vec<Finding> = Vec::new();
    let mut draft = Draft::default();
    let mut answers = answers.iter();
    // Whether the last finding is of the sheet as it stands.
    let mut same_sheet = false;
    for Placed { offset, read } in &course.commands {
        if read.command.is_entry() {
            draft.enter(*offset, read);
            same_sheet = false;
            continue;
        }
        let Some(&Err(refusal)) = answers.next() else {
            continue;
        };
        if !is_of_the_sheet(refusal) {
            continue;
        }
        match findings.last_mut() {
            Some(last) if same_sheet && last.refusal == refusal => last.more_calls += 1,
            _ => findings.push(Finding {
                offset: *offset,
                word: read.command.word,
                refusal,
                more_calls: 0,
                causes: draft.causes(refusal, *offset),
            }),
        }
        same_sheet = true;
    }
    findings.extend(course.stop.map(|stop| stopped(deck, stop)));
    findings
}

fn stopped(deck: &[u8], stop: Stop) -> Finding {
    let Stop { refusal, offset } = stop;
    let command = COMMANDS
        .iter()
        .find(|command| deck.get(offset) == Some(&command.byte));
    let fault = match (refusal, command) {
        _ if deck.len() > MAX_DECK => StopFault::LongDeck,
        (Refusal::TooMany, Some(command)) if command.byte == POOL => StopFault::SecondPool,
        (Refusal::TooMany, Some(command)) => StopFault::FullList {
            word: command.word,
            most: most_entries(command.byte),
        },
        (_, Some(command)) => StopFault::CutCommand {
            word: command.word,
            found: deck.len() - offset,
            asked: 1 + command.width(),
        },
        (_, None) => StopFault::UnknownByte(deck[offset]),
    };
    Finding {
        offset,
        word: "deck",
        refusal,
        more_calls: 0,
        causes: vec![Cause {
            offset,
            fault: Fault::Stop(fault),
        }],
    }
}

/// The findings as lines, each with the file's name and the place in it: the
/// line of a text, or the byte of a deck that came as it is.
pub fn told(name: &str, lines: &Lines, findings: &[Finding]) -> String {
    let place = |offset: usize| match lines.line_of(offset) {
        Some(line) => format!("{name}: line {line}"),
        None => format!("{name}: byte {offset}"),
    };
    let mut text = String::new();
    // Why the deck stops is always told: it is the last finding.
    let (shown, rest) = findings.split_at(findings.len().min(MOST_TOLD));
    let (stop, rest): (Vec<&Finding>, Vec<&Finding>) =
        rest.iter().partition(|finding| finding.word == "deck");
    for finding in shown.iter().chain(stop) {
        text += &format!("{}: {}\n", place(finding.offset), verdict(finding));
        for cause in finding.causes.iter().take(MOST_TOLD) {
            text += &format!("{}: {}\n", place(cause.offset), cause.fault);
        }
        if finding.causes.len() > MOST_TOLD {
            text += &format!("{name}: and {} more\n", finding.causes.len() - MOST_TOLD);
        }
    }
    match rest.iter().map(|finding| 1 + finding.more_calls).sum() {
        0 => (),
        1 => text += &format!("{name}: and 1 more line with a refusal\n"),
        more => text += &format!("{name}: and {more} more lines with a refusal\n"),
    }
    text
}

/// What the engine said, in a line.
fn verdict(finding: &Finding) -> String {
    let (number, word) = (finding.refusal.number(), finding.refusal.word());
    let subject = match finding.word {
        "deck" => format!("the deck stops at byte {}:", finding.offset),
        call => format!("{call} was"),
    };
    let calls = match finding.more_calls {
        0 => String::new(),
        1 => ", and so was one more call".to_string(),
        more => format!(", and so were {more} more calls"),
    };
    format!("{subject} refused {number} ({word}){calls}")
}
