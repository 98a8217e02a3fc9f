//! A deck command by command, and where it stops.

use lavroudem_model::commands::{decode, Decoded, COUPON, CUT, ELAPSED, HAZARD, POOL, STEP};
use lavroudem_model::deck::MAX_DECK;
use lavroudem_model::refusal::{refuse_if, Refusal};
use lavroudem_model::sheet::{MAX_NAMES, MAX_STEPS, MAX_TRANCHES};

/// A command and the offset of its byte.
pub struct Placed {
    pub offset: usize,
    pub read: Decoded,
}

/// Where a deck is read no further, and why: 18, 19 or 20.
#[derive(Clone, Copy, Debug, PartialEq, Eq)]
pub struct Stop {
    pub refusal: Refusal,
    pub offset: usize,
}

/// The commands up to the stop, which a whole deck has not.
pub struct Course {
    pub commands: Vec<Placed>,
    pub stop: Option<Stop>,
}

/// The most entries of a kind that a deck may have.
pub fn most_entries(command: u8) -> usize {
    match command {
        POOL => 1,
        CUT | COUPON => MAX_TRANCHES + 1,
        HAZARD => MAX_NAMES,
        STEP | ELAPSED => MAX_STEPS,
        _ => usize::MAX,
    }
}

/// Follows a deck by the checks 18 to 20.
pub fn course(deck: &[u8]) -> Course {
    let mut course = Course {
        commands: Vec::new(),
        stop: None,
    };
    // By the command's byte.
    let mut entered = [0; 256];
    let mut offset = 0;
    // The commands of an oversized deck are not run.
    if deck.len() > MAX_DECK {
        course.stop = Some(Stop {
            refusal: Refusal::TooMany,
            offset: MAX_DECK,
        });
        return course;
    }
    while offset < deck.len() {
        match next(&deck[offset..], &mut entered) {
            Ok(read) => {
                let length = read.length;
                course.commands.push(Placed { offset, read });
                offset += length;
            }
            Err(refusal) => {
                course.stop = Some(Stop { refusal, offset });
                break;
            }
        }
    }
    course
}

/// The command at the front, counted among the entries of its kind.
fn next(deck: &[u8], entered: &mut [usize]) -> Result<Decoded, Refusal> {
    let read = decode(deck)?;
    if read.command.is_entry() {
        let count = &mut entered[usize::from(read.command.byte)];
        refuse_if(*count == most_entries(read.command.byte), Refusal::TooMany)?;
        *count += 1;
    }
    Ok(read)
}
