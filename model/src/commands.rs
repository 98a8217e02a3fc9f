//! The commands of a deck: byte, word and operands (document 01, "Deck and
//! printing program", and T-01). One table serves the run of a deck and, in
//! the crate of the tool, its text form and the table for people.

use crate::refusal::{refuse_if, Refusal};

pub const POOL: u8 = 0x01;
/// An attachment point.
pub const CUT: u8 = 0x02;
pub const HAZARD: u8 = 0x03;
pub const STEP: u8 = 0x04;
pub const COUPON: u8 = 0x05;
pub const ISSUE: u8 = 0x06;
pub const WITHDRAW: u8 = 0x07;
pub const OPEN: u8 = 0x08;
pub const BACK: u8 = 0x09;
pub const VALUE: u8 = 0x0A;
/// The hedge ratio.
pub const DELTA: u8 = 0x0B;
pub const FORWARD: u8 = 0x0C;
/// An elapsed fraction.
pub const ELAPSED: u8 = 0x0D;

/// The commands that add to the sheet and print nothing.
pub const ENTRIES: [u8; 6] = [POOL, CUT, HAZARD, STEP, COUPON, ELAPSED];

/// The most operands that a command has.
const MOST_OPERANDS: usize = 5;

pub struct Command {
    pub byte: u8,
    pub word: &'static str,
    /// Name and width in bytes of each, in the order of the deck.
    pub operands: &'static [(&'static str, usize)],
}

impl Command {
    const fn new(
        byte: u8,
        word: &'static str,
        operands: &'static [(&'static str, usize)],
    ) -> Command {
        Command {
            byte,
            word,
            operands,
        }
    }

    /// Bytes of all operands together.
    pub fn width(&self) -> usize {
        self.operands.iter().map(|&(_, width)| width).sum()
    }

    /// Whether it adds to the sheet, and so prints nothing.
    pub fn is_entry(&self) -> bool {
        ENTRIES.contains(&self.byte)
    }

    /// The command with these operands as it stands in a deck. Of a number
    /// too large for its width the low bytes are taken.
    pub fn encode(&self, operands: &[u64]) -> Vec<u8> {
        let mut bytes = vec![self.byte];
        for (&(_, width), operand) in self.operands.iter().zip(operands) {
            bytes.extend(&operand.to_le_bytes()[..width]);
        }
        bytes
    }
}

/// In the order of their bytes, from 01.
pub static COMMANDS: [Command; 13] = [
    Command::new(
        POOL,
        "pool",
        &[
            ("names", 1),
            ("steps", 2),
            ("tranches", 1),
            ("recovery", 4),
            ("number", 1),
        ],
    ),
    Command::new(CUT, "cut", &[("point", 4)]),
    Command::new(HAZARD, "hazard", &[("chance", 4)]),
    Command::new(STEP, "step", &[("discount", 4), ("accrual", 4)]),
    Command::new(COUPON, "coupon", &[("rate", 4)]),
    Command::new(ISSUE, "issue", &[("number", 1)]),
    Command::new(WITHDRAW, "withdraw", &[("number", 1)]),
    Command::new(OPEN, "open", &[]),
    Command::new(BACK, "back", &[("steps", 2)]),
    Command::new(VALUE, "value", &[("tranche", 1), ("count", 1)]),
    Command::new(DELTA, "delta", &[("tranche", 1), ("count", 1)]),
    Command::new(FORWARD, "forward", &[("step", 2), ("count", 1)]),
    Command::new(ELAPSED, "elapsed", &[("fraction", 4)]),
];

fn by_byte(byte: u8) -> Option<&'static Command> {
    COMMANDS.iter().find(|command| command.byte == byte)
}

/// A command of a known byte, to write a deck with.
pub fn encode(byte: u8, operands: &[u64]) -> Vec<u8> {
    let command = by_byte(byte).expect("a command's byte");
    assert_eq!(operands.len(), command.operands.len(), "{}", command.word);
    command.encode(operands)
}

/// A command that was read from a deck.
pub struct Decoded {
    pub command: &'static Command,
    /// How many bytes it took, its own included.
    pub length: usize,
    numbers: [u64; MOST_OPERANDS],
}

impl Decoded {
    pub fn operands(&self) -> &[u64] {
        &self.numbers[..self.command.operands.len()]
    }
}

/// Reads the command at the front of a deck that is not empty. Checks 18 and
/// 19.
pub fn decode(deck: &[u8]) -> Result<Decoded, Refusal> {
    let command = by_byte(deck[0]).ok_or(Refusal::Unknown)?;
    let length = 1 + command.width();
    refuse_if(deck.len() < length, Refusal::CutShort)?;
    let mut numbers = [0; MOST_OPERANDS];
    let mut at = 1;
    for (number, &(_, width)) in numbers.iter_mut().zip(command.operands) {
        *number = low_byte_first(&deck[at..at + width]);
        at += width;
    }
    Ok(Decoded {
        command,
        length,
        numbers,
    })
}

fn low_byte_first(bytes: &[u8]) -> u64 {
    let mut number = 0;
    for &byte in bytes.iter().rev() {
        number = 256 * number + u64::from(byte);
    }
    number
}
