//! A deck as text, and back.
//!
//! One command a line: its word, then its operands in decimal, as in
//! `pool 2 2 1 400000000 7`. `#` starts a comment; empty lines count for
//! nothing. `x 90` at the end of a line repeats its command 90 times.
//!
//! Any bytes can be written as `bytes fe ff`, in hexadecimal. That is how the
//! disassembler writes what is no command: from an unknown byte or a command
//! cut short on, a deck is read no further. So every deck has a text, and the
//! text gives the same deck again.
//!
//! A coupon may come as the ledger sends it, `coupon packed 01000000`. The
//! deck has its number alone, so the disassembler writes that.
//!
//! Only what a deck cannot hold is a mistake here, and with it a packed coupon
//! that the ledger's reading refuses: that is no coupon. Limits of the sheet
//! are the engine's to refuse, and so is a deck that is too long: of that the
//! deck is made up to one byte more than the longest, and no further.

use crate::form::{as_text, looks_like_text, nearly_text, without_mark, Form};
use crate::input::MAX_TEXT;
use crate::packed::{self, PACKED};
use crate::quote;
use lavroudem_model::commands::{decode, Command, COMMANDS, COUPON};
use lavroudem_model::deck::MAX_DECK;
use std::fmt;

/// How often a line can be repeated: the bytes of the longest deck.
const MAX_REPEAT: usize = MAX_DECK;

const REPEAT: &str = "x";
const BYTES: &str = "bytes";

/// Bytes on a line of the disassembler.
const BYTES_ON_A_LINE: usize = 16;

/// A fault of a text, and where it stands.
#[derive(Clone, Debug, PartialEq, Eq)]
pub struct Mistake {
    /// Counted from 1.
    pub line: usize,
    pub reason: String,
}

impl fmt::Display for Mistake {
    fn fmt(&self, out: &mut fmt::Formatter) -> fmt::Result {
        write!(out, "line {}: {}", self.line, self.reason)
    }
}

/// A deck, and the lines of the text that it was written in.
#[derive(Clone, Debug, Default, PartialEq, Eq)]
pub struct Assembled {
    pub deck: Vec<u8>,
    /// None of a deck that came as it is.
    pub lines: Lines,
}

/// Which line of a text gave which byte of its deck: offset and line of each
/// line that gave any, in their order.
#[derive(Clone, Debug, Default, PartialEq, Eq)]
pub struct Lines(Vec<(usize, usize)>);

impl Lines {
    /// The line that gave this byte, if there was a text.
    pub fn line_of(&self, offset: usize) -> Option<usize> {
        let after = self.0.partition_point(|&(start, _)| start <= offset);
        self.0[..after].last().map(|&(_, line)| line)
    }

    /// For a file that a later command reads.
    pub fn to_text(&self) -> String {
        let line = |(offset, line): &(usize, usize)| format!("{offset} {line}\n");
        self.0.iter().map(line).collect()
    }

    pub fn from_text(text: &str) -> Option<Lines> {
        let pair = |line: &str| {
            let (offset, line) = line.split_once(' ')?;
            Some((decimal(offset)? as usize, decimal(line)? as usize))
        };
        text.lines().map(pair).collect::<Option<_>>().map(Lines)
    }
}

/// The deck that a file holds, as text or as it is. A file that is nearly
/// text is no deck, and is told what keeps it from being text.
pub fn read(bytes: Vec<u8>, form: Form) -> Result<Assembled, Mistake> {
    if form != Form::Binary {
        within_length(&bytes)?;
    }
    let is_text = match form {
        Form::Text => true,
        Form::Either => looks_like_text(without_mark(&bytes)),
        Form::Binary => false,
    };
    if is_text {
        return assemble_with_lines(as_text(&bytes)?);
    }
    match nearly_text(&bytes) {
        Some(mistake) if form == Form::Either => Err(mistake),
        _ => Ok(Assembled {
            deck: bytes,
            lines: Lines::default(),
        }),
    }
}

/// The deck of a text; the first mistake is named.
pub fn assemble(text: &str) -> Result<Vec<u8>, Mistake> {
    assemble_with_lines(text).map(|assembled| assembled.deck)
}

/// The same with its lines. It stops a byte past the longest deck: the engine
/// refuses that by its length, whatever else would come.
pub fn assemble_with_lines(text: &str) -> Result<Assembled, Mistake> {
    let mut assembled = Assembled::default();
    let Assembled { deck, lines } = &mut assembled;
    for (place, line) in text.lines().enumerate() {
        let line_number = place + 1;
        let mistake = |reason| Mistake {
            line: line_number,
            reason,
        };
        let (bytes, times) = assemble_line(line).map_err(mistake)?;
        if !bytes.is_empty() {
            lines.0.push((deck.len(), line_number));
        }
        for _ in 0..times {
            deck.extend(&bytes);
            if deck.len() > MAX_DECK {
                deck.truncate(MAX_DECK + 1);
                return Ok(assembled);
            }
        }
    }
    Ok(assembled)
}

/// A text that is too long is told where it passes the limit.
pub(crate) fn within_length(text: &[u8]) -> Result<(), Mistake> {
    if text.len() <= MAX_TEXT {
        return Ok(());
    }
    let ends = text[..MAX_TEXT].iter().filter(|&&byte| byte == b'\n');
    Err(Mistake {
        line: 1 + ends.count(),
        reason: format!("here the text passes {MAX_TEXT} bytes, the most it may have"),
    })
}

/// The words of a line, without its comment.
pub(crate) fn words_of(line: &str) -> Result<Vec<&str>, String> {
    // An editor would show two lines, of which a comment hides one.
    if let Some(end) = line.chars().find(|&c| ends_a_line_elsewhere(c)) {
        return Err(format!("{} within the line; a line ends in 0A", quote::word(&end.to_string())));
    }
    let code = line.split('#').next().unwrap_or_default();
    Ok(code.split_whitespace().collect())
}

/// The bytes of a line, and how often they come.
fn assemble_line(line: &str) -> Result<(Vec<u8>, usize), String> {
    let words = words_of(line)?;
    let (words, times) = without_repeat(&words)?;
    match words {
        [] => Ok((vec![], 0)),
        [BYTES, pairs @ ..] => Ok((hexadecimal(pairs)?, times)),
        [word, operands @ ..] => {
            let command = by_word(word).ok_or_else(|| unknown(word))?;
            let numbers = match operands {
                [PACKED, words @ ..] if command.byte == COUPON => vec![packed::coupon(words)?],
                _ => numbers(command, operands)?,
            };
            Ok((command.encode(&numbers), times))
        }
    }
}

/// Those of Unicode but 0A, which ends one here.
fn ends_a_line_elsewhere(c: char) -> bool {
    matches!(c, '\u{B}' | '\u{C}' | '\r' | '\u{85}' | '\u{2028}' | '\u{2029}')
}

fn by_word(word: &str) -> Option<&'static Command> {
    COMMANDS.iter().find(|command| command.word == word)
}

/// Whether a line of a text may start so.
pub fn is_command(word: &str) -> bool {
    word == BYTES || by_word(word).is_some()
}

fn unknown(word: &str) -> String {
    let word = quote::word(word);
    let words: Vec<&str> = COMMANDS.iter().map(|command| command.word).collect();
    format!(
        "no command `{word}`; there are {}, {BYTES}",
        words.join(", ")
    )
}

/// Takes a repeat count off the end of a line.
fn without_repeat<'a>(words: &'a [&'a str]) -> Result<(&'a [&'a str], usize), String> {
    let Some(place) = words.iter().position(|&word| word == REPEAT) else {
        return Ok((words, 1));
    };
    let times = match words[place + 1..] {
        [count] => decimal(count).filter(|count| (1..=MAX_REPEAT as u64).contains(count)),
        _ => None,
    };
    match times {
        Some(times) if place > 0 => Ok((&words[..place], times as usize)),
        Some(_) => Err(format!("no command before `{REPEAT}`")),
        None => Err(format!(
            "after `{REPEAT}` comes a repeat count from 1 to {MAX_REPEAT}, and no more"
        )),
    }
}

fn hexadecimal(pairs: &[&str]) -> Result<Vec<u8>, String> {
    if pairs.is_empty() {
        return Err(format!("`{BYTES}` takes at least one byte"));
    }
    let byte = |pair: &&str| {
        let is_pair = pair.len() == 2 && pair.bytes().all(|digit| digit.is_ascii_hexdigit());
        let byte = u8::from_str_radix(pair, 16).ok().filter(|_| is_pair);
        byte.ok_or_else(|| {
            let pair = quote::word(pair);
            format!("`{pair}` is not a byte in two hexadecimal digits")
        })
    };
    pairs.iter().map(byte).collect()
}

/// The operands of a command, each of a size that its width holds.
fn numbers(command: &Command, words: &[&str]) -> Result<Vec<u64>, String> {
    if words.len() != command.operands.len() {
        let names = command.operands.iter().map(|&(name, _)| format!(" {name}"));
        let form = command.word.to_string() + &names.collect::<String>();
        let packed = match command.byte {
            COUPON => format!(" or `{} {PACKED} digits`", command.word),
            _ => String::new(),
        };
        let found = words.len();
        return Err(format!("write `{form}`{packed}; operands found: {found}"));
    }
    let operands = command.operands.iter().zip(words);
    operands
        .map(|(&(name, width), word)| number(name, largest(width), word))
        .collect()
}

/// The largest number that so many bytes hold.
fn largest(width: usize) -> u64 {
    256_u64.pow(width as u32) - 1
}

fn number(name: &str, largest: u64, word: &str) -> Result<u64, String> {
    let shown = quote::word(word);
    if !is_digits(word) {
        return Err(format!("{name} `{shown}` is not a whole number"));
    }
    // A number that does not fit 64 bits is above any limit.
    decimal(word)
        .filter(|&number| number <= largest)
        .ok_or_else(|| format!("{name} {shown} is too large, at most {largest}"))
}

/// The parser of the library would take a `+` too.
fn decimal(word: &str) -> Option<u64> {
    word.parse().ok().filter(|_| is_digits(word))
}

pub(crate) fn is_digits(word: &str) -> bool {
    word.bytes().all(|digit| digit.is_ascii_digit())
}

/// The text of a deck, with equal commands in a row as one line.
pub fn disassemble(deck: &[u8]) -> String {
    let mut runs: Vec<(String, usize)> = Vec::new();
    for line in lines(deck) {
        match runs.last_mut() {
            Some((last, times)) if *last == line && *times < MAX_REPEAT => *times += 1,
            _ => runs.push((line, 1)),
        }
    }
    let text = |(line, times): &(String, usize)| match times {
        1 => format!("{line}\n"),
        _ => format!("{line} {REPEAT} {times}\n"),
    };
    runs.iter().map(text).collect()
}

/// A line for each command, then lines for what is no command.
fn lines(mut deck: &[u8]) -> Vec<String> {
    let mut lines = Vec::new();
    while !deck.is_empty() {
        let Ok(read) = decode(deck) else { break };
        let operands = read.operands().iter().map(|number| format!(" {number}"));
        lines.push(read.command.word.to_string() + &operands.collect::<String>());
        deck = &deck[read.length..];
    }
    for chunk in deck.chunks(BYTES_ON_A_LINE) {
        let pairs = chunk.iter().map(|byte| format!(" {byte:02x}"));
        lines.push(BYTES.to_string() + &pairs.collect::<String>());
    }
    lines
}
