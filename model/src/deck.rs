//! The deck and its listing (document 01, "Deck and printing program", and
//! T-01).
//!
//! But for elapsed fractions the sheet cannot change under an open walk. A pool
//! command comes once, so n, m, r, R and the number stay; each list only grows,
//! so one that has its length gets refusal 2 for good with one figure more.
//! Elapsed fractions are the exception: none stand for m zeros, and a deck may
//! enter m of them later. Calls in between get refusal 2, and those behind see
//! the fractions. The rows lent are those of one pool for all accepted calls.

use crate::commands::{
    self, Decoded, BACK, COUPON, CUT, DELTA, ELAPSED, FORWARD, HAZARD, ISSUE, OPEN, POOL, STEP,
    VALUE, WITHDRAW,
};
use crate::refusal::{refuse_if, Refusal};
use crate::register;
use crate::sheet::{Sheet, MAX_NAMES, MAX_STEPS, MAX_TRANCHES};
use crate::walk::{self, Walk};

/// In bytes.
pub const MAX_DECK: usize = 65_536;

/// Room for the rows of the largest tree.
const ROW_ROOM: usize = (MAX_TRANCHES + 1) * (MAX_NAMES + 1);

type ByNumber = fn(&mut [u8], u8) -> Result<(), Refusal>;
type Open = fn(Walk, &Sheet, &[u8], &mut [u64], &mut [u64]) -> (Walk, Result<(), Refusal>);
type Back =
    fn(Walk, &Sheet, &[u8], usize, &mut [u64], &mut [u64]) -> (Walk, Result<usize, Refusal>);
type Value =
    fn(Walk, &Sheet, &[u8], usize, usize, &[u64], &[u64]) -> (Walk, Result<walk::Value, Refusal>);
type HedgeRatio =
    fn(Walk, &Sheet, &[u8], usize, usize, &[u64], &[u64]) -> (Walk, Result<i128, Refusal>);
type Forward = fn(&Sheet, &[u8], usize, &mut [u64]) -> Result<(), Refusal>;

/// The calls that a deck is run by. The benchmark brings faster ones.
#[derive(Clone, Copy)]
pub struct Calls {
    pub issue: ByNumber,
    pub withdraw: ByNumber,
    pub open: Open,
    pub back: Back,
    pub value: Value,
    pub hedge_ratio: HedgeRatio,
    pub forward: Forward,
}

/// The model's own.
pub const CALLS: Calls = Calls {
    issue: register::issue,
    withdraw: register::withdraw,
    open: walk::open,
    back: walk::back,
    value: walk::value,
    hedge_ratio: walk::hedge_ratio,
    forward: walk::forward,
};

/// What the program keeps from command to command.
struct Program {
    calls: Calls,
    has_pool: bool,
    /// Whether a fraction was entered. Until then those of the sheet are zeros.
    has_elapsed: bool,
    sheet: Sheet,
    register: Vec<u8>,
    walk: Walk,
    /// Document 01 only asks for rows of the right length. They are read as
    /// room for the largest tree, zero at first and kept from call to call,
    /// of which the first (r + 1) x (n + 1) numbers are lent. No listing
    /// could tell another reading apart: before an open, 11 comes first.
    default_row: Vec<u64>,
    premium_row: Vec<u64>,
}

impl Program {
    fn new(calls: Calls, register: &[u8]) -> Program {
        Program {
            calls,
            has_pool: false,
            has_elapsed: false,
            sheet: empty_sheet(),
            register: register.to_vec(),
            walk: Walk::fresh(),
            default_row: vec![0; ROW_ROOM],
            premium_row: vec![0; ROW_ROOM],
        }
    }

    /// How much of each row is lent. A deck may name more names or tranches
    /// than there is room for; then refusal 1 comes before any length.
    fn lent_length(&self) -> usize {
        walk::row_length(&self.sheet).min(ROW_ROOM)
    }
}

/// What a deck starts with; its zeros fail check 1. No command adds a start,
/// so the hazards of a deck hold from step 1 to the last.
fn empty_sheet() -> Sheet {
    Sheet {
        number: 0,
        names: 0,
        steps: 0,
        tranches: 0,
        recovery: 0,
        attachments: Vec::new(),
        starts: vec![1],
        hazards: Vec::new(),
        discounts: Vec::new(),
        accruals: Vec::new(),
        elapsed: Vec::new(),
        coupons: Vec::new(),
    }
}

/// Runs a deck from a blank register and returns all that it prints.
pub fn listing(deck: &[u8]) -> Vec<u8> {
    listing_by(CALLS, deck)
}

/// The same by other calls.
pub fn listing_by(calls: Calls, deck: &[u8]) -> Vec<u8> {
    run_on_by(calls, deck, &register::blank()).0
}

/// Runs a deck on a register that was kept, of any length: all that it
/// prints, and the register that it leaves. A deck has no check of its own
/// for the register; each call that it makes is lent it, and has.
pub fn run_on(deck: &[u8], register: &[u8]) -> (Vec<u8>, Vec<u8>) {
    run_on_by(CALLS, deck, register)
}

fn run_on_by(calls: Calls, deck: &[u8], register: &[u8]) -> (Vec<u8>, Vec<u8>) {
    let mut program = Program::new(calls, register);
    if deck.len() > MAX_DECK {
        let line = deck_line(Refusal::TooMany, MAX_DECK);
        return (line.into_bytes(), program.register);
    }
    let mut printed = String::new();
    let mut offset = 0;
    while offset < deck.len() {
        match run_command(&mut program, &deck[offset..]) {
            Ok((length, line)) => {
                printed += &line;
                offset += length;
            }
            Err(refusal) => {
                printed += &deck_line(refusal, offset);
                break;
            }
        }
    }
    (printed.into_bytes(), program.register)
}

/// Runs the command at the front of `deck`. Answers how many bytes it took
/// and the line it prints, which is empty for a sheet command. Checks 18, 19
/// and 20, in that order.
fn run_command(program: &mut Program, deck: &[u8]) -> Result<(usize, String), Refusal> {
    let read = commands::decode(deck)?;
    let line = if read.command.is_entry() {
        add_to_sheet(program, &read)?;
        String::new()
    } else {
        call(program, &read)
    };
    Ok((read.length, line))
}

/// Commands 01 to 05 and 0D, with check 20. The figures are not looked at here;
/// the calls that bring the sheet check them.
fn add_to_sheet(program: &mut Program, read: &Decoded) -> Result<(), Refusal> {
    let sheet = &mut program.sheet;
    match (read.command.byte, read.operands()) {
        (POOL, &[names, steps, tranches, recovery, number]) => {
            refuse_if(program.has_pool, Refusal::TooMany)?;
            program.has_pool = true;
            sheet.names = names as usize;
            sheet.steps = steps as usize;
            sheet.tranches = tranches as usize;
            sheet.recovery = recovery;
            sheet.number = number as u8;
            if !program.has_elapsed {
                sheet.elapsed = vec![0; sheet.steps];
            }
            Ok(())
        }
        (CUT, &[point]) => add(&mut sheet.attachments, MAX_TRANCHES + 1, point),
        (HAZARD, &[chance]) => add(&mut sheet.hazards, MAX_NAMES, chance),
        (STEP, &[discount, accrual]) => {
            add(&mut sheet.discounts, MAX_STEPS, discount)?;
            add(&mut sheet.accruals, MAX_STEPS, accrual)
        }
        (COUPON, &[rate]) => add(&mut sheet.coupons, MAX_TRANCHES + 1, rate),
        (ELAPSED, &[fraction]) => {
            if !program.has_elapsed {
                program.has_elapsed = true;
                sheet.elapsed.clear();
            }
            add(&mut sheet.elapsed, MAX_STEPS, fraction)
        }
        _ => unreachable!("not a sheet command"),
    }
}

fn add(list: &mut Vec<u64>, limit: usize, figure: u64) -> Result<(), Refusal> {
    refuse_if(list.len() == limit, Refusal::TooMany)?;
    list.push(figure);
    Ok(())
}

/// Commands 06 to 0C: the line each of them prints.
fn call(program: &mut Program, read: &Decoded) -> String {
    let answer = match (read.command.byte, read.operands()) {
        (ISSUE, &[number]) => {
            (program.calls.issue)(&mut program.register, number as u8).map(|()| vec![])
        }
        (WITHDRAW, &[number]) => {
            (program.calls.withdraw)(&mut program.register, number as u8).map(|()| vec![])
        }
        (OPEN, &[]) => open(program).map(|()| vec![]),
        (BACK, &[steps]) => back(program, steps as usize).map(|position| vec![position as i128]),
        (VALUE, &[tranche, count]) => value(program, tranche as usize, count as usize),
        (DELTA, &[tranche, count]) => {
            delta(program, tranche as usize, count as usize).map(|ratio| vec![ratio])
        }
        (FORWARD, &[step, count]) => {
            forward(program, step as usize, count as usize).map(|chance| vec![i128::from(chance)])
        }
        _ => unreachable!("not a call"),
    };
    line(read.command.word, answer)
}

fn open(program: &mut Program) -> Result<(), Refusal> {
    let length = program.lent_length();
    let (walk, answer) = (program.calls.open)(
        program.walk,
        &program.sheet,
        &program.register,
        &mut program.default_row[..length],
        &mut program.premium_row[..length],
    );
    program.walk = walk;
    answer
}

fn back(program: &mut Program, steps: usize) -> Result<usize, Refusal> {
    let length = program.lent_length();
    let (walk, answer) = (program.calls.back)(
        program.walk,
        &program.sheet,
        &program.register,
        steps,
        &mut program.default_row[..length],
        &mut program.premium_row[..length],
    );
    program.walk = walk;
    answer
}

/// D, A and W.
fn value(program: &mut Program, tranche: usize, count: usize) -> Result<Vec<i128>, Refusal> {
    let length = program.lent_length();
    let (walk, answer) = (program.calls.value)(
        program.walk,
        &program.sheet,
        &program.register,
        tranche,
        count,
        &program.default_row[..length],
        &program.premium_row[..length],
    );
    program.walk = walk;
    let value = answer?;
    Ok(vec![
        value.default as i128,
        value.premium as i128,
        value.net,
    ])
}

fn delta(program: &mut Program, tranche: usize, count: usize) -> Result<i128, Refusal> {
    let length = program.lent_length();
    let (walk, answer) = (program.calls.hedge_ratio)(
        program.walk,
        &program.sheet,
        &program.register,
        tranche,
        count,
        &program.default_row[..length],
        &program.premium_row[..length],
    );
    program.walk = walk;
    answer
}

/// Q(k). The call itself fills the whole row and knows no k, so the program
/// looks at k after all refusals of the call.
fn forward(program: &Program, steps: usize, count: usize) -> Result<u64, Refusal> {
    let mut row = vec![0; program.sheet.names + 1];
    (program.calls.forward)(&program.sheet, &program.register, steps, &mut row)?;
    refuse_if(count > program.sheet.names, Refusal::OffTree)?;
    Ok(row[count])
}

/// One line for a call: 0 and its figures, or only the number of a refusal.
fn line(word: &str, answer: Result<Vec<i128>, Refusal>) -> String {
    match answer {
        Ok(figures) => {
            let fields: String = figures.iter().map(|figure| format!(" {figure}")).collect();
            format!("{word} 0{fields}\n")
        }
        Err(refusal) => format!("{word} {}\n", refusal.number()),
    }
}

/// Refusals 18, 19 and 20, with the place of the command.
fn deck_line(refusal: Refusal, offset: usize) -> String {
    format!("deck {} {offset}\n", refusal.number())
}
