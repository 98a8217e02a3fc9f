//! A walk over lent rows, call by call (document 01, "Walking back", "Hedge
//! ratio", "Going forward" and "Refusals in order").
//!
//! Nothing a caller brings is trusted: sheet, register, rows and walk may
//! hold anything. Each call makes all its checks before it writes, so that
//! a refusal leaves everything as it was. Checks have the numbers of their
//! refusals; 25 and 21 are among those of the sheet, 25 between 4 and 5, 21
//! between 7 and 8. The figures come from [`tree`].
//!
//! [`tree`]: crate::tree

use crate::refusal::{refuse_if, Refusal};
use crate::register;
use crate::sheet::{self, Sheet};
use crate::tree::{self, Rows};

/// What a caller keeps between calls, besides the rows.
#[derive(Clone, Copy, Debug, PartialEq, Eq)]
pub struct Walk {
    pub open: bool,
    /// The number of the sheet that was opened.
    pub number: u8,
    /// The step at which the rows stand, m after an open and 0 at the root.
    pub position: usize,
}

impl Walk {
    /// What a caller starts with: nothing is open yet.
    pub fn fresh() -> Walk {
        Walk {
            open: false,
            number: 0,
            position: 0,
        }
    }
}

/// The answer of a value call: D, A and W of one node.
#[derive(Clone, Copy, Debug, PartialEq, Eq)]
pub struct Value {
    pub default: u128,
    pub premium: u128,
    pub net: i128,
}

/// Length of each of the two rows, for a sheet that passed check 1.
pub fn row_length(sheet: &Sheet) -> usize {
    (sheet.tranches + 1) * (sheet.names + 1)
}

/// Starts a walk at the last step; the content of the rows does not matter.
pub fn open(
    walk: Walk,
    sheet: &Sheet,
    register: &[u8],
    default_row: &mut [u64],
    premium_row: &mut [u64],
) -> (Walk, Result<(), Refusal>) {
    if let Err(refusal) = check_for_rows(sheet, register, default_row, premium_row) {
        return (walk, Err(refusal));
    }
    default_row.fill(0);
    premium_row.fill(0);
    let opened = Walk {
        open: true,
        number: sheet.number,
        position: sheet.steps,
    };
    (opened, Ok(()))
}

/// Takes the rows back by `steps`; answers the new position.
pub fn back(
    walk: Walk,
    sheet: &Sheet,
    register: &[u8],
    steps: usize,
    default_row: &mut [u64],
    premium_row: &mut [u64],
) -> (Walk, Result<usize, Refusal>) {
    if let Err(refusal) = check_back(walk, sheet, register, steps, default_row, premium_row) {
        return (walk, Err(refusal));
    }
    let mut rows = read_rows(default_row, premium_row);
    let position = tree::roll_back(sheet, &mut rows, walk.position, steps);
    write_row(default_row, &rows.default_row);
    write_row(premium_row, &rows.premium_row);
    (Walk { position, ..walk }, Ok(position))
}

/// D, A and W of a tranche, or of the index, at a count.
pub fn value(
    walk: Walk,
    sheet: &Sheet,
    register: &[u8],
    tranche: usize,
    count: usize,
    default_row: &[u64],
    premium_row: &[u64],
) -> (Walk, Result<Value, Refusal>) {
    let answer = || {
        check_for_walk(walk, sheet, register, default_row, premium_row)?;
        let off_tree = tranche > sheet.index() || count > sheet.names;
        refuse_if(off_tree, Refusal::OffTree)?;
        let rows = read_rows(default_row, premium_row);
        Ok(Value {
            default: tree::default_leg(sheet, &rows, tranche, count),
            premium: tree::premium_leg(sheet, &rows, tranche, count),
            net: tree::net_value(sheet, &rows, tranche, count),
        })
    };
    (walk, answer())
}

/// How much of the index offsets the whole tranche, in millionths of the
/// whole pool's. Nothing in document 01 keeps the index itself from being
/// asked for.
pub fn hedge_ratio(
    walk: Walk,
    sheet: &Sheet,
    register: &[u8],
    tranche: usize,
    count: usize,
    default_row: &[u64],
    premium_row: &[u64],
) -> (Walk, Result<i128, Refusal>) {
    let answer = || {
        check_for_walk(walk, sheet, register, default_row, premium_row)?;
        // At count n no name is left whose default could be hedged.
        let off_tree = tranche > sheet.index() || count >= sheet.names;
        refuse_if(off_tree, Refusal::OffTree)?;
        let rows = read_rows(default_row, premium_row);
        tree::hedge_ratio(sheet, &rows, tranche, count)
    };
    (walk, answer())
}

/// Fills the lent row with Q for step `steps`. It starts afresh each time,
/// so no walk is needed and none is touched.
pub fn forward(
    sheet: &Sheet,
    register: &[u8],
    steps: usize,
    row: &mut [u64],
) -> Result<(), Refusal> {
    sheet::check_pool(sheet)?;
    let row_fault = row.len() != sheet.names + 1;
    check_after_pool(sheet, register, row_fault)?;
    refuse_if(steps > sheet.steps, Refusal::OutOfSteps)?;
    write_row(row, &tree::distribution(sheet, steps));
    Ok(())
}

/// Checks of back: 1 to 12, then 13.
fn check_back(
    walk: Walk,
    sheet: &Sheet,
    register: &[u8],
    steps: usize,
    default_row: &[u64],
    premium_row: &[u64],
) -> Result<(), Refusal> {
    check_for_walk(walk, sheet, register, default_row, premium_row)?;
    refuse_if(steps > walk.position, Refusal::OutOfSteps)
}

/// Checks 1 to 12, for the calls that need an open walk.
fn check_for_walk(
    walk: Walk,
    sheet: &Sheet,
    register: &[u8],
    default_row: &[u64],
    premium_row: &[u64],
) -> Result<(), Refusal> {
    check_for_rows(sheet, register, default_row, premium_row)?;
    let no_walk = !walk.open || walk.number != sheet.number || walk.position > sheet.steps;
    refuse_if(no_walk, Refusal::NoWalk)?;
    let rows = read_rows(default_row, premium_row);
    let over = tree::first_over_ceiling(sheet, &rows, walk.position).is_some();
    refuse_if(over, Refusal::OverCeiling)
}

/// Checks 1 to 10, for the calls that are lent both rows.
fn check_for_rows(
    sheet: &Sheet,
    register: &[u8],
    default_row: &[u64],
    premium_row: &[u64],
) -> Result<(), Refusal> {
    sheet::check_pool(sheet)?;
    let length = row_length(sheet);
    let row_fault = default_row.len() != length || premium_row.len() != length;
    check_after_pool(sheet, register, row_fault)
}

/// Checks 2 to 10. All lent lists share check 2, whichever is at fault.
fn check_after_pool(sheet: &Sheet, register: &[u8], row_fault: bool) -> Result<(), Refusal> {
    let register_fault = register::length_fault(register);
    let length_fault = sheet::length_fault(sheet) || register_fault || row_fault;
    refuse_if(length_fault, Refusal::Length)?;
    sheet::check_figures(sheet)?;
    register::check_live(register, sheet.number)
}

fn read_rows(default_row: &[u64], premium_row: &[u64]) -> Rows {
    let widened = |row: &[u64]| row.iter().map(|&entry| u128::from(entry)).collect();
    Rows {
        default_row: widened(default_row),
        premium_row: widened(premium_row),
    }
}

/// Rows below their ceilings stay so on the way back, hence far below 64
/// bits.
fn write_row(row: &mut [u64], figures: &[u128]) {
    for (entry, &figure) in row.iter_mut().zip(figures) {
        *entry = u64::try_from(figure).expect("figure beyond 64 bits");
    }
}
