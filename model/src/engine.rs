//! The proved engine on the model's own types, through the Rust crate that
//! callers use, so that what is tried is what they link.

use crate::deck::Calls;
use crate::refusal::Refusal;
use crate::sheet::Sheet;
use crate::turns::Turn;
use crate::walk::{Value, Walk};
use lavroudem::{lent, Lists, Pool};

pub use lavroudem::lent::{deck_room, run_deck, run_on};

/// The engine's calls. Each copies the sheet; a program that counts its time
/// makes it once, by [`lend`].
pub const CALLS: Calls = Calls {
    issue,
    withdraw,
    open: |walk, sheet, register, d, a| open(walk, &lend(sheet), register, d, a),
    back: |walk, sheet, register, steps, d, a| back(walk, &lend(sheet), register, steps, d, a),
    value: |walk, sheet, register, tranche, count, d, a| {
        value(walk, &lend(sheet), register, tranche, count, d, a)
    },
    hedge_ratio: |walk, sheet, register, tranche, count, d, a| {
        hedge_ratio(walk, &lend(sheet), register, tranche, count, d, a)
    },
    forward: |sheet, register, steps, row| forward(&lend(sheet), register, steps, row),
};

fn issue(register: &mut [u8], number: u8) -> Result<(), Refusal> {
    lavroudem::issue(register, number).map_err(refusal)
}

fn withdraw(register: &mut [u8], number: u8) -> Result<(), Refusal> {
    lavroudem::withdraw(register, number).map_err(refusal)
}

pub fn open(
    walk: Walk,
    sheet: &lavroudem::Sheet,
    register: &[u8],
    default_row: &mut [u64],
    premium_row: &mut [u64],
) -> (Walk, Result<(), Refusal>) {
    let (walk, answer) = lent::open(brought(walk), sheet, register, default_row, premium_row);
    (handed(walk), answer.map_err(refusal))
}

pub fn back(
    walk: Walk,
    sheet: &lavroudem::Sheet,
    register: &[u8],
    steps: usize,
    default_row: &mut [u64],
    premium_row: &mut [u64],
) -> (Walk, Result<usize, Refusal>) {
    let (walk, answer) = lent::back(
        brought(walk),
        sheet,
        register,
        default_row,
        premium_row,
        steps,
    );
    (handed(walk), answer.map_err(refusal))
}

pub fn value(
    walk: Walk,
    sheet: &lavroudem::Sheet,
    register: &[u8],
    tranche: usize,
    count: usize,
    default_row: &[u64],
    premium_row: &[u64],
) -> (Walk, Result<Value, Refusal>) {
    let (walk, answer) = lent::value(
        brought(walk),
        sheet,
        register,
        default_row,
        premium_row,
        tranche,
        count,
    );
    let value = answer.map(|value| Value {
        default: value.default_leg.into(),
        premium: value.premium_leg.into(),
        net: value.net_value.into(),
    });
    (handed(walk), value.map_err(refusal))
}

fn hedge_ratio(
    walk: Walk,
    sheet: &lavroudem::Sheet,
    register: &[u8],
    tranche: usize,
    count: usize,
    default_row: &[u64],
    premium_row: &[u64],
) -> (Walk, Result<i128, Refusal>) {
    let (walk, answer) = lent::hedge_ratio(
        brought(walk),
        sheet,
        register,
        default_row,
        premium_row,
        tranche,
        count,
    );
    (handed(walk), answer.map(i128::from).map_err(refusal))
}

pub fn forward(
    sheet: &lavroudem::Sheet,
    register: &[u8],
    steps: usize,
    row: &mut [u64],
) -> Result<(), Refusal> {
    lent::forward(sheet, register, row, steps).map_err(refusal)
}

/// On a copy of the table, which is brought back whole.
pub fn turns(table: &mut [Turn], place: &mut usize, list: &mut [u8]) -> Result<usize, Refusal> {
    let mut lent = lend_table(table);
    let answer = lavroudem::turns(&mut lent, place, list);
    for (turn, after) in table.iter_mut().zip(lent) {
        let (walk, left) = (handed(after.walk), after.left);
        *turn = Turn { walk, left };
    }
    answer.map_err(refusal)
}

/// A turn table as the engine's callers bring it.
pub fn lend_table(table: &[Turn]) -> Vec<lavroudem::Turn> {
    let lend = |turn: &Turn| lavroudem::Turn {
        walk: brought(turn.walk),
        left: turn.left,
    };
    table.iter().map(lend).collect()
}

/// A sheet as the engine's callers bring it, with a copy of its lists.
pub fn lend(sheet: &Sheet) -> lavroudem::Sheet {
    let pool = Pool {
        names: sheet.names,
        steps: sheet.steps,
        tranches: sheet.tranches,
        recovery: sheet.recovery,
        number: sheet.number,
    };
    let lists = Lists {
        attachments: &sheet.attachments,
        starts: &sheet.starts,
        hazards: &sheet.hazards,
        discounts: &sheet.discounts,
        accruals: &sheet.accruals,
        elapsed: &sheet.elapsed,
        coupons: &sheet.coupons,
    };
    lavroudem::Sheet::new(pool, lists)
}

fn brought(walk: Walk) -> lavroudem::Walk {
    lavroudem::Walk {
        open: walk.open,
        number: walk.number,
        position: walk.position,
    }
}

fn handed(walk: lavroudem::Walk) -> Walk {
    Walk {
        open: walk.open,
        number: walk.number,
        position: walk.position,
    }
}

/// The model's refusal of the same number and word.
pub fn refusal(found: lavroudem::Refusal) -> Refusal {
    let same = |known: &Refusal| (known.number(), known.word()) == (found.number(), found.word());
    let known = Refusal::ALL.into_iter().find(same);
    known.unwrap_or_else(|| panic!("the model has no {found}"))
}
