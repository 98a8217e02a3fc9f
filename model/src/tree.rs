//! Values on the recombining tree (document 01, "Walking back", "Hedge
//! ratio" and "Going forward", and T-01).
//!
//! Every function takes a sheet that passed its checks, and a position, a
//! tranche and a count that lie on the tree; anything else is a mistake of
//! the caller and panics.

use crate::cash::{default_payment, elapsed_payment, half, premium_payment, tranche_loss, width};
use crate::refusal::Refusal;
use crate::sheet::{Sheet, B};

/// Coupons are in thousandths of a basis point, ten million to the unit.
const COUPON_SCALE: i128 = 10_000_000;

/// Hedge ratios are in millionths, and stay below a million.
const MILLION: i128 = 1_000_000;

/// D and A of every node of one position: tranche by tranche with the index
/// last, and within a tranche by count.
#[derive(Clone, Debug, PartialEq, Eq)]
pub struct Rows {
    /// Default legs D.
    pub default_row: Vec<u128>,
    /// Premium legs A, for a coupon of one.
    pub premium_row: Vec<u128>,
}

impl Rows {
    /// The rows at position m, where all cash has been paid.
    pub fn zero(sheet: &Sheet) -> Rows {
        let length = (sheet.tranches + 1) * (sheet.names + 1);
        Rows {
            default_row: vec![0; length],
            premium_row: vec![0; length],
        }
    }
}

/// Where a node stands in a row.
pub fn place(sheet: &Sheet, tranche: usize, count: usize) -> usize {
    assert!(tranche <= sheet.index(), "no such tranche");
    assert!(count <= sheet.names, "more defaults than names");
    tranche * (sheet.names + 1) + count
}

/// D of a node.
pub fn default_leg(sheet: &Sheet, rows: &Rows, tranche: usize, count: usize) -> u128 {
    rows.default_row[place(sheet, tranche, count)]
}

/// A of a node.
pub fn premium_leg(sheet: &Sheet, rows: &Rows, tranche: usize, count: usize) -> u128 {
    rows.premium_row[place(sheet, tranche, count)]
}

/// W of a node: default leg less coupons, in ten-millionths of a unit.
pub fn net_value(sheet: &Sheet, rows: &Rows, tranche: usize, count: usize) -> i128 {
    let default = default_leg(sheet, rows, tranche, count) as i128;
    let premium = premium_leg(sheet, rows, tranche, count) as i128;
    COUPON_SCALE * default - sheet.coupon(tranche) as i128 * premium
}

/// Takes rows that stand at `position` back by `steps`, and says where they
/// stand then.
pub fn roll_back(sheet: &Sheet, rows: &mut Rows, position: usize, steps: usize) -> usize {
    assert!(position <= sheet.steps, "position beyond the tree");
    assert!(steps <= position, "more steps than are left");
    for step in (position - steps + 1..=position).rev() {
        *rows = one_step_back(sheet, rows, step);
    }
    position - steps
}

/// The rows before `step`, from the rows after it.
fn one_step_back(sheet: &Sheet, after: &Rows, step: usize) -> Rows {
    let mut before = Rows::zero(sheet);
    for tranche in 0..=sheet.index() {
        for count in 0..=sheet.names {
            let here = place(sheet, tranche, count);
            before.default_row[here] = default_leg_before(sheet, after, step, tranche, count);
            before.premium_row[here] = premium_leg_before(sheet, after, step, tranche, count);
        }
    }
    before
}

fn default_leg_before(
    sheet: &Sheet,
    after: &Rows,
    step: usize,
    tranche: usize,
    count: usize,
) -> u128 {
    let if_stay = default_leg(sheet, after, tranche, count);
    let if_default = if count < sheet.names {
        default_leg(sheet, after, tranche, count + 1) + default_payment(sheet, tranche, count)
    } else {
        0 // has no weight: p(n) is 0
    };
    let amount = expected(sheet, step, count, if_stay, if_default);
    discounted(sheet, step, amount)
}

fn premium_leg_before(
    sheet: &Sheet,
    after: &Rows,
    step: usize,
    tranche: usize,
    count: usize,
) -> u128 {
    // The payment belongs to the count after the step, so it joins each
    // branch by itself.
    let with_payment = |count: usize| {
        premium_leg(sheet, after, tranche, count) + premium_payment(sheet, tranche, step, count)
    };
    let if_stay = with_payment(count);
    let if_default = if count < sheet.names {
        with_payment(count + 1) + elapsed_payment(sheet, tranche, step, count)
    } else {
        0 // has no weight: p(n) is 0
    };
    let amount = expected(sheet, step, count, if_stay, if_default);
    discounted(sheet, step, amount)
}

/// Y: the first of two roundings, for the chance.
fn expected(sheet: &Sheet, step: usize, count: usize, if_stay: u128, if_default: u128) -> u128 {
    half(sheet.hazard(step, count) * if_default + sheet.survival(step, count) * if_stay)
}

/// The second rounding, for the discount. It is kept apart from the first;
/// joining them gives other figures.
fn discounted(sheet: &Sheet, step: usize, amount: u128) -> u128 {
    half(sheet.discount(step) * amount)
}

/// No default leg is worth more than what the tranche can still lose.
pub fn default_ceiling(sheet: &Sheet, tranche: usize, count: usize) -> u128 {
    width(sheet, tranche) - tranche_loss(sheet, tranche, count)
}

/// No premium leg is worth more than the accruals still to come, but for
/// roundings: a unit for each name that is left and two for each step.
pub fn premium_ceiling(sheet: &Sheet, position: usize, count: usize) -> u128 {
    let ahead = position + 1..=sheet.steps;
    let accruals: u128 = ahead.map(|step| sheet.accrual(step)).sum();
    let rounded = (sheet.names - count) + 2 * (sheet.steps - position);
    accruals + rounded as u128
}

/// The first node, as (tranche, count), with D or A over its ceiling.
/// Document 01 calls rows that have one "soiled".
pub fn first_over_ceiling(sheet: &Sheet, rows: &Rows, position: usize) -> Option<(usize, usize)> {
    let premium_limits: Vec<u128> = (0..=sheet.names)
        .map(|count| premium_ceiling(sheet, position, count))
        .collect();
    for tranche in 0..=sheet.index() {
        for (count, &premium_limit) in premium_limits.iter().enumerate() {
            let default_limit = default_ceiling(sheet, tranche, count);
            if default_leg(sheet, rows, tranche, count) > default_limit
                || premium_leg(sheet, rows, tranche, count) > premium_limit
            {
                return Some((tranche, count));
            }
        }
    }
    None
}

/// J: what the holder of protection gains if the next name defaults now,
/// for a count below n. Same scale as the net value.
pub fn jump(sheet: &Sheet, rows: &Rows, tranche: usize, count: usize) -> i128 {
    assert!(count < sheet.names, "no name is left to default");
    let legs = |count: usize| {
        let default = default_leg(sheet, rows, tranche, count) as i128;
        let premium = premium_leg(sheet, rows, tranche, count) as i128;
        (default, premium)
    };
    let (default, premium) = legs(count);
    let (next_default, next_premium) = legs(count + 1);
    let payment = default_payment(sheet, tranche, count) as i128;
    let coupon = sheet.coupon(tranche) as i128;
    COUPON_SCALE * (payment + next_default - default) - coupon * (next_premium - premium)
}

/// How much of the index offsets the whole tranche at the next default, in
/// millionths of the whole pool's.
pub fn hedge_ratio(
    sheet: &Sheet,
    rows: &Rows,
    tranche: usize,
    count: usize,
) -> Result<i128, Refusal> {
    let tranche_jump = jump(sheet, rows, tranche, count);
    let index_jump = jump(sheet, rows, sheet.index(), count);
    ratio_in_millionths(tranche_jump, index_jump)
}

/// The quotient of two jumps, with refusals 15 and 16; a half is rounded
/// away from zero.
pub fn ratio_in_millionths(tranche_jump: i128, index_jump: i128) -> Result<i128, Refusal> {
    if index_jump == 0 {
        return Err(Refusal::FlatHedge);
    }
    if tranche_jump.abs() >= MILLION * index_jump.abs() {
        return Err(Refusal::OffScale);
    }
    let sign = tranche_jump.signum() * index_jump.signum();
    let dividend = MILLION * tranche_jump.abs();
    let divisor = index_jump.abs();
    // Sizes only, so rounding a half up is rounding it away from zero.
    let size = (2 * dividend + divisor) / (2 * divisor);
    Ok(sign * size)
}

/// Q: the distribution of the default count after `steps` steps, in
/// billionths, from a pool without defaults.
pub fn distribution(sheet: &Sheet, steps: usize) -> Vec<u128> {
    assert!(steps <= sheet.steps, "steps beyond the tree");
    let mut row = vec![0; sheet.names + 1];
    row[0] = B;
    for step in 1..=steps {
        row = one_step_forward(sheet, step, &row);
    }
    row
}

/// The row after `step`. Every move is taken from the old row, so one step
/// defaults one name.
fn one_step_forward(sheet: &Sheet, step: usize, old: &[u128]) -> Vec<u128> {
    let mut new = old.to_vec();
    for count in 0..sheet.names {
        let moved = half(old[count] * sheet.hazard(step, count));
        new[count] -= moved;
        new[count + 1] += moved;
    }
    new
}
