//! Rounding, losses, recoveries and payments (document 01, "Arithmetic and
//! cash", T-01 and T-12).
//!
//! Nothing here knows about rows or about the direction of a walk. Every
//! function takes a sheet that passed its checks.

use crate::sheet::{Sheet, B};

/// Divides by B; a half goes up.
pub fn half(y: u128) -> u128 {
    (y + B / 2) / B
}

/// L(k): what the pool has lost after `count` defaults.
pub fn pool_loss(sheet: &Sheet, count: usize) -> u128 {
    let loss_given_default = B - u128::from(sheet.recovery);
    count as u128 * loss_given_default / sheet.names as u128
}

/// The most a tranche can lose. For the index, the loss of the whole pool.
pub fn width(sheet: &Sheet, tranche: usize) -> u128 {
    if tranche == sheet.index() {
        B - u128::from(sheet.recovery)
    } else {
        detachment(sheet, tranche) - attachment(sheet, tranche)
    }
}

/// Where the pool's loss ends beside a tranche: the three cases of T-03.
#[derive(Clone, Copy, Debug, PartialEq, Eq)]
pub enum LossCase {
    Below,
    Inside,
    Above,
}

/// A loss that ends on a point of the tranche counts to the case under it.
pub fn loss_case(loss: u128, lower: u128, upper: u128) -> LossCase {
    if loss <= lower {
        LossCase::Below
    } else if loss <= upper {
        LossCase::Inside
    } else {
        LossCase::Above
    }
}

/// M(k): "slice loss" in document 01. The index loses what the pool loses.
pub fn tranche_loss(sheet: &Sheet, tranche: usize, count: usize) -> u128 {
    let loss = pool_loss(sheet, count);
    if tranche == sheet.index() {
        return loss;
    }
    let (lower, upper) = (attachment(sheet, tranche), detachment(sheet, tranche));
    match loss_case(loss, lower, upper) {
        LossCase::Below => 0,
        LossCase::Inside => loss - lower,
        LossCase::Above => width(sheet, tranche),
    }
}

/// Z(k): what has been recovered of `count` defaults (T-12).
pub fn recovered(sheet: &Sheet, count: usize) -> u128 {
    count as u128 * u128::from(sheet.recovery) / sheet.names as u128
}

/// What recoveries take off a tranche, or off the index: they start at the
/// senior end, so all that lies above a tranche goes before it.
pub fn tranche_recovery(sheet: &Sheet, tranche: usize, count: usize) -> u128 {
    let all = recovered(sheet, count);
    if tranche == sheet.index() {
        return all;
    }
    let senior = B - detachment(sheet, tranche);
    all.saturating_sub(senior).min(width(sheet, tranche))
}

/// O(k): the notional that still earns premium. Losses take it from below,
/// recoveries from above.
pub fn outstanding(sheet: &Sheet, tranche: usize, count: usize) -> u128 {
    let whole = if tranche == sheet.index() {
        B
    } else {
        width(sheet, tranche)
    };
    whole - tranche_loss(sheet, tranche, count) - tranche_recovery(sheet, tranche, count)
}

/// Default cash: paid by the step that takes `count` to `count + 1`.
pub fn default_payment(sheet: &Sheet, tranche: usize, count: usize) -> u128 {
    tranche_loss(sheet, tranche, count + 1) - tranche_loss(sheet, tranche, count)
}

/// P(i, k) in whole units, as the rows take it; `count` is the one after
/// the step.
pub fn premium_payment(sheet: &Sheet, tranche: usize, step: usize, count: usize) -> u128 {
    half(premium_payment_over_b(sheet, tranche, step, count))
}

/// P(i, k) unrounded: the numerator over B.
pub fn premium_payment_over_b(sheet: &Sheet, tranche: usize, step: usize, count: usize) -> u128 {
    sheet.accrual(step) * outstanding(sheet, tranche, count)
}

/// The premium earned up to a default, in whole units, as the rows take it:
/// paid by the step that takes `count` to `count + 1`, and rounded by itself
/// (T-01).
pub fn elapsed_payment(sheet: &Sheet, tranche: usize, step: usize, count: usize) -> u128 {
    half(elapsed_payment_over_b(sheet, tranche, step, count))
}

/// The same unrounded: the numerator over B. It is earned on what the default
/// takes off the outstanding notional.
pub fn elapsed_payment_over_b(sheet: &Sheet, tranche: usize, step: usize, count: usize) -> u128 {
    let gone = outstanding(sheet, tranche, count) - outstanding(sheet, tranche, count + 1);
    sheet.elapsed(step) * gone
}

fn attachment(sheet: &Sheet, tranche: usize) -> u128 {
    u128::from(sheet.attachments[tranche])
}

fn detachment(sheet: &Sheet, tranche: usize) -> u128 {
    u128::from(sheet.attachments[tranche + 1])
}
