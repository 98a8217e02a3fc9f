//! Exact values by brute force (document 01, end of "Walking back" and
//! "Going forward", and T-01).
//!
//! Every list of moves is written out and its cash added up, with nothing
//! rounded. The backward rule is not used, so that it can be measured
//! against these values. The work doubles with each step.

use crate::cash::{default_payment, elapsed_payment_over_b, premium_payment_over_b};
use crate::natural::Natural;
use crate::sheet::{Sheet, B};

/// What one step does to the default count.
#[derive(Clone, Copy, Debug, PartialEq, Eq)]
pub enum Move {
    Stay,
    Default,
}

/// Every list of `length` moves that, from `count` defaults, never has more
/// defaults than names.
pub fn move_lists(sheet: &Sheet, count: usize, length: usize) -> Vec<Vec<Move>> {
    let mut lists = vec![Vec::new()];
    for _ in 0..length {
        let mut longer = Vec::new();
        for list in &lists {
            for next in [Move::Stay, Move::Default] {
                let mut extended = list.clone();
                extended.push(next);
                longer.push(extended);
            }
        }
        lists = longer;
    }
    // The count never falls, so its last figure decides.
    lists.retain(|list| count_after(count, list) <= sheet.names);
    lists
}

/// The exact default leg, as the numerator over B^(2h + 1), where h is the
/// number of steps after `position`.
pub fn default_leg(sheet: &Sheet, position: usize, tranche: usize, count: usize) -> Natural {
    let cash = |_step: usize, before: usize, next: Move| match next {
        Move::Stay => 0,
        Move::Default => B * default_payment(sheet, tranche, before),
    };
    expected_cash(sheet, position, count, cash)
}

/// The exact premium leg, over the same power of B as the default leg. A
/// default brings what was earned up to it, beside the premium of its step.
pub fn premium_leg(sheet: &Sheet, position: usize, tranche: usize, count: usize) -> Natural {
    let cash = |step: usize, before: usize, next: Move| {
        let earned = match next {
            Move::Stay => 0,
            Move::Default => elapsed_payment_over_b(sheet, tranche, step, before),
        };
        let after = count_after(before, &[next]);
        premium_payment_over_b(sheet, tranche, step, after) + earned
    };
    expected_cash(sheet, position, count, cash)
}

/// The denominator of an exact leg at `position`: B^(2h + 1).
pub fn leg_denominator(sheet: &Sheet, position: usize) -> Natural {
    Natural::power_of_b(2 * (sheet.steps - position) + 1)
}

/// Twice the distances that legs walked from the end to `position` may be off:
/// 2h for D and 2h + q + f for A, with h steps, q premium dates and f fractions
/// other than 0 on the way.
pub fn doubled_distances(sheet: &Sheet, position: usize) -> [usize; 2] {
    let walked = position + 1..=sheet.steps;
    let dates = walked.clone().filter(|&step| sheet.is_premium_date(step));
    let fractions = walked.filter(|&step| sheet.elapsed(step) != 0);
    let steps = 2 * (sheet.steps - position);
    [steps, steps + dates.count() + fractions.count()]
}

/// The exact chances of 0 to n defaults after `steps` steps from none, as
/// numerators over B^steps.
pub fn distribution(sheet: &Sheet, steps: usize) -> Vec<Natural> {
    let mut row = vec![Natural::zero(); sheet.names + 1];
    for list in move_lists(sheet, 0, steps) {
        let end = count_after(0, &list);
        row[end] = row[end].plus(&chance(sheet, 0, 0, &list));
    }
    row
}

/// The sum over all lists of moves to the last step: chance, over B^h, times
/// discounted cash, over B^(h + 1). `cash` tells what a move pays into a
/// step from a count, over B.
fn expected_cash(
    sheet: &Sheet,
    position: usize,
    count: usize,
    cash: impl Fn(usize, usize, Move) -> u128,
) -> Natural {
    let mut sum = Natural::zero();
    for list in move_lists(sheet, count, sheet.steps - position) {
        let received = discounted_cash(sheet, position, count, &list, &cash);
        sum = sum.plus(&chance(sheet, position, count, &list).times(&received));
    }
    sum
}

/// The cash along one list of moves, brought to `position`; over B^(h + 1).
fn discounted_cash(
    sheet: &Sheet,
    position: usize,
    count: usize,
    list: &[Move],
    cash: impl Fn(usize, usize, Move) -> u128,
) -> Natural {
    let mut sum = Natural::zero();
    for (done, &next) in list.iter().enumerate() {
        let step = position + done + 1;
        let before = count_after(count, &list[..done]);
        let paid = Natural::new(cash(step, before, next));
        sum = sum.plus(&paid.times(&discount_factor(sheet, position, step)));
    }
    sum
}

/// v(position + 1) to v(step) multiplied, made up to a numerator over B^h.
fn discount_factor(sheet: &Sheet, position: usize, step: usize) -> Natural {
    let mut factor = Natural::power_of_b(sheet.steps - step);
    for passed in position + 1..=step {
        factor = factor.times(&Natural::new(sheet.discount(passed)));
    }
    factor
}

/// The chance of a list of moves from a position and count; over B to the
/// number of moves.
fn chance(sheet: &Sheet, position: usize, count: usize, list: &[Move]) -> Natural {
    let mut product = Natural::new(1);
    for (done, &next) in list.iter().enumerate() {
        let step = position + done + 1;
        let before = count_after(count, &list[..done]);
        let factor = match next {
            Move::Stay => sheet.survival(step, before),
            Move::Default => sheet.hazard(step, before),
        };
        product = product.times(&Natural::new(factor));
    }
    product
}

fn count_after(count: usize, list: &[Move]) -> usize {
    count + list.iter().filter(|&&m| m == Move::Default).count()
}
