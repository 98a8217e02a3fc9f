//! The traps of the trade in document 01, and those of T-01. Each test works out
//! the mistaken figure too, and sees that it differs and that the model does not
//! give it.

mod common;

use common::{plain_sheet, B};
use lavroudem_model::cash::{
    default_payment, elapsed_payment, half, outstanding, pool_loss, premium_payment, tranche_loss,
};
use lavroudem_model::exact;
use lavroudem_model::natural::Natural;
use lavroudem_model::refusal::Refusal;
use lavroudem_model::sheet::{check, Sheet};
use lavroudem_model::tree::{
    default_ceiling, default_leg, distribution, premium_ceiling, premium_leg, roll_back, Rows,
};
use lavroudem_model::worked;

const ONE: u128 = B as u128;

fn root_rows(sheet: &Sheet) -> Rows {
    let mut rows = Rows::zero(sheet);
    roll_back(sheet, &mut rows, sheet.steps, sheet.steps);
    rows
}

#[test]
fn index_outstanding_is_not_notional_less_loss() {
    let sheet = worked::sheet();
    let index = sheet.index();
    for (count, right, mistaken) in [(1, 500_000_000, 700_000_000), (2, 0, 400_000_000)] {
        assert_eq!(ONE - pool_loss(&sheet, count), mistaken);
        assert_eq!(outstanding(&sheet, index, count), right);
    }
    // Without recovery the two are one.
    let mut none = sheet.clone();
    none.recovery = 0;
    assert_eq!(outstanding(&none, index, 1), ONE - pool_loss(&none, 1));
}

#[test]
fn index_premium_leg_uses_the_right_outstanding() {
    let sheet = worked::sheet();
    // Premium at the last step only, so the forward row gives the leg.
    let row = distribution(&sheet, 2);
    let leg = |left: [u128; 3]| {
        let weighted: u128 = (0..3).map(|count| row[count] * left[count]).sum();
        half(sheet.discount(2) * half(weighted))
    };
    let right = leg([ONE, 500_000_000, 0]);
    let mistaken = leg([ONE, 700_000_000, 400_000_000]);
    assert_eq!(right, 805_500_000);
    assert_eq!(mistaken, 843_300_000);
    assert_eq!(premium_leg(&sheet, &root_rows(&sheet), 1, 0), right);
}

/// The same trap the other way round: the index ceiling is on its loss, not
/// on its outstanding.
#[test]
fn index_ceiling_is_not_the_outstanding() {
    let sheet = worked::sheet();
    assert_eq!(default_ceiling(&sheet, 1, 0), 600_000_000);
    assert_eq!(default_ceiling(&sheet, 1, 1), 300_000_000);
    assert_eq!(outstanding(&sheet, 1, 1), 500_000_000);
}

/// One name, no recovery, one step with a full year of premium.
fn one_name(hazard: u64) -> Sheet {
    let mut sheet = plain_sheet(1, 1, 1);
    sheet.recovery = 0;
    sheet.attachments = vec![0, B];
    sheet.hazards = vec![hazard];
    sheet.discounts = vec![B];
    sheet.accruals = vec![B];
    sheet
}

#[test]
fn premium_is_paid_on_the_count_after_the_step() {
    for hazard in [0, 1, 250_000_000, B - 1, B] {
        let sheet = one_name(hazard);
        let rows = root_rows(&sheet);
        let after = u128::from(B - hazard);
        let before = ONE;
        for tranche in [0, sheet.index()] {
            assert_eq!(premium_leg(&sheet, &rows, tranche, 0), after);
            assert_eq!(before == after, hazard == 0);
            let exact = exact::premium_leg(&sheet, 0, tranche, 0);
            assert_eq!(exact, Natural::new(after).times(&Natural::power_of_b(3)));
        }
    }
}

/// The mistaken first step: the row is changed while it is read.
fn in_place_from_below(sheet: &Sheet, row: &mut [u128]) {
    for count in 0..sheet.names {
        let moved = half(row[count] * sheet.hazard(1, count));
        row[count] -= moved;
        row[count + 1] += moved;
    }
}

#[test]
fn forward_moves_all_come_from_the_old_row() {
    let mut sheet = plain_sheet(3, 3, 1);
    sheet.hazards = vec![B, B, B];
    let mut mistaken = vec![ONE, 0, 0, 0];
    in_place_from_below(&sheet, &mut mistaken);
    assert_eq!(mistaken, [0, 0, 0, ONE]);
    assert_eq!(distribution(&sheet, 1), [0, ONE, 0, 0]);
    assert_eq!(distribution(&sheet, 2), [0, 0, ONE, 0]);
    assert_eq!(distribution(&sheet, 3), [0, 0, 0, ONE]);

    sheet.hazards = vec![100_000_000, 200_000_000, 300_000_000];
    let mut mistaken = vec![ONE, 0, 0, 0];
    in_place_from_below(&sheet, &mut mistaken);
    assert_eq!(mistaken, [900_000_000, 80_000_000, 14_000_000, 6_000_000]);
    let right = [900_000_000, 100_000_000, 0, 0];
    assert_eq!(distribution(&sheet, 1), right);
}

#[test]
fn a_step_defaults_at_most_one_name() {
    let mut sheet = plain_sheet(9, 9, 1);
    sheet.hazards = vec![500_000_000; 9];
    for steps in 0..=9 {
        let row = distribution(&sheet, steps);
        assert!(row[..=steps].iter().all(|&chance| chance > 0));
        assert!(row[steps + 1..].iter().all(|&chance| chance == 0));
    }
}

#[test]
fn chance_and_discount_are_rounded_apart() {
    let mut sheet = one_name(500_000_000);
    sheet.attachments = vec![0, 1];
    sheet.discounts = vec![500_000_000];
    // A quarter of one unit: two roundings up, where one gives nothing.
    assert_eq!(tranche_loss(&sheet, 0, 1), 1);
    let mistaken = (500_000_000 * 500_000_000 + ONE * ONE / 2) / (ONE * ONE);
    assert_eq!(mistaken, 0);
    let rows = root_rows(&sheet);
    assert_eq!(default_leg(&sheet, &rows, 0, 0), 1);
    assert_eq!(premium_leg(&sheet, &rows, 0, 0), 1);
    let quarter = Natural::new(250_000_000).times(&Natural::power_of_b(2));
    assert_eq!(exact::default_leg(&sheet, 0, 0, 0), quarter);
    assert_eq!(exact::premium_leg(&sheet, 0, 0, 0), quarter);
}

/// The discount of a step is on its own cash too, not only on later cash.
#[test]
fn cash_of_a_step_is_discounted_by_that_step() {
    let mut sheet = one_name(B);
    sheet.discounts = vec![900_000_000];
    assert_eq!(default_leg(&sheet, &root_rows(&sheet), 0, 0), 900_000_000);
}

// ---- premium up to a default

/// What a move into a step brings beside the premium of a date, by the step and
/// the count before it.
type Brought<'a> = &'a dyn Fn(usize, usize) -> i128;

/// The index's premium leg at the root, by the backward rule with this cash.
fn root_premium(sheet: &Sheet, by_default: Brought, by_stay: Brought) -> u128 {
    let mut legs = vec![0; sheet.names + 2];
    for step in (1..=sheet.steps).rev() {
        let worth = |count: usize, brought: i128| {
            let date = premium_payment(sheet, sheet.index(), step, count) as i128;
            (legs[count] as i128 + date + brought) as u128
        };
        let before = |count: usize| {
            let stay = worth(count, by_stay(step, count));
            let default = worth(count + 1, by_default(step, count));
            let sum = sheet.survival(step, count) * stay + sheet.hazard(step, count) * default;
            half(sheet.discount(step) * half(sum))
        };
        // At the last count nothing is outstanding.
        legs = (0..sheet.names).map(before).chain([0, 0]).collect();
    }
    legs[0]
}

/// The index of the sheet whose legs are worked by hand.
#[test]
fn a_default_earns_on_what_it_takes_away_in_its_own_step() {
    let sheet = worked::earned();
    let index = sheet.index();
    let on = |step: usize, nominal: u128| half(sheet.elapsed(step) * nominal) as i128;
    let left = |count| outstanding(&sheet, index, count);
    let lost = |count| default_payment(&sheet, index, count);
    let date = |step, count| premium_payment(&sheet, index, step, count) as i128;
    let earned = |step, count| elapsed_payment(&sheet, index, step, count) as i128;
    let late = |step, count| if step > 1 { earned(step - 1, count) } else { 0 };
    let none = |_: usize, _: usize| 0;

    let right = root_premium(&sheet, &earned, &none);
    assert_eq!(right, 855_125_000);
    assert_eq!(premium_leg(&sheet, &root_rows(&sheet), index, 0), right);
    let mistaken: [(u128, Brought, Brought); 8] = [
        (805_500_000, &none, &none),
        // On what is outstanding before, or after, or on the loss alone.
        (898_000_000, &|step, k| on(step, left(k)), &none),
        (848_375_000, &|step, k| on(step, left(k + 1)), &none),
        (835_275_000, &|step, k| on(step, lost(k)), &none),
        // For a stay too, or alone.
        (1_268_000_000, &earned, &earned),
        (1_218_375_000, &none, &earned),
        // By the fraction of the step that the move leaves.
        (817_875_000, &late, &none),
        // In the place of the date's premium and not beside it.
        (
            814_625_000,
            &|step, k| earned(step, k) - date(step, k + 1),
            &none,
        ),
    ];
    for (figure, by_default, by_stay) in mistaken {
        assert_eq!(root_premium(&sheet, by_default, by_stay), figure);
        assert_ne!(figure, right);
    }
}

/// Three names, of which the first defaults for sure: both of its premiums end
/// on a half.
#[test]
fn premiums_of_a_default_are_rounded_apart() {
    let mut sheet = plain_sheet(3, 1, 1);
    sheet.recovery = 500_000_000;
    sheet.attachments = vec![100_000_000, 300_000_000];
    sheet.hazards = vec![B, 0, 0];
    sheet.discounts = vec![B];
    sheet.accruals = vec![250_000_000];
    sheet.elapsed = vec![250_000_000];
    assert_eq!(check(&sheet), Ok(()));
    let [whole, left] = [0, 1].map(|count| outstanding(&sheet, 0, count));
    let mistaken = half(sheet.accrual(1) * left + sheet.elapsed(1) * (whole - left));
    assert_eq!(mistaken, 50_000_000);
    let right = premium_leg(&sheet, &root_rows(&sheet), 0, 0);
    assert_eq!(right, 50_000_001);
    // Each step's roundings are its own: the exact leg is the mistaken figure.
    let exact = exact::premium_leg(&sheet, 0, 0, 0);
    assert_eq!(exact, Natural::new(mistaken).times(&Natural::power_of_b(3)));
}

/// Counted for every step, the distance would be five units here.
#[test]
fn only_fractions_other_than_0_widen_the_distance() {
    let mut sheet = plain_sheet(2, 3, 1);
    sheet.accruals = vec![0, 0, B];
    sheet.elapsed = vec![0, 7, 0];
    assert_eq!(check(&sheet), Ok(()));
    let (steps, dates, fractions) = (3, 1, 1);
    let for_every_step = 2 * steps + dates + steps;
    assert_eq!(for_every_step, 10);
    let right = 2 * steps + dates + fractions;
    assert_eq!(exact::doubled_distances(&sheet, 0), [6, right]);
    assert_eq!(exact::doubled_distances(&sheet, 2), [2, 3]);
}

#[test]
fn elapsed_is_checked_between_accruals_and_coupons() {
    let mut sheet = plain_sheet(2, 3, 1);
    sheet.elapsed[0] = 2_000_001;
    assert_eq!(check(&sheet), Err(Refusal::Elapsed));
    let mut with_accrual = sheet.clone();
    with_accrual.accruals[1] = B + 1;
    assert_eq!(check(&with_accrual), Err(Refusal::Accrual));
    sheet.coupons[0] = 10_000_001;
    assert_eq!(check(&sheet), Err(Refusal::Elapsed));
}

/// The mistaken limit: what the last premium date before the step was for.
fn is_above_the_last_date(sheet: &Sheet) -> bool {
    let last = |step: usize| {
        let mut behind = (1..=step).rev();
        behind.find(|&step| sheet.is_premium_date(step))
    };
    let limit = |step| last(step).map_or(0, |date| sheet.accrual(date));
    (1..=sheet.steps).any(|step| sheet.elapsed(step) > limit(step))
}

#[test]
fn a_fraction_is_limited_by_the_date_ahead() {
    let mut sheet = plain_sheet(2, 4, 1);
    sheet.accruals = vec![5, 0, 0, 9];
    sheet.elapsed = vec![0, 9, 0, 0];
    assert!(is_above_the_last_date(&sheet));
    assert_eq!(check(&sheet), Ok(()));
    sheet.accruals = vec![9, 0, 0, 5];
    assert!(!is_above_the_last_date(&sheet));
    assert_eq!(check(&sheet), Err(Refusal::Elapsed));
}

#[test]
fn premium_ceiling_has_both_of_its_units() {
    let sheet = worked::sheet();
    let accruals = ONE;
    for (position, count, right) in [(0, 0, 6), (0, 1, 5), (1, 0, 4), (1, 2, 2)] {
        let steps = (sheet.steps - position) as u128;
        let names = (sheet.names - count) as u128;
        let found = premium_ceiling(&sheet, position, count);
        assert_eq!(found, accruals + right);
        assert_eq!(found == accruals + 2 * steps, names == 0);
        assert_ne!(found, accruals + names + steps);
        assert_ne!(found, accruals);
    }
}
