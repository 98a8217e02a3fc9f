//! Premium earned up to a default: figures worked by hand, what the fractions
//! leave alone, old figures without them, distances, ceilings and jumps.

mod common;

use common::{plain_sheet, Random, B};
use lavroudem_model::cash::{
    elapsed_payment, elapsed_payment_over_b, half, outstanding, premium_payment,
};
use lavroudem_model::exact::{self, doubled_distances};
use lavroudem_model::natural::Natural;
use lavroudem_model::refusal::Refusal;
use lavroudem_model::register;
use lavroudem_model::sheet::{check, Sheet};
use lavroudem_model::tree::{
    distribution, first_over_ceiling, hedge_ratio, jump, place, premium_ceiling, premium_leg,
    roll_back, Rows,
};
use lavroudem_model::walk::{self, row_length, Walk};
use lavroudem_model::worked;

fn rows_at(sheet: &Sheet, position: usize) -> Rows {
    let mut rows = Rows::zero(sheet);
    roll_back(sheet, &mut rows, sheet.steps, sheet.steps - position);
    rows
}

fn premium(sheet: &Sheet, position: usize, tranche: usize, count: usize) -> u128 {
    premium_leg(sheet, &rows_at(sheet, position), tranche, count)
}

/// Every (tranche, count), the index included.
fn nodes(sheet: &Sheet) -> Vec<(usize, usize)> {
    let counts = |tranche| (0..=sheet.names).map(move |count| (tranche, count));
    (0..=sheet.index()).flat_map(counts).collect()
}

fn without_fractions(sheet: &Sheet) -> Sheet {
    Sheet {
        elapsed: vec![0; sheet.steps],
        ..sheet.clone()
    }
}

/// Small sheets, each with some fraction.
fn sheets(seed: u64, number: usize) -> Vec<Sheet> {
    let mut random = Random::new(seed);
    let mut sheets = Vec::new();
    while sheets.len() < number {
        let sheet = random.small_sheet();
        if sheet.elapsed.iter().any(|&fraction| fraction > 0) {
            sheets.push(sheet);
        }
    }
    sheets
}

/// One name without recovery, and one tranche of the whole pool.
fn one_name(steps: usize) -> Sheet {
    let mut sheet = plain_sheet(1, steps, 1);
    sheet.recovery = 0;
    sheet.attachments = vec![0, B];
    sheet.discounts = vec![B; steps];
    sheet
}

/// Nothing is rounded, so exact values are the same.
#[test]
fn legs_are_those_worked_by_hand() {
    let sheet = worked::earned();
    assert_eq!(check(&sheet), Ok(()));
    let by_hand = [
        (1, 0, [263_250_000, 0, 0]),
        (0, 0, [244_425_000, 0, 0]),
        (1, 1, [888_750_000, 427_500_000, 0]),
        // 0.2 x 125000000 + 0.8 x 427500000
        (0, 1, [855_125_000, 367_000_000, 0]),
    ];
    for (position, tranche, legs) in by_hand {
        let one = exact::leg_denominator(&sheet, position);
        for (count, leg) in legs.into_iter().enumerate() {
            assert_eq!(premium(&sheet, position, tranche, count), leg);
            let exact = exact::premium_leg(&sheet, position, tranche, count);
            assert_eq!(exact, Natural::new(leg).times(&one));
        }
    }
}

#[test]
fn a_default_is_paid_on_what_it_takes_away() {
    let sheet = worked::earned();
    let index = sheet.index();
    for (step, tranche, count, paid) in [
        (1, 0, 0, 75_000_000),
        (2, 0, 0, 225_000_000),
        (2, 0, 1, 0),
        (1, index, 0, 125_000_000),
        (2, index, 0, 375_000_000),
        (2, index, 1, 375_000_000),
    ] {
        assert_eq!(elapsed_payment(&sheet, tranche, step, count), paid);
        let over_b = elapsed_payment_over_b(&sheet, tranche, step, count);
        assert_eq!(over_b, paid * u128::from(B));
    }
}

/// One name: what it earned up to its default stands in for the premium of the
/// date that it does not reach, and both are never paid.
#[test]
fn a_sure_default_brings_its_fraction_alone() {
    let mut sheet = one_name(3);
    sheet.accruals = vec![0, 0, 900];
    sheet.elapsed = vec![300, 600, 900];
    for (sure, earned) in [(1, 300), (2, 600), (3, 900)] {
        sheet.starts = vec![1, 2, 3];
        sheet.hazards = vec![0; 3];
        sheet.hazards[sure - 1] = B;
        assert_eq!(check(&sheet), Ok(()));
        for tranche in [0, 1] {
            assert_eq!(premium(&sheet, 0, tranche, 0), earned);
            // Behind its step nothing is left; a survivor has the date's.
            assert_eq!(premium(&sheet, sure, tranche, 1), 0);
            let later = if sure < 3 { 900 } else { 0 };
            assert_eq!(premium(&sheet, sure, tranche, 0), later);
        }
    }
}

#[test]
fn a_stay_brings_nothing() {
    for mut sheet in sheets(101, 60) {
        sheet.hazards.fill(0);
        let without = without_fractions(&sheet);
        for position in 0..=sheet.steps {
            assert_eq!(rows_at(&sheet, position), rows_at(&without, position));
            for (tranche, count) in nodes(&sheet) {
                let [one, other] = [&sheet, &without]
                    .map(|sheet| exact::premium_leg(sheet, position, tranche, count));
                assert_eq!(one, other);
            }
        }
    }
}

/// A fraction of one step is seen before that step, and from there on by the
/// default into it alone.
#[test]
fn a_fraction_belongs_to_the_step_moved_into() {
    let mut sheet = plain_sheet(3, 5, 2);
    sheet.hazards = vec![300_000_000; 3];
    sheet.attachments = vec![0, 200_000_000, B];
    sheet.accruals = vec![0, 0, 0, 0, B];
    let without = sheet.clone();
    for step in 1..=5 {
        sheet.elapsed = vec![0; 5];
        sheet.elapsed[step - 1] = B;
        assert_eq!(check(&sheet), Ok(()));
        for position in 0..=5 {
            let same = rows_at(&sheet, position) == rows_at(&without, position);
            assert_eq!(same, position >= step, "{step} at {position}");
            let [one, other] =
                [&sheet, &without].map(|sheet| exact::premium_leg(sheet, position, 2, 0));
            assert_eq!(one == other, position >= step, "{step} at {position}");
        }
        let more = premium(&sheet, step - 1, 2, 0) - premium(&without, step - 1, 2, 0);
        let earned = half(300_000_000 * elapsed_payment(&sheet, 2, step, 0));
        assert!(more.abs_diff(half(sheet.discount(step) * earned)) <= 1);
    }
}

#[test]
fn default_legs_and_chances_do_not_know_of_fractions() {
    for sheet in sheets(102, 60) {
        let without = without_fractions(&sheet);
        for position in 0..=sheet.steps {
            let [one, other] = [&sheet, &without].map(|sheet| rows_at(sheet, position));
            assert_eq!(one.default_row, other.default_row);
            let [one, other] = [&sheet, &without].map(|sheet| distribution(sheet, position));
            assert_eq!(one, other);
            for (tranche, count) in nodes(&sheet) {
                let [one, other] = [&sheet, &without]
                    .map(|sheet| exact::default_leg(sheet, position, tranche, count));
                assert_eq!(one, other);
            }
        }
    }
}

/// A premium row one step back by the rule as it was.
fn old_premiums_before(sheet: &Sheet, after: &Rows, step: usize) -> Vec<u128> {
    let paid = |tranche, count| {
        premium_leg(sheet, after, tranche, count) + premium_payment(sheet, tranche, step, count)
    };
    let before = |(tranche, count)| {
        let stay = sheet.survival(step, count) * paid(tranche, count);
        let default = match count < sheet.names {
            true => sheet.hazard(step, count) * paid(tranche, count + 1),
            false => 0,
        };
        half(sheet.discount(step) * half(stay + default))
    };
    nodes(sheet).into_iter().map(before).collect()
}

#[test]
fn zero_fractions_give_the_old_premiums() {
    let mut differ = 0;
    for sheet in sheets(103, 100) {
        let without = without_fractions(&sheet);
        let mut old = Rows::zero(&sheet);
        for position in (0..sheet.steps).rev() {
            old.premium_row = old_premiums_before(&sheet, &old, position + 1);
            assert_eq!(rows_at(&without, position).premium_row, old.premium_row);
            differ += usize::from(rows_at(&sheet, position).premium_row != old.premium_row);
        }
    }
    assert!(differ > 100, "{differ}");
}

/// Before any rounding; so that exact premium legs add too.
#[test]
fn fractions_of_the_whole_pool_add_to_those_of_the_index() {
    let mut some = 0;
    for mut sheet in sheets(104, 100) {
        sheet.attachments[0] = 0;
        sheet.attachments[sheet.tranches] = B;
        for step in 1..=sheet.steps {
            for count in 0..sheet.names {
                let paid = |tranche| elapsed_payment_over_b(&sheet, tranche, step, count);
                let all: u128 = (0..sheet.tranches).map(paid).sum();
                assert_eq!(all, paid(sheet.index()));
                some += usize::from(all > 0);
            }
        }
    }
    assert!(some > 100);
}

/// A tranche that the next default does not reach loses no outstanding nominal,
/// and so nothing is earned up to it; its step counts for the distance.
#[test]
fn nothing_is_earned_where_nothing_is_taken_away() {
    let mut sheet = plain_sheet(2, 1, 2);
    sheet.recovery = 0;
    sheet.attachments = vec![0, 500_000_000, B];
    sheet.hazards = vec![B, B];
    sheet.elapsed = vec![2_000_000];
    assert_eq!(check(&sheet), Ok(()));
    assert_eq!(outstanding(&sheet, 1, 0), outstanding(&sheet, 1, 1));
    assert_eq!(elapsed_payment(&sheet, 1, 1, 0), 0);
    assert_eq!(elapsed_payment(&sheet, 1, 1, 1), 1_000_000);
    let without = without_fractions(&sheet);
    assert_eq!(premium(&sheet, 0, 1, 0), premium(&without, 0, 1, 0));
    assert_eq!(doubled_distances(&sheet, 0), [2, 4]);
    assert_eq!(doubled_distances(&without, 0), [2, 3]);
}

/// Steps walked, premium dates and fractions among them.
#[test]
fn distances_count_the_fractions_behind() {
    let mut sheet = one_name(4);
    sheet.accruals = vec![5, 0, 0, 5];
    sheet.elapsed = vec![5, 1, 0, 2];
    assert_eq!(check(&sheet), Ok(()));
    let by_position = [0, 1, 2, 3, 4].map(|position| doubled_distances(&sheet, position));
    assert_eq!(by_position, [[8, 13], [6, 9], [4, 6], [2, 4], [0, 0]]);
}

/// 1.75 units apart after one step with one premium date, which alone allow
/// 1.5: both premiums of the default and the chance go up by a half each.
#[test]
fn the_old_distance_would_not_do() {
    let mut sheet = plain_sheet(2, 1, 1);
    sheet.recovery = 0;
    sheet.attachments = vec![0, B / 2 + 1];
    sheet.hazards = vec![B - 2, 0];
    sheet.discounts = vec![833_333_334];
    sheet.accruals = vec![B / 2 + 2];
    sheet.elapsed = vec![1];
    assert_eq!(check(&sheet), Ok(()));
    assert_eq!(premium(&sheet, 0, 0, 0), 3);
    let one = exact::leg_denominator(&sheet, 0);
    let exact = exact::premium_leg(&sheet, 0, 0, 0);
    let doubled = Natural::new(6)
        .times(&one)
        .distance(&exact.times(&Natural::new(2)));
    assert!(doubled > Natural::new(3).times(&one));
    assert_eq!(doubled_distances(&sheet, 0), [2, 4]);
    assert!(doubled <= Natural::new(4).times(&one));
}

/// Both premiums of a default go up, and are more than the accrual: a walk that
/// the old ceiling would have stopped goes on.
#[test]
fn walked_premiums_may_be_above_the_accruals() {
    let mut sheet = plain_sheet(2, 2, 1);
    sheet.recovery = 0;
    sheet.attachments = vec![0, B];
    sheet.hazards = vec![B, 0];
    sheet.discounts = vec![B, B];
    sheet.accruals = vec![0, 1];
    sheet.elapsed = vec![1, 1];
    assert_eq!(check(&sheet), Ok(()));
    let rows = rows_at(&sheet, 1);
    for tranche in [0, 1] {
        assert_eq!(premium_leg(&sheet, &rows, tranche, 0), 2);
    }
    assert_eq!(premium_ceiling(&sheet, 1, 0), 1 + 2 + 2);
    assert_eq!(first_over_ceiling(&sheet, &rows, 1), None);
    let mut register = register::blank();
    register::issue(&mut register, sheet.number).unwrap();
    let (mut d, mut a) = (vec![9; row_length(&sheet)], vec![9; row_length(&sheet)]);
    let (walk, _) = walk::open(Walk::fresh(), &sheet, &register, &mut d, &mut a);
    let (walk, _) = walk::back(walk, &sheet, &register, 1, &mut d, &mut a);
    let (_, answer) = walk::back(walk, &sheet, &register, 1, &mut d, &mut a);
    assert_eq!(answer, Ok(0));
}

/// The ceiling is that of a sheet without fractions: rows between the old one
/// and this are no longer refused there either.
#[test]
fn rows_up_to_the_ceiling_are_taken_without_fractions_too() {
    let sheet = worked::sheet();
    let mut register = register::blank();
    register::issue(&mut register, sheet.number).unwrap();
    let d = vec![0; row_length(&sheet)];
    let ask = |position: usize, count: usize, premium: u64| {
        let walk = Walk {
            open: true,
            number: sheet.number,
            position,
        };
        let mut a = vec![0; row_length(&sheet)];
        a[place(&sheet, 1, count)] = premium;
        let (_, answer) = walk::value(walk, &sheet, &register, 1, count, &d, &a);
        answer.map(|value| value.premium)
    };
    for (position, accruals) in [(0, B), (1, B), (2, 0)] {
        for count in 0..=2 {
            let units = (2 - count) + 2 * (2 - position);
            let most = accruals + units as u64;
            assert_eq!(ask(position, count, most), Ok(most.into()));
            let over = ask(position, count, most + 1);
            assert_eq!(over, Err(Refusal::OverCeiling));
        }
    }
}

/// No name is lost for good, so a jump is premium alone. At count 1 a default
/// is sure and brings half a year on half of the pool at once; at count 0 there
/// is none, and the premium comes with the last step, worth next to nothing.
#[test]
fn a_walked_jump_may_be_negative() {
    let mut sheet = plain_sheet(2, 2, 1);
    sheet.recovery = B;
    sheet.attachments = vec![0, 400_000_000];
    sheet.hazards = vec![0, B];
    sheet.discounts = vec![B, 1];
    sheet.accruals = vec![0, B];
    sheet.elapsed = vec![B / 2, 0];
    sheet.coupons = vec![3, 2];
    assert_eq!(check(&sheet), Ok(()));
    let rows = rows_at(&sheet, 0);
    let legs = [0, 1].map(|count| premium_leg(&sheet, &rows, 1, count));
    assert_eq!(legs, [1, 250_000_000]);
    assert_eq!(jump(&sheet, &rows, 1, 0), -2 * 249_999_999);
    // Recoveries leave the tranche alone up to 600000000: at count 1 the next
    // takes all 400000000 of it.
    let legs = [0, 1].map(|count| premium_leg(&sheet, &rows, 0, count));
    assert_eq!(legs, [0, 200_000_000]);
    assert_eq!(jump(&sheet, &rows, 0, 0), -3 * 200_000_000);
    assert_eq!(hedge_ratio(&sheet, &rows, 0, 0), Ok(1_200_000));
    // Without the fraction both are positive or zero.
    let rows = rows_at(&without_fractions(&sheet), 0);
    assert_eq!(
        [0, 1].map(|tranche| jump(&sheet, &rows, tranche, 0)),
        [0, 2]
    );
}

/// The same tree where half is lost: the losses stay below the tranche, which
/// loses premium alone, and the index gains what defaults pay.
#[test]
fn a_walked_ratio_may_be_negative() {
    let mut sheet = plain_sheet(2, 2, 1);
    sheet.recovery = B / 2;
    sheet.attachments = vec![B / 2, B];
    sheet.hazards = vec![0, B];
    sheet.discounts = vec![B, 1];
    sheet.accruals = vec![0, B];
    sheet.elapsed = vec![B / 2, 0];
    sheet.coupons = vec![4_000_000, 0];
    assert_eq!(check(&sheet), Ok(()));
    let rows = rows_at(&sheet, 0);
    assert_eq!(jump(&sheet, &rows, 0, 0), -4_000_000 * 124_999_999);
    assert_eq!(jump(&sheet, &rows, 1, 0), 10_000_000 * 500_000_000);
    assert_eq!(hedge_ratio(&sheet, &rows, 0, 0), Ok(-100_000));
}

/// The most steps that brute force can do, each with a fraction: one name has a
/// list of moves for every step it may default into, and one for none.
#[test]
fn many_fractions_are_near_their_exact_values() {
    let mut random = Random::new(105);
    for _ in 0..3 {
        let mut sheet = random.one_period_sheet(1, 16, 1);
        let last = sheet.accruals[15];
        sheet.accruals = [vec![0; 15], vec![last.max(2)]].concat();
        sheet.elapsed = random.list(16, 1, last.max(2));
        assert_eq!(check(&sheet), Ok(()));
        assert_eq!(doubled_distances(&sheet, 0), [32, 32 + 1 + 16]);
        let one = exact::leg_denominator(&sheet, 0);
        for tranche in [0, 1] {
            let rounded = Natural::new(premium(&sheet, 0, tranche, 0)).times(&one);
            let exact = exact::premium_leg(&sheet, 0, tranche, 0);
            let doubled = rounded.distance(&exact).times(&Natural::new(2));
            assert!(doubled <= Natural::new(49).times(&one));
        }
    }
}
