//! Hazards by period: figures worked by hand, sheets that repeat one period,
//! the step where a period starts, and the most periods there may be.

mod common;

use common::{plain_sheet, set_starts, Random, B};
use lavroudem_model::exact;
use lavroudem_model::natural::Natural;
use lavroudem_model::sheet::{check, Sheet};
use lavroudem_model::tree::{default_leg, distribution, premium_leg, roll_back, Rows};
use lavroudem_model::worked::two_periods;

fn rows_at(sheet: &Sheet, position: usize) -> Rows {
    let mut rows = Rows::zero(sheet);
    roll_back(sheet, &mut rows, sheet.steps, sheet.steps - position);
    rows
}

/// The sheet with one period, of these hazards.
fn with_hazards(sheet: &Sheet, hazards: &[u64]) -> Sheet {
    Sheet {
        starts: vec![1],
        hazards: hazards.to_vec(),
        ..sheet.clone()
    }
}

fn assert_same_figures(one: &Sheet, other: &Sheet) {
    for position in 0..=one.steps {
        assert_eq!(rows_at(one, position), rows_at(other, position));
        assert_eq!(distribution(one, position), distribution(other, position));
        let exact = exact::distribution(one, position);
        assert_eq!(exact, exact::distribution(other, position));
        let legs = |sheet: &Sheet, tranche: usize, count: usize| {
            let default = exact::default_leg(sheet, position, tranche, count);
            (default, exact::premium_leg(sheet, position, tranche, count))
        };
        for tranche in 0..=one.index() {
            for count in 0..=one.names {
                assert_eq!(legs(one, tranche, count), legs(other, tranche, count));
            }
        }
    }
}

#[test]
fn a_move_has_the_hazard_of_the_step_it_leads_into() {
    let sheet = two_periods();
    assert_eq!(check(&sheet), Ok(()));
    let hazards = [
        [100_000_000, 200_000_000, 0],
        [100_000_000, 200_000_000, 0],
        [300_000_000, 400_000_000, 0],
    ];
    for (before, of_step) in hazards.iter().enumerate() {
        for (count, &hazard) in of_step.iter().enumerate() {
            let step = before + 1;
            assert_eq!(sheet.hazard(step, count), hazard);
            assert_eq!(sheet.survival(step, count), u128::from(B) - hazard);
        }
    }
}

#[test]
fn legs_of_two_periods_are_those_worked_by_hand() {
    let sheet = two_periods();
    let index = sheet.index();
    let default = |position, count| default_leg(&sheet, &rows_at(&sheet, position), index, count);
    let at_none = [2, 1, 0].map(|position| default(position, 0));
    assert_eq!(at_none, [150_000_000, 205_000_000, 260_500_000]);
    assert_eq!(default(0, 1), 308_000_000);
    let root = rows_at(&sheet, 0);
    assert_eq!(premium_leg(&sheet, &root, index, 0), 739_500_000);
    // Nothing is rounded, and the tranche is the whole pool.
    assert_eq!(default_leg(&sheet, &root, 0, 0), 260_500_000);
    let one = exact::leg_denominator(&sheet, 0);
    let exactly = |units: u128| Natural::new(units).times(&one);
    for tranche in [0, index] {
        let default = exact::default_leg(&sheet, 0, tranche, 0);
        assert_eq!(default, exactly(260_500_000));
        let premium = exact::premium_leg(&sheet, 0, tranche, 0);
        assert_eq!(premium, exactly(739_500_000));
        let default = exact::default_leg(&sheet, 0, tranche, 1);
        assert_eq!(default, exactly(308_000_000));
    }
    let one = exact::leg_denominator(&sheet, 2);
    let default = exact::default_leg(&sheet, 2, index, 0);
    assert_eq!(default, Natural::new(150_000_000).times(&one));
}

#[test]
fn distribution_of_two_periods_is_that_worked_by_hand() {
    let sheet = two_periods();
    let rows = [
        [900_000_000, 100_000_000, 0],
        [810_000_000, 170_000_000, 20_000_000],
        [567_000_000, 345_000_000, 88_000_000],
    ];
    for (before, row) in rows.into_iter().enumerate() {
        let steps = before + 1;
        assert_eq!(distribution(&sheet, steps), row);
        // Chances are in billionths: Q over B against X over B^i.
        let one = Natural::power_of_b(steps - 1);
        let exact = row.map(|chance| Natural::new(chance).times(&one));
        assert_eq!(exact::distribution(&sheet, steps), exact);
    }
}

/// Whatever the starts.
#[test]
fn periods_alike_give_the_figures_of_one() {
    let mut random = Random::new(6);
    let mut several = 0;
    for _ in 0..150 {
        let mut sheet = random.small_sheet();
        let first = sheet.hazards[..sheet.names].to_vec();
        sheet.hazards = first.repeat(sheet.starts.len());
        assert_eq!(check(&sheet), Ok(()));
        several += usize::from(sheet.starts.len() > 1);
        assert_same_figures(&sheet, &with_hazards(&sheet, &first));
    }
    assert!(several > 50);
}

/// Two periods, the second from each step in turn. Up to the last step of the
/// first the distribution is that of its hazards alone, and from that position
/// on the rows are those of the second's; one step further neither is.
#[test]
fn a_period_starts_with_its_own_step() {
    let mut random = Random::new(7);
    for _ in 0..50 {
        let mut sheet = plain_sheet(3, 6, 2);
        sheet.recovery = 0;
        let first = random.list(3, 100_000_000, 400_000_000);
        let second = random.list(3, 500_000_000, 900_000_000);
        for start in 2..=6_usize {
            sheet.starts = vec![1, start as u64];
            sheet.hazards = [first.clone(), second.clone()].concat();
            assert_eq!(check(&sheet), Ok(()));
            let [early, late] = [&first, &second].map(|hazards| with_hazards(&sheet, hazards));
            for steps in 0..=6 {
                let same = distribution(&sheet, steps) == distribution(&early, steps);
                assert_eq!(same, steps < start, "{steps} steps, start {start}");
                let same = rows_at(&sheet, steps) == rows_at(&late, steps);
                assert_eq!(same, steps >= start - 1, "position {steps}, start {start}");
            }
        }
    }
}

/// A period for each of the first 15 steps and one for the last two, on one
/// name: a sure default in one period alone comes in its first step.
#[test]
fn each_of_16_periods_is_read() {
    let mut sheet = plain_sheet(1, 17, 1);
    for sure in 1..=16_usize {
        set_starts(&mut sheet, &Vec::from_iter(1..=16));
        sheet.hazards.fill(0);
        sheet.hazards[sure - 1] = B;
        assert_eq!(check(&sheet), Ok(()));
        for steps in 0..=17 {
            let gone = if steps >= sure { u128::from(B) } else { 0 };
            let row = [u128::from(B) - gone, gone];
            assert_eq!(distribution(&sheet, steps), row, "{sure}");
            let default = default_leg(&sheet, &rows_at(&sheet, steps), sheet.index(), 0);
            let ahead = sure > steps || sure == 16 && steps == 16;
            assert_eq!(default > 0, ahead, "{sure} at {steps}");
        }
    }
}

/// The most periods against the path sums: a name on 16 steps has 17 lists of
/// moves.
#[test]
fn sixteen_periods_are_near_their_exact_values() {
    let mut random = Random::new(16);
    for _ in 0..3 {
        let mut sheet = random.sheet(1, 16, 1);
        sheet.starts = Vec::from_iter(1..=16);
        sheet.hazards = random.list(16, 0, B);
        assert_eq!(check(&sheet), Ok(()));
        let rows = rows_at(&sheet, 0);
        let one = exact::leg_denominator(&sheet, 0);
        let within = |rounded: u128, exact: &Natural, doubled: usize| {
            let off = Natural::new(rounded).times(&one).distance(exact);
            off.times(&Natural::new(2)) <= Natural::new(doubled as u128).times(&one)
        };
        let [default_limit, premium_limit] = exact::doubled_distances(&sheet, 0);
        let default = default_leg(&sheet, &rows, 1, 0);
        let premium = premium_leg(&sheet, &rows, 1, 0);
        let exact = exact::default_leg(&sheet, 0, 1, 0);
        assert!(within(default, &exact, default_limit));
        let exact = exact::premium_leg(&sheet, 0, 1, 0);
        assert!(within(premium, &exact, premium_limit));
        let one = Natural::power_of_b(16);
        let chance = Natural::new(distribution(&sheet, 16)[0]).times(&one);
        let exact = exact::distribution(&sheet, 16)[0].times(&Natural::new(u128::from(B)));
        assert!(chance.distance(&exact) <= Natural::new(16).times(&one));
    }
}
