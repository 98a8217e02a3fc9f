//! The figures document 01 prints for its deck.

use lavroudem_model::exact;
use lavroudem_model::natural::Natural;
use lavroudem_model::sheet::{check, Sheet};
use lavroudem_model::tree::{
    default_leg, distribution, hedge_ratio, jump, net_value, premium_leg, roll_back, Rows,
};
use lavroudem_model::worked;
use std::process::Command;

fn root_rows(sheet: &Sheet) -> Rows {
    let mut rows = Rows::zero(sheet);
    let position = roll_back(sheet, &mut rows, sheet.steps, sheet.steps);
    assert_eq!(position, 0);
    rows
}

fn assert_value(tranche: usize, default: u128, premium: u128, net: i128) {
    let sheet = worked::sheet();
    let rows = root_rows(&sheet);
    assert_eq!(default_leg(&sheet, &rows, tranche, 0), default);
    assert_eq!(premium_leg(&sheet, &rows, tranche, 0), premium);
    assert_eq!(net_value(&sheet, &rows, tranche, 0), net);
}

#[test]
fn sheet_is_accepted() {
    assert_eq!(check(&worked::sheet()), Ok(()));
}

#[test]
fn value_of_the_tranche() {
    assert_value(0, 54_300_000, 218_700_000, 324_300_000_000_000);
}

#[test]
fn value_of_the_index() {
    assert_value(1, 59_700_000, 805_500_000, 194_250_000_000_000);
}

#[test]
fn hedge_ratio_of_the_tranche() {
    let sheet = worked::sheet();
    let rows = root_rows(&sheet);
    // By hand, in units: tranche 300000000 - 54300000 and 0 - 218700000;
    // index 300000000 + 103200000 - 59700000 and 288000000 - 805500000.
    assert_eq!(jump(&sheet, &rows, 0, 0), 2_675_700_000_000_000);
    assert_eq!(jump(&sheet, &rows, 1, 0), 3_693_750_000_000_000);
    assert_eq!(hedge_ratio(&sheet, &rows, 0, 0), Ok(724_386));
}

#[test]
fn distribution_after_each_step() {
    let sheet = worked::sheet();
    assert_eq!(distribution(&sheet, 0), [1_000_000_000, 0, 0]);
    assert_eq!(distribution(&sheet, 1), [900_000_000, 100_000_000, 0]);
    let last = [810_000_000, 170_000_000, 20_000_000];
    assert_eq!(distribution(&sheet, 2), last);
}

#[test]
fn whole_rows_on_the_way_back() {
    let sheet = worked::sheet();
    let mut rows = Rows::zero(&sheet);
    roll_back(&sheet, &mut rows, 2, 1);
    let default_row = [27_000_000, 0, 0, 27_000_000, 54_000_000, 0];
    let premium_row = [243_000_000, 0, 0, 855_000_000, 360_000_000, 0];
    assert_eq!(rows.default_row, default_row);
    assert_eq!(rows.premium_row, premium_row);

    roll_back(&sheet, &mut rows, 1, 1);
    let default_row = [54_300_000, 0, 0, 59_700_000, 103_200_000, 0];
    let premium_row = [218_700_000, 0, 0, 805_500_000, 288_000_000, 0];
    assert_eq!(rows.default_row, default_row);
    assert_eq!(rows.premium_row, premium_row);
}

/// Nothing is lost to rounding on this sheet: the exact root values are
/// whole units, so each is the printed figure times B^5.
#[test]
fn exact_values_are_the_printed_ones() {
    let sheet = worked::sheet();
    let units = |number: u128| Natural::new(number).times(&Natural::power_of_b(5));
    assert_eq!(exact::leg_denominator(&sheet, 0), units(1));
    assert_eq!(exact::default_leg(&sheet, 0, 0, 0), units(54_300_000));
    assert_eq!(exact::premium_leg(&sheet, 0, 0, 0), units(218_700_000));
    assert_eq!(exact::default_leg(&sheet, 0, 1, 0), units(59_700_000));
    assert_eq!(exact::premium_leg(&sheet, 0, 1, 0), units(805_500_000));
}

#[test]
fn exact_distribution_is_the_printed_one() {
    let units = |number: u128| Natural::new(number).times(&Natural::power_of_b(1));
    let row = [units(810_000_000), units(170_000_000), units(20_000_000)];
    assert_eq!(exact::distribution(&worked::sheet(), 2), row);
}

#[test]
fn program_prints_the_figures() {
    let run = Command::new(env!("CARGO_BIN_EXE_worked")).output().unwrap();
    assert!(run.status.success());
    let expected = "\
tranche 0: D 54300000, A 218700000, W 324300000000000
index: D 59700000, A 805500000, W 194250000000000
hedge ratio of tranche 0: 724386 millionths
default counts 0, 1, 2 after 2 steps: 810000000, 170000000, 20000000
";
    assert_eq!(String::from_utf8(run.stdout).unwrap(), expected);
}
