//! The quotient of two jumps: its rounding, its sign and its refusals.

mod common;

use common::{plain_sheet, Random, B};
use lavroudem_model::refusal::Refusal;
use lavroudem_model::sheet::Sheet;
use lavroudem_model::tree::{
    first_over_ceiling, hedge_ratio, jump, place, ratio_in_millionths, roll_back, Rows,
};

#[test]
fn half_is_rounded_away_from_zero() {
    for (tranche_jump, index_jump, ratio) in [
        (1, 2_000_000, 1),
        (1, 2_000_001, 0),
        (1, 1_999_999, 1),
        (2, 3, 666_667),
        (1, 3, 333_333),
        (3, 2_000_000, 2),
        (5, 2_000_000, 3),
        (2_999_999, 2_000_000_000_000, 1),
        (3_000_000, 2_000_000_000_000, 2),
        (0, 1, 0),
        (7, 7, 1_000_000),
    ] {
        assert_eq!(ratio_in_millionths(tranche_jump, index_jump), Ok(ratio));
        assert_eq!(ratio_in_millionths(-tranche_jump, index_jump), Ok(-ratio));
        assert_eq!(ratio_in_millionths(tranche_jump, -index_jump), Ok(-ratio));
        assert_eq!(ratio_in_millionths(-tranche_jump, -index_jump), Ok(ratio));
    }
}

#[test]
fn flat_index_is_refused_first() {
    for tranche_jump in [-1, 0, 1, 1_000_000, i128::from(i64::MIN)] {
        let answer = ratio_in_millionths(tranche_jump, 0);
        assert_eq!(answer, Err(Refusal::FlatHedge));
    }
}

#[test]
fn off_scale_from_a_million_times() {
    for index_jump in [1_i128, -1, 3, -3, 120_000_000_000] {
        let limit = 1_000_000 * index_jump;
        for beyond in [limit, -limit, limit + index_jump.signum()] {
            let answer = ratio_in_millionths(beyond, index_jump);
            assert_eq!(answer, Err(Refusal::OffScale));
        }
        let inside = limit - index_jump.signum();
        assert!(ratio_in_millionths(inside, index_jump).is_ok());
        assert!(ratio_in_millionths(-inside, index_jump).is_ok());
    }
    assert_eq!(ratio_in_millionths(999_999, 1), Ok(999_999_000_000));
    // Still on scale, though the rounded figure reaches a million.
    let size = 1_000_000_000_000 * 10_000_000;
    let answer = ratio_in_millionths(size - 1, size / 1_000_000);
    assert_eq!(answer, Ok(1_000_000_000_000));
}

#[test]
fn agrees_with_bounds_on_random_jumps() {
    let mut random = Random::new(15);
    let mut negative = 0;
    for _ in 0..20_000 {
        let draw = |random: &mut Random| {
            let bits = random.between(1, 57);
            let size = (random.draw() >> (64 - bits)) as i128;
            if random.between(0, 1) == 0 {
                size
            } else {
                -size
            }
        };
        let (a, b) = (draw(&mut random), draw(&mut random));
        match ratio_in_millionths(a, b) {
            Ok(ratio) => {
                // |ratio - 10^6 a / b| is at most a half, and on the half
                // the answer is the farther one from zero.
                let error = 2 * (ratio * b - 1_000_000 * a).abs();
                assert!(error <= b.abs());
                let farther = (ratio * b).abs() > (1_000_000 * a).abs();
                assert!(error < b.abs() || farther);
                negative += usize::from(ratio < 0);
            }
            Err(Refusal::FlatHedge) => assert_eq!(b, 0),
            Err(refusal) => {
                assert_eq!(refusal, Refusal::OffScale);
                assert!(a.abs() / 1_000_000 >= b.abs());
            }
        }
    }
    assert!(negative > 1_000);
}

/// Two names, no recovery, one tranche as wide as the pool: each default
/// pays 500000000 to the tranche and to the index.
fn two_names() -> Sheet {
    let mut sheet = plain_sheet(2, 1, 1);
    sheet.recovery = 0;
    sheet.attachments = vec![0, B];
    sheet.accruals = vec![B];
    sheet.coupons = vec![10_000_000, 4_000_000];
    sheet
}

/// Lent rows need not come from a walk; below their ceilings they may give
/// jumps of either sign.
#[test]
fn negative_jump_gives_a_negative_ratio() {
    let sheet = two_names();
    let mut rows = Rows::zero(&sheet);
    rows.default_row[place(&sheet, 0, 0)] = 800_000_000;
    rows.premium_row[place(&sheet, 0, 1)] = 100_000_000;
    rows.premium_row[place(&sheet, 0, 0)] = 20_000_000;
    rows.premium_row[place(&sheet, 1, 1)] = 250_000_000;
    assert_eq!(first_over_ceiling(&sheet, &rows, 0), None);

    // 10^7 (500000000 - 800000000) - 10^7 (100000000 - 20000000)
    assert_eq!(jump(&sheet, &rows, 0, 0), -3_800_000_000_000_000);
    // 10^7 x 500000000 - 4000000 x 250000000
    assert_eq!(jump(&sheet, &rows, 1, 0), 4_000_000_000_000_000);
    assert_eq!(hedge_ratio(&sheet, &rows, 0, 0), Ok(-950_000));
    assert_eq!(hedge_ratio(&sheet, &rows, 1, 0), Ok(1_000_000));
}

#[test]
fn rows_can_be_flat_or_off_scale() {
    let sheet = two_names();
    let mut rows = Rows::zero(&sheet);
    // The index default leg falls by just what the default pays.
    rows.default_row[place(&sheet, 1, 0)] = 500_000_000;
    assert_eq!(jump(&sheet, &rows, 1, 0), 0);
    assert_eq!(hedge_ratio(&sheet, &rows, 0, 0), Err(Refusal::FlatHedge));
    rows.default_row[place(&sheet, 1, 0)] -= 1;
    assert_eq!(jump(&sheet, &rows, 1, 0), 10_000_000);
    assert_eq!(hedge_ratio(&sheet, &rows, 0, 0), Err(Refusal::OffScale));
    rows.default_row[place(&sheet, 1, 0)] = 500_000_000 - 501;
    let ratio = hedge_ratio(&sheet, &rows, 0, 0);
    assert_eq!(ratio, Ok(998_003_992_016));
}

/// A pool that recovers all and pays no index coupon cannot hedge anything.
#[test]
fn full_recovery_without_coupon_is_flat() {
    let mut sheet = plain_sheet(2, 3, 1);
    sheet.recovery = B;
    sheet.coupons = vec![500_000, 0];
    let mut rows = Rows::zero(&sheet);
    roll_back(&sheet, &mut rows, 3, 3);
    assert_eq!(hedge_ratio(&sheet, &rows, 0, 0), Err(Refusal::FlatHedge));
    sheet.coupons[1] = 500_000;
    assert!(hedge_ratio(&sheet, &rows, 0, 0).is_ok());
}
