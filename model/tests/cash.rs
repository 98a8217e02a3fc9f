//! Rounding, losses and payments: the trial entries of document 01 that
//! need no call, and the edges beside them.

mod common;

use common::{plain_sheet, B};
use lavroudem_model::cash::{
    default_payment, half, loss_case, outstanding, pool_loss, premium_payment,
    premium_payment_over_b, tranche_loss, width, LossCase,
};
use lavroudem_model::sheet::check;

#[test]
fn half_edges() {
    assert_eq!(half(0), 0);
    assert_eq!(half(499_999_999), 0);
    assert_eq!(half(500_000_000), 1);
    assert_eq!(half(1_499_999_999), 1);
    assert_eq!(half(1_500_000_000), 2);
    // The largest argument a walk can bring: v at B, ten years of accrual.
    assert_eq!(half(10_000_000_000_000_000_000), 10_000_000_000);
}

/// Document 002, tables 2.2 and 2.3, as document 01 quotes them.
#[test]
fn losses_of_the_two_lowest_tranches() {
    let sheet = plain_sheet(125, 1, 2);
    assert_eq!(check(&sheet), Ok(()));
    assert_eq!(sheet.attachments, [0, 30_000_000, 60_000_000]);
    for (tranche, count, left) in [
        (0, 6, 1_200_000),
        (0, 7, 0),
        (1, 6, 30_000_000),
        (1, 7, 26_400_000),
        (1, 12, 2_400_000),
        (1, 13, 0),
    ] {
        assert_eq!(outstanding(&sheet, tranche, count), left);
        assert_eq!(tranche_loss(&sheet, tranche, count), 30_000_000 - left);
    }
    assert_eq!(pool_loss(&sheet, 6), 28_800_000);
    assert_eq!(pool_loss(&sheet, 7), 33_600_000);
    assert_eq!(pool_loss(&sheet, 12), 57_600_000);
    assert_eq!(pool_loss(&sheet, 13), 62_400_000);
    // The seventh default eats through the boundary of the two.
    assert_eq!(default_payment(&sheet, 0, 6), 1_200_000);
    assert_eq!(default_payment(&sheet, 1, 6), 3_600_000);
}

/// The nominal columns of document 002, tables 2.2 and 2.3, in hundredths of
/// a per cent. The second line for 12 defaults is read as 13.
#[test]
fn outstanding_as_the_tables_print_it() {
    let sheet = plain_sheet(125, 1, 2);
    let lowest = vec![300, 252, 204, 156, 108, 60, 12, 0];
    let next = vec![
        300, 300, 300, 300, 300, 300, 300, 264, 216, 168, 120, 72, 24, 0,
    ];
    for (tranche, printed) in [lowest, next].into_iter().enumerate() {
        for (count, hundredths) in printed.into_iter().enumerate() {
            let left: u128 = hundredths * 100_000;
            assert_eq!(
                outstanding(&sheet, tranche, count),
                left,
                "{tranche} {count}"
            );
        }
    }
}

/// A loss on a point still has the case under it; each case is the clamped
/// figure.
#[test]
fn losses_go_by_three_cases() {
    use LossCase::{Above, Below, Inside};
    let mut sheet = plain_sheet(1, 1, 1);
    for (points, loss, case, lost) in [
        ([30, 60], 0, Below, 0),
        ([30, 60], 30, Below, 0),
        ([30, 60], 31, Inside, 1),
        ([30, 60], 60, Inside, 30),
        ([30, 60], 61, Above, 30),
        ([30, 60], B, Above, 30),
        ([0, B], 0, Below, 0),
        ([0, B], 1, Inside, 1),
        ([0, B], B, Inside, B),
        ([B - 1, B], B - 1, Below, 0),
        ([B - 1, B], B, Inside, 1),
        ([0, B - 1], B, Above, B - 1),
    ] {
        sheet.attachments = points.to_vec();
        sheet.recovery = B - loss;
        let [lower, upper] = points.map(u128::from);
        let loss = u128::from(loss);
        assert_eq!(pool_loss(&sheet, 1), loss);
        assert_eq!(loss_case(loss, lower, upper), case, "{loss} of {points:?}");
        assert_eq!(
            tranche_loss(&sheet, 0, 1),
            lost.into(),
            "{loss} of {points:?}"
        );
        assert_eq!(loss.clamp(lower, upper) - lower, lost.into());
    }
}

#[test]
fn losses_are_rounded_down() {
    let mut sheet = plain_sheet(3, 1, 1);
    sheet.recovery = 1;
    // 999999999 / 3 is whole, 1000000000 / 3 is not.
    assert_eq!(pool_loss(&sheet, 1), 333_333_333);
    assert_eq!(pool_loss(&sheet, 2), 666_666_666);
    assert_eq!(pool_loss(&sheet, 3), 999_999_999);
    sheet.recovery = 0;
    assert_eq!(pool_loss(&sheet, 1), 333_333_333);
    assert_eq!(pool_loss(&sheet, 2), 666_666_666);
    assert_eq!(pool_loss(&sheet, 3), 1_000_000_000);
    // So the defaults pay unlike amounts, and the index leaves unlike ones.
    let index = sheet.index();
    assert_eq!(default_payment(&sheet, index, 1), 333_333_333);
    assert_eq!(default_payment(&sheet, index, 2), 333_333_334);
    assert_eq!(outstanding(&sheet, index, 2), 333_333_334);
    assert_eq!(outstanding(&sheet, index, 3), 0);
}

/// T-12: by recovery and count, what is left of a pool of three: of two tranches
/// from 0 to B, and of the index. With a recovery of B a default costs nothing
/// and takes the whole name off the top.
const LEFT_OF_THREE: [(u64, [[u128; 3]; 4]); 3] = [
    (
        350_000_000,
        [
            [300_000_000, 700_000_000, 1_000_000_000],
            [83_333_334, 583_333_334, 666_666_668],
            [0, 333_333_334, 333_333_334],
            [0, 0, 0],
        ],
    ),
    (
        0,
        [
            [300_000_000, 700_000_000, 1_000_000_000],
            [0, 666_666_667, 666_666_667],
            [0, 333_333_334, 333_333_334],
            [0, 0, 0],
        ],
    ),
    (
        1_000_000_000,
        [
            [300_000_000, 700_000_000, 1_000_000_000],
            [300_000_000, 366_666_667, 666_666_667],
            [300_000_000, 33_333_334, 333_333_334],
            [0, 0, 0],
        ],
    ),
];

#[test]
fn recoveries_come_off_the_top() {
    let mut sheet = plain_sheet(3, 1, 2);
    sheet.attachments = vec![0, 300_000_000, B];
    for (recovery, left) in LEFT_OF_THREE {
        sheet.recovery = recovery;
        for (count, right) in left.into_iter().enumerate() {
            let left = [0, 1, 2].map(|tranche| outstanding(&sheet, tranche, count));
            assert_eq!(left, right, "recovery {recovery}, count {count}");
        }
    }
    // Where they meet in the middle, the second default reaches below the top.
    sheet.attachments = vec![0, 500_000_000, B];
    assert_eq!(outstanding(&sheet, 0, 2), 333_333_334);
    assert_eq!(outstanding(&sheet, 1, 2), 0);
}

#[test]
fn index_loses_the_pool_loss() {
    let sheet = plain_sheet(125, 1, 2);
    let index = sheet.index();
    assert_eq!(width(&sheet, index), 600_000_000);
    for count in 0..=125 {
        assert_eq!(tranche_loss(&sheet, index, count), pool_loss(&sheet, count));
    }
    assert_eq!(tranche_loss(&sheet, index, 125), width(&sheet, index));
    assert_eq!(outstanding(&sheet, index, 1), 992_000_000);
    assert_eq!(outstanding(&sheet, index, 125), 0);
}

#[test]
fn premium_is_accrual_times_outstanding() {
    let mut sheet = plain_sheet(2, 2, 1);
    sheet.attachments = vec![0, B];
    sheet.accruals = vec![0, 1];
    // O(0) is B, O(1) is 500000000 and O(2) is 0.
    assert_eq!(premium_payment_over_b(&sheet, 0, 2, 1), 500_000_000);
    assert_eq!(premium_payment(&sheet, 0, 2, 0), 1);
    assert_eq!(premium_payment(&sheet, 0, 2, 1), 1);
    assert_eq!(premium_payment(&sheet, 0, 2, 2), 0);
    // Not a premium date.
    assert_eq!(premium_payment(&sheet, 0, 1, 0), 0);
}
