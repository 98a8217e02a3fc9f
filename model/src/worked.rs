//! The small sheet whose figures document 01 prints with its deck, the same with
//! premium up to a default, and one of two periods, worked by hand.

use crate::sheet::Sheet;

pub fn sheet() -> Sheet {
    Sheet {
        number: 7,
        names: 2,
        steps: 2,
        tranches: 1,
        recovery: 400_000_000,
        attachments: vec![0, 300_000_000],
        starts: vec![1],
        hazards: vec![100_000_000, 200_000_000],
        discounts: vec![1_000_000_000, 900_000_000],
        accruals: vec![0, 1_000_000_000],
        elapsed: vec![0; 2],
        coupons: vec![1_000_000, 500_000],
    }
}

/// Each step is half a year, and a default comes in its middle.
pub fn earned() -> Sheet {
    Sheet {
        elapsed: vec![250_000_000, 750_000_000],
        ..sheet()
    }
}

/// The first period ends with step 2.
pub fn two_periods() -> Sheet {
    Sheet {
        number: 6,
        names: 2,
        steps: 3,
        tranches: 1,
        recovery: 0,
        attachments: vec![0, 1_000_000_000],
        starts: vec![1, 3],
        hazards: vec![100_000_000, 200_000_000, 300_000_000, 400_000_000],
        discounts: vec![1_000_000_000; 3],
        accruals: vec![0, 0, 1_000_000_000],
        elapsed: vec![0; 3],
        coupons: vec![1_000_000, 500_000],
    }
}
