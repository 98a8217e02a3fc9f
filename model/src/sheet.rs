//! The sheet and its checks (document 01, "Sheet and units").

use crate::refusal::{refuse_if, Refusal};

/// Units in the whole pool; also the "one" of every chance and discount.
pub const B: u128 = 1_000_000_000;

pub const MAX_NAMES: usize = 125;
pub const MAX_STEPS: usize = 3_650;
pub const MAX_TRANCHES: usize = 8;
pub const MAX_PERIODS: usize = 16;

/// Ten years, in billionths of a year.
pub const MAX_ACCRUAL_SUM: u128 = 10 * B;

/// 10,000 basis points, in thousandths of a basis point.
pub const MAX_COUPON: u128 = 10_000_000;

/// What a supplier sends. The fields are not trusted until [`check`] passes.
#[derive(Clone, Debug, PartialEq, Eq)]
pub struct Sheet {
    /// The sheet number; it plays no part in any figure.
    pub number: u8,
    /// n of document 01.
    pub names: usize,
    /// m of document 01.
    pub steps: usize,
    /// r of document 01: the number of "slices", the index not counted.
    pub tranches: usize,
    /// R of document 01.
    pub recovery: u64,
    /// The r + 1 attachment points, "cuts" in document 01. Tranche j lies
    /// between points j and j + 1.
    pub attachments: Vec<u64>,
    /// The first step of each period of hazards; the last one ends with the
    /// tree.
    pub starts: Vec<u64>,
    /// n for each period, one period after the other.
    pub hazards: Vec<u64>,
    /// v(1) to v(m), so v(i) is at place i - 1.
    pub discounts: Vec<u64>,
    /// a(1) to a(m), so a(i) is at place i - 1.
    pub accruals: Vec<u64>,
    /// e(1) to e(m), so e(i) is at place i - 1: what part of a year a name has
    /// earned its premium when it defaults into step i.
    pub elapsed: Vec<u64>,
    /// One for each tranche, then the one of the index.
    pub coupons: Vec<u64>,
}

impl Sheet {
    /// The tranche number that stands for the index.
    pub fn index(&self) -> usize {
        self.tranches
    }

    /// The period, counted from 0, that holds a step from 1 to m: the last
    /// one that has started by then.
    fn period(&self, step: usize) -> usize {
        let has_started = |&start: &u64| start <= step as u64;
        let holds = self.starts.iter().rposition(has_started);
        holds.expect("a step before the first period")
    }

    /// p of the move into a step, 1 to m, from a count. Nobody is left to
    /// default at count n, so it is 0 there.
    pub fn hazard(&self, step: usize, count: usize) -> u128 {
        if count == self.names {
            0
        } else {
            u128::from(self.hazards[self.period(step) * self.names + count])
        }
    }

    /// B - p: the chance that the move into a step leaves the count alone.
    pub fn survival(&self, step: usize, count: usize) -> u128 {
        B - self.hazard(step, count)
    }

    /// v(i), for i from 1 to m.
    pub fn discount(&self, step: usize) -> u128 {
        u128::from(self.discounts[step - 1])
    }

    /// a(i), for i from 1 to m.
    pub fn accrual(&self, step: usize) -> u128 {
        u128::from(self.accruals[step - 1])
    }

    /// e(i), for i from 1 to m.
    pub fn elapsed(&self, step: usize) -> u128 {
        u128::from(self.elapsed[step - 1])
    }

    /// A step pays premium just when its accrual is not zero.
    pub fn is_premium_date(&self, step: usize) -> bool {
        self.accrual(step) != 0
    }

    /// The first premium date at or after a step. There is one: the last
    /// accrual is not zero.
    pub fn next_premium_date(&self, step: usize) -> usize {
        let date = (step..=self.steps).find(|&step| self.is_premium_date(step));
        date.expect("no premium date ahead")
    }

    pub fn coupon(&self, tranche: usize) -> u128 {
        u128::from(self.coupons[tranche])
    }
}

/// Checks 1 to 8 with 25 before 5 and 21 after 7, in the order of document 01;
/// the first fault is named.
pub fn check(sheet: &Sheet) -> Result<(), Refusal> {
    check_pool(sheet)?;
    refuse_if(length_fault(sheet), Refusal::Length)?;
    check_figures(sheet)
}

/// Check 1.
pub fn check_pool(sheet: &Sheet) -> Result<(), Refusal> {
    refuse_if(pool_fault(sheet), Refusal::Pool)
}

/// Checks 3, 4, 25, 5 to 7, 21 and 8. They stand apart from the others because
/// a call has more lengths to check than those of the sheet's own lists.
pub fn check_figures(sheet: &Sheet) -> Result<(), Refusal> {
    refuse_if(above(sheet.recovery, B), Refusal::Recovery)?;
    refuse_if(attachment_fault(sheet), Refusal::Attachments)?;
    refuse_if(period_fault(sheet), Refusal::Periods)?;
    refuse_if(hazard_fault(sheet), Refusal::Hazard)?;
    refuse_if(discount_fault(sheet), Refusal::Discount)?;
    refuse_if(accrual_fault(sheet), Refusal::Accrual)?;
    refuse_if(elapsed_fault(sheet), Refusal::Elapsed)?;
    refuse_if(coupon_fault(sheet), Refusal::Coupon)
}

fn above(number: u64, limit: u128) -> bool {
    u128::from(number) > limit
}

fn pool_fault(sheet: &Sheet) -> bool {
    !(1..=MAX_NAMES).contains(&sheet.names)
        || !(1..=MAX_STEPS).contains(&sheet.steps)
        || !(1..=MAX_TRANCHES).contains(&sheet.tranches)
}

// From here on each fault may rely on the checks before its own: the lists
// have their lengths, and none is empty.

/// The part of check 2 that concerns the sheet's own lists.
pub fn length_fault(sheet: &Sheet) -> bool {
    sheet.attachments.len() != sheet.tranches + 1
        || !(1..=MAX_PERIODS).contains(&sheet.starts.len())
        || sheet.hazards.len() != sheet.names * sheet.starts.len()
        || sheet.discounts.len() != sheet.steps
        || sheet.accruals.len() != sheet.steps
        || sheet.elapsed.len() != sheet.steps
        || sheet.coupons.len() != sheet.tranches + 1
}

fn attachment_fault(sheet: &Sheet) -> bool {
    let rising = sheet.attachments.windows(2).all(|pair| pair[0] < pair[1]);
    let too_high = sheet.attachments.iter().any(|&point| above(point, B));
    !rising || too_high
}

/// Check 25. Every step lies in a period, and no period is empty.
pub fn period_fault(sheet: &Sheet) -> bool {
    let from_1 = sheet.starts.first() == Some(&1);
    let rising = sheet.starts.windows(2).all(|pair| pair[0] < pair[1]);
    let beyond = |&start: &u64| above(start, sheet.steps as u128);
    !from_1 || !rising || sheet.starts.iter().any(beyond)
}

fn hazard_fault(sheet: &Sheet) -> bool {
    sheet.hazards.iter().any(|&hazard| above(hazard, B))
}

fn discount_fault(sheet: &Sheet) -> bool {
    let fault = |discount: u64| discount == 0 || above(discount, B);
    sheet.discounts.iter().any(|&discount| fault(discount))
}

fn accrual_fault(sheet: &Sheet) -> bool {
    let too_high = sheet.accruals.iter().any(|&accrual| above(accrual, B));
    // In u128, because unchecked accruals may be as large as a u64 can be.
    let sum: u128 = sheet.accruals.iter().map(|&a| u128::from(a)).sum();
    let last_is_zero = sheet.accruals.last() == Some(&0);
    too_high || sum > MAX_ACCRUAL_SUM || last_is_zero
}

/// Check 21. Nothing is earned for longer than the next premium date pays for.
fn elapsed_fault(sheet: &Sheet) -> bool {
    let most = |step: usize| sheet.accrual(sheet.next_premium_date(step));
    (1..=sheet.steps).any(|step| sheet.elapsed(step) > most(step))
}

fn coupon_fault(sheet: &Sheet) -> bool {
    sheet
        .coupons
        .iter()
        .any(|&coupon| above(coupon, MAX_COUPON))
}
