//! The limits that the calls which bring a sheet heed, each with a change of
//! one desk to either side of it.

use super::desk::Call::{self, Back, Forward, Open, Ratio, Value};
use super::desk::Desk;
use super::{plain_sheet, set_starts, B};
use lavroudem_model::deck::CALLS;
use lavroudem_model::refusal::Refusal;
use lavroudem_model::sheet::Sheet;

pub const ALL: &[Call] = &[Open, Back, Value, Ratio, Forward];
const LENT_ROWS: &[Call] = &[Open, Back, Value, Ratio];
pub const ON_A_WALK: &[Call] = &[Back, Value, Ratio];
const AT_A_NODE: &[Call] = &[Value, Ratio];
const BACK: &[Call] = &[Back];
pub const VALUE: &[Call] = &[Value];
const RATIO: &[Call] = &[Ratio];
const FORWARD: &[Call] = &[Forward];

/// Every call that brings the sheet is accepted next.
pub fn walked(sheet: Sheet) -> Desk {
    Desk::walked(sheet, &CALLS)
}

/// The desk that the faults below are made on: 3 names, so that L rises by
/// 200000000, attachment points 0, 30000000 and 60000000, and rows that stand
/// at position 2 of 3.
pub fn base() -> Desk {
    walked(plain_sheet(3, 3, 2))
}

pub type Change = fn(&mut Desk);

/// One limit: the calls that must heed it and a change of the base desk to
/// each side of it.
pub struct Edge {
    pub refusal: Refusal,
    pub calls: &'static [Call],
    pub inside: Change,
    pub outside: Change,
    /// The outside change, in words.
    pub name: &'static str,
}

/// A row for each limit, in columns.
macro_rules! edges {
    (|$d:ident| $($refusal:ident $calls:ident: $inside:expr, $outside:expr;)*) => {
        vec![$(Edge {
            refusal: Refusal::$refusal,
            calls: $calls,
            inside: |$d| { $inside; },
            outside: |$d| { $outside; },
            name: stringify!($outside),
        }),*]
    };
}

fn last(list: &mut [u64]) -> &mut u64 {
    list.last_mut().unwrap()
}

/// The base desk is on the right side already.
fn as_it_is(_: &mut Desk) {}

/// Starts again with another sheet.
fn restart(desk: &mut Desk, sheet: Sheet) {
    *desk = walked(sheet);
}

/// Starts again with a changed sheet.
fn with(desk: &mut Desk, change: fn(&mut Sheet)) {
    change(&mut desk.sheet);
    restart(desk, desk.sheet.clone());
}

/// Sets the default legs of tranche 0 and of the index at count 0. With the
/// rest at 0, their jumps are 30000000 and 200000000 less these, times 10^7.
fn jumps(desk: &mut Desk, tranche_leg: u64, index_leg: u64) {
    for start in [0, 8] {
        desk.default_row[start + 1] = 0;
        desk.premium_row[start..start + 2].fill(0);
    }
    desk.default_row[0] = tranche_leg;
    desk.default_row[8] = index_leg;
}

/// Ten years in all, in 11 steps.
fn ten_years() -> Sheet {
    let mut sheet = plain_sheet(3, 11, 2);
    sheet.accruals = vec![B; 11];
    sheet.accruals[4] = B - 1;
    sheet.accruals[10] = 1;
    sheet
}

/// A period more of the base desk's three names, whatever else is wrong.
fn add_period(sheet: &mut Sheet, start: u64) {
    sheet.starts.push(start);
    sheet.hazards.extend([0; 3]);
}

/// The most periods, on so many steps that one more would fit.
fn most_periods() -> Sheet {
    let mut sheet = plain_sheet(3, 17, 2);
    set_starts(&mut sheet, &Vec::from_iter(1..=16));
    sheet
}

/// Only the last step pays, and for longer than the others did; this fraction
/// is that of the first.
fn far_date(sheet: &mut Sheet, fraction: u64) {
    sheet.accruals = vec![0, 0, 3_000_000];
    sheet.elapsed[0] = fraction;
}

/// In the order of the checks. An outside change keeps off what those of other refusals touch, so that
/// several can be made to one desk. An added figure is a good one. The places
/// in the rows are at the counts 2 and 3, which no jump at count 0 looks at; in
/// a row of the base desk the step is 4.
pub fn edges() -> Vec<Edge> {
    edges! { |d|
        // Refusal   calls      up to the limit                           beyond it
        Pool         ALL:       restart(d, plain_sheet(1, 3, 2)),         d.sheet.names = 0;
        Pool         ALL:       restart(d, plain_sheet(125, 3, 2)),       d.sheet.names = 126;
        Pool         ALL:       as_it_is(d),                              d.sheet.names = usize::MAX;
        Pool         ALL:       restart(d, plain_sheet(3, 1, 2)),         d.sheet.steps = 0;
        Pool         ALL:       restart(d, plain_sheet(3, 3_650, 2)),     d.sheet.steps = 3_651;
        Pool         ALL:       as_it_is(d),                              d.sheet.steps = usize::MAX;
        Pool         ALL:       restart(d, plain_sheet(3, 3, 1)),         d.sheet.tranches = 0;
        Pool         ALL:       restart(d, plain_sheet(3, 3, 8)),         d.sheet.tranches = 9;
        Pool         ALL:       as_it_is(d),                              d.sheet.tranches = usize::MAX;

        Length       ALL:       as_it_is(d),                              d.sheet.attachments.pop();
        Length       ALL:       as_it_is(d),                              d.sheet.attachments.push(B);
        Length       ALL:       as_it_is(d),                              d.sheet.hazards.pop();
        Length       ALL:       as_it_is(d),                              d.sheet.hazards.push(0);
        Length       ALL:       with(d, |s| add_period(s, 2)),            d.sheet.starts.push(2);
        Length       ALL:       with(d, |s| add_period(s, 3)),            d.sheet.hazards.extend([0; 3]);
        Length       ALL:       as_it_is(d),                              d.sheet.discounts.pop();
        Length       ALL:       as_it_is(d),                              d.sheet.discounts.push(B);
        Length       ALL:       as_it_is(d),                              d.sheet.accruals.pop();
        Length       ALL:       as_it_is(d),                              d.sheet.accruals.push(1);
        Length       ALL:       as_it_is(d),                              d.sheet.elapsed.pop();
        Length       ALL:       as_it_is(d),                              d.sheet.elapsed.push(0);
        Length       ALL:       as_it_is(d),                              d.sheet.coupons.pop();
        Length       ALL:       as_it_is(d),                              d.sheet.coupons.push(0);
        Length       ALL:       as_it_is(d),                              d.register.pop();
        Length       ALL:       as_it_is(d),                              d.register.push(0xA5);
        Length       LENT_ROWS: as_it_is(d),                              d.default_row.pop();
        Length       LENT_ROWS: as_it_is(d),                              d.default_row.push(0);
        Length       LENT_ROWS: as_it_is(d),                              d.premium_row.pop();
        Length       LENT_ROWS: as_it_is(d),                              d.premium_row.push(0);
        Length       FORWARD:   as_it_is(d),                              d.forward_row.pop();
        Length       FORWARD:   as_it_is(d),                              d.forward_row.push(0);

        Recovery     ALL:       with(d, |s| s.recovery = B),              d.sheet.recovery = B + 1;
        Recovery     ALL:       as_it_is(d),                              d.sheet.recovery = u64::MAX;
        Attachments  ALL:       with(d, |s| s.attachments[1] = 1),        d.sheet.attachments[1] = 0;
        Attachments  ALL:       with(d, |s| s.attachments[2] = B),        *last(&mut d.sheet.attachments) = B + 1;
        Periods      ALL:       as_it_is(d),                              d.sheet.starts[0] = 0;
        Periods      ALL:       as_it_is(d),                              d.sheet.starts[0] = 2;
        Periods      ALL:       as_it_is(d),                              d.sheet.starts[0] = u64::MAX;
        Periods      ALL:       with(d, |s| add_period(s, 2)),            add_period(&mut d.sheet, 1);
        Periods      ALL:       with(d, |s| add_period(s, 3)),            add_period(&mut d.sheet, 4);
        Periods      ALL:       with(d, |s| set_starts(s, &[1, 2, 3])),   { add_period(&mut d.sheet, 3); add_period(&mut d.sheet, 2) };
        Hazard       ALL:       with(d, |s| s.hazards[0] = B),            d.sheet.hazards[0] = B + 1;
        Hazard       ALL:       with(d, |s| add_period(s, 3)),            { add_period(&mut d.sheet, 3); *last(&mut d.sheet.hazards) = B + 1 };
        Hazard       ALL:       with(d, |s| s.hazards[2] = B),            *last(&mut d.sheet.hazards) = u64::MAX;
        Discount     ALL:       with(d, |s| s.discounts[2] = 1),          *last(&mut d.sheet.discounts) = 0;
        Discount     ALL:       with(d, |s| s.discounts[0] = B),          d.sheet.discounts[0] = B + 1;
        Accrual      ALL:       with(d, |s| s.accruals[0] = B),           d.sheet.accruals[0] = B + 1;
        Accrual      ALL:       with(d, |s| s.accruals[2] = 1),           *last(&mut d.sheet.accruals) = 0;
        Elapsed      ALL:       with(d, |s| s.elapsed[0] = 2_000_000),    d.sheet.elapsed[0] = 2_000_001;
        Elapsed      ALL:       with(d, |s| s.elapsed[2] = 2_000_000),    *last(&mut d.sheet.elapsed) = 2_000_001;
        Elapsed      ALL:       with(d, |s| s.elapsed[1] = 1),            d.sheet.elapsed[1] = u64::MAX;
        Coupon       ALL:       with(d, |s| s.coupons[0] = 10_000_000),   d.sheet.coupons[0] = 10_000_001;
        Coupon       ALL:       with(d, |s| s.coupons[2] = 10_000_000),   *last(&mut d.sheet.coupons) = 10_000_001;

        Withdrawn    ALL:       as_it_is(d),                              d.register[1] = 0x00;
        Withdrawn    ALL:       as_it_is(d),                              d.register[1] = 0xA4;
        Withdrawn    ALL:       as_it_is(d),                              d.register[1] = 0xFE;
        Unissued     ALL:       as_it_is(d),                              d.register[1] = 0xFF;
        NoWalk       ON_A_WALK: as_it_is(d),                              d.walk.open = false;
        NoWalk       ON_A_WALK: as_it_is(d),                              d.walk.number = 2;
        NoWalk       ON_A_WALK: d.ask(&CALLS, Open).unwrap(),             d.walk.position = 4;
        NoWalk       ON_A_WALK: as_it_is(d),                              d.walk.position = usize::MAX;
        OverCeiling  ON_A_WALK: d.default_row[3] = 0,                     d.default_row[3] = 1;
        OverCeiling  ON_A_WALK: as_it_is(d),                              d.default_row[4 + 3] = u64::MAX;
        OverCeiling  ON_A_WALK: d.premium_row[3] = 2_000_002,             d.premium_row[3] = 2_000_003;
        OverCeiling  ON_A_WALK: d.premium_row[4 + 2] = 2_000_003,         d.premium_row[4 + 2] = 2_000_004;
        OverCeiling  ON_A_WALK: as_it_is(d),                              d.premium_row[4 + 3] = u64::MAX;

        OutOfSteps   BACK:      d.back_by = 2,                            d.back_by = 3;
        OutOfSteps   BACK:      as_it_is(d),                              d.back_by = usize::MAX;
        OutOfSteps   FORWARD:   d.forward_by = 3,                         d.forward_by = 4;
        OutOfSteps   FORWARD:   as_it_is(d),                              d.forward_by = usize::MAX;
        OffTree      AT_A_NODE: d.tranche = 2,                            d.tranche = 3;
        OffTree      AT_A_NODE: as_it_is(d),                              d.tranche = usize::MAX;
        OffTree      VALUE:     d.count = 3,                              d.count = 4;
        OffTree      RATIO:     d.count = 2,                              d.count = 3;
        OffTree      AT_A_NODE: as_it_is(d),                              d.count = usize::MAX;
        FlatHedge    RATIO:     jumps(d, 30_000_000, 200_000_000 - 1),    jumps(d, 30_000_000, 200_000_000);
        OffScale     RATIO:     jumps(d, 0, 200_000_000 - 31),            jumps(d, 0, 200_000_000 - 30);
        OffScale     RATIO:     jumps(d, 0, 200_000_000 + 31),            jumps(d, 0, 200_000_000 + 30);
    }
}

/// Limits whose changes do not go with others: whole lists, all the steps,
/// and with a flat index any tranche jump, which is off scale too.
pub fn lone_edges() -> Vec<Edge> {
    edges! { |d|
        Length       ALL:       as_it_is(d),                              d.sheet.attachments.clear();
        Length       ALL:       as_it_is(d),                              d.sheet.starts.clear();
        Length       ALL:       as_it_is(d),                              set_starts(&mut d.sheet, &[]);
        Length       ALL:       restart(d, most_periods()),               { restart(d, most_periods()); add_period(&mut d.sheet, 17) };
        Length       ALL:       as_it_is(d),                              d.sheet.hazards.clear();
        Length       ALL:       as_it_is(d),                              d.sheet.discounts.clear();
        Length       ALL:       as_it_is(d),                              d.sheet.accruals.clear();
        Length       ALL:       as_it_is(d),                              d.sheet.elapsed.clear();
        Length       ALL:       as_it_is(d),                              d.sheet.coupons.clear();
        Length       ALL:       as_it_is(d),                              d.register.clear();
        Length       LENT_ROWS: as_it_is(d),                              d.default_row.clear();
        Length       LENT_ROWS: as_it_is(d),                              d.premium_row.clear();
        Length       FORWARD:   as_it_is(d),                              d.forward_row.clear();
        Accrual      ALL:       restart(d, ten_years()),                  { restart(d, ten_years()); d.sheet.accruals[4] = B };
        Elapsed      ALL:       with(d, |s| far_date(s, 3_000_000)),      far_date(&mut d.sheet, 3_000_001);
        FlatHedge    RATIO:     as_it_is(d),                              jumps(d, 0, 200_000_000);
    }
}
