//! Plain sheets for the trials, by shape; random ones come by seed. A desk
//! has what the calls are lent, and edges are changes of one; the writes of a
//! deck are read off its lines. Books are lists of positions, and turns come in
//! lists of calls.

// Each test file is built by itself and uses only a part of this.
#![allow(dead_code, unused_imports)]

pub mod books;
pub mod desk;
pub mod edges;
pub mod turns;
pub mod writes;

pub use lavroudem_model::random::Random;
use lavroudem_model::refusal::Refusal;
use lavroudem_model::sheet::Sheet;
use std::collections::BTreeMap;

/// B of document 01, in the type of the sheet's fields.
pub const B: u64 = 1_000_000_000;

/// An accepted sheet of the given shape and one period, with unremarkable
/// figures.
pub fn plain_sheet(names: usize, steps: usize, tranches: usize) -> Sheet {
    let points = tranches as u64 + 1;
    Sheet {
        number: 1,
        names,
        steps,
        tranches,
        recovery: 400_000_000,
        attachments: (0..points).map(|point| 30_000_000 * point).collect(),
        starts: vec![1],
        hazards: (0..names as u64).map(|k| 1_000_000 + 10_000 * k).collect(),
        discounts: vec![999_900_000; steps],
        accruals: vec![2_000_000; steps],
        elapsed: vec![0; steps],
        coupons: (0..points).map(|place| 500_000 + 1_000 * place).collect(),
    }
}

/// Other starts, with n hazards for each: those that are there, and zeros.
pub fn set_starts(sheet: &mut Sheet, starts: &[u64]) {
    sheet.starts = starts.to_vec();
    sheet.hazards.resize(sheet.names.min(125) * starts.len(), 0);
}

/// A way to break a sheet's periods or elapsed fractions: its name, the refusal
/// and the change.
pub type Break = (&'static str, Refusal, fn(&mut Sheet));

/// Each is met by a sheet that is accepted, whatever its starts and fractions.
pub fn breaks() -> [Break; 19] {
    [
        ("no start", Refusal::Length, |s| s.starts.clear()),
        ("nothing", Refusal::Length, |s| set_starts(s, &[])),
        ("17 starts", Refusal::Length, |s| {
            set_starts(s, &Vec::from_iter(1..=17))
        }),
        ("hazards of one", Refusal::Length, |s| {
            s.starts = vec![1, 2];
            s.hazards.truncate(s.names);
        }),
        ("a hazard more", Refusal::Length, |s| s.hazards.push(0)),
        ("a hazard less", Refusal::Length, |s| {
            s.hazards.pop();
        }),
        ("first at 0", Refusal::Periods, |s| set_first_start(s, 0)),
        ("first at 2", Refusal::Periods, |s| set_first_start(s, 2)),
        ("two equal", Refusal::Periods, |s| set_starts(s, &[1, 2, 2])),
        ("falling", Refusal::Periods, |s| set_starts(s, &[1, 3, 2])),
        ("the last at m + 1", Refusal::Periods, |s| {
            set_starts(s, &[1, (s.steps as u64).wrapping_add(1)])
        }),
        ("the first at m + 1", Refusal::Periods, |s| {
            set_starts(s, &[(s.steps as u64).wrapping_add(1)])
        }),
        ("no fraction", Refusal::Length, |s| s.elapsed.clear()),
        ("a fraction more", Refusal::Length, |s| s.elapsed.push(0)),
        ("a fraction less", Refusal::Length, |s| {
            s.elapsed.pop();
        }),
        ("the first fraction too long", Refusal::Elapsed, |s| {
            raise_fraction(s, 0)
        }),
        ("the last fraction too long", Refusal::Elapsed, |s| {
            raise_fraction(s, s.elapsed.len().saturating_sub(1))
        }),
        ("a fraction above a year", Refusal::Elapsed, |s| {
            s.elapsed.fill(B + 1)
        }),
        ("the longest fraction", Refusal::Elapsed, |s| {
            s.elapsed.fill(u64::MAX)
        }),
    ]
}

/// Breaks the sheet in one of these ways.
pub fn break_lists(random: &mut Random, sheet: &mut Sheet) -> Break {
    let way = breaks()[random.below(breaks().len())];
    let (_, _, change) = way;
    change(sheet);
    way
}

/// How often each way was met with its refusal, by its name.
pub type Met = BTreeMap<&'static str, usize>;

pub fn assert_every_break_is_met(met: &Met) {
    for (name, _, _) in breaks() {
        let times = met.get(name).copied().unwrap_or(0);
        assert!(times >= 5, "broken by '{name}' only {times} times");
    }
}

fn set_first_start(sheet: &mut Sheet, start: u64) {
    if let Some(first) = sheet.starts.first_mut() {
        *first = start;
    }
}

/// One more than the next premium date's accrual, where there is such a place.
pub fn raise_fraction(sheet: &mut Sheet, place: usize) {
    let next = sheet
        .accruals
        .iter()
        .skip(place)
        .find(|&&accrual| accrual != 0);
    if let (Some(&accrual), Some(fraction)) = (next, sheet.elapsed.get_mut(place)) {
        *fraction = accrual.saturating_add(1);
    }
}

/// The one-tranche sheet with the same outer attachment points; its number
/// and coupons are its own.
pub fn spanning_sheet(sheet: &Sheet) -> Sheet {
    Sheet {
        number: sheet.number.wrapping_add(1),
        tranches: 1,
        attachments: vec![sheet.attachments[0], sheet.attachments[sheet.tranches]],
        coupons: vec![123_456, 654_321],
        ..sheet.clone()
    }
}
