//! Refusals 1 to 8, 21 and 25 of a sheet, each at both sides of its limits, and
//! their order.

mod common;

use common::{breaks, plain_sheet, set_starts, Random, B};
use lavroudem_model::refusal::Refusal;
use lavroudem_model::sheet::{check, Sheet};

/// 0 for an accepted sheet.
fn answer(sheet: &Sheet) -> u8 {
    check(sheet).map_or_else(Refusal::number, |()| 0)
}

#[test]
fn numbers_and_words() {
    let table = [
        (Refusal::Pool, 1, "pool"),
        (Refusal::Length, 2, "length"),
        (Refusal::Recovery, 3, "recovery"),
        (Refusal::Attachments, 4, "cuts"),
        (Refusal::Hazard, 5, "hazard"),
        (Refusal::Discount, 6, "discount"),
        (Refusal::Accrual, 7, "accrual"),
        (Refusal::Coupon, 8, "coupon"),
        (Refusal::Withdrawn, 9, "withdrawn"),
        (Refusal::Unissued, 10, "unissued"),
        (Refusal::NoWalk, 11, "no walk"),
        (Refusal::OverCeiling, 12, "soiled"),
        (Refusal::OutOfSteps, 13, "out of steps"),
        (Refusal::OffTree, 14, "off tree"),
        (Refusal::FlatHedge, 15, "flat hedge"),
        (Refusal::OffScale, 16, "off scale"),
        (Refusal::Live, 17, "live"),
        (Refusal::Unknown, 18, "unknown"),
        (Refusal::CutShort, 19, "cut short"),
        (Refusal::TooMany, 20, "too many"),
        (Refusal::Elapsed, 21, "elapsed"),
        (Refusal::Periods, 25, "periods"),
        (Refusal::Book, 28, "book"),
        (Refusal::Turns, 29, "turns"),
        (Refusal::Digit, 30, "digit"),
    ];
    assert_eq!(table.map(|(refusal, _, _)| refusal), Refusal::ALL);
    for (refusal, number, word) in table {
        assert_eq!(refusal.number(), number);
        assert_eq!(refusal.word(), word);
        assert_eq!(refusal.stops_a_deck(), (18..=20).contains(&number));
    }
}

/// What a plain sheet is answered after a change.
struct Case {
    answer: u8,
    /// It is made at each place below this.
    places: usize,
    change: fn(&mut Sheet, usize),
    name: &'static str,
}

/// A row for each case: the answer, the number of places k, and the change.
macro_rules! cases {
    (|$s:ident, $k:ident| $($answer:literal $places:literal: $change:expr;)*) => {
        vec![$(Case {
            answer: $answer,
            places: $places,
            change: |$s, $k| { let _ = $k; $change; },
            name: stringify!($change),
        }),*]
    };
}

fn list(sheet: &mut Sheet, place: usize) -> &mut Vec<u64> {
    match place {
        0 => &mut sheet.attachments,
        1 => &mut sheet.starts,
        2 => &mut sheet.hazards,
        3 => &mut sheet.discounts,
        4 => &mut sheet.accruals,
        5 => &mut sheet.elapsed,
        _ => &mut sheet.coupons,
    }
}

/// A figure more that is a good one, so that only the length is wrong.
fn lengthen(list: &mut Vec<u64>) {
    list.push(list[list.len() - 1] + 1);
}

/// A sheet of as many steps as these accruals.
fn accruing(accruals: Vec<u64>) -> Sheet {
    Sheet {
        accruals: accruals.clone(),
        ..plain_sheet(3, accruals.len(), 2)
    }
}

/// A sheet of so many steps with these fractions.
fn elapsing(accruals: Vec<u64>, elapsed: Vec<u64>) -> Sheet {
    Sheet {
        elapsed,
        ..accruing(accruals)
    }
}

/// A sheet of 17 steps with so many periods, each but the last of one step.
fn periodic(periods: u64) -> Sheet {
    let mut sheet = plain_sheet(3, 17, 2);
    set_starts(&mut sheet, &Vec::from_iter(1..=periods));
    sheet
}

/// On a sheet of 3 names, 3 steps and 2 tranches, which is accepted.
fn cases() -> Vec<Case> {
    cases! { |s, k|
        1 1: *s = plain_sheet(0, 3, 2);
        0 1: *s = plain_sheet(1, 3, 2);
        0 1: *s = plain_sheet(125, 3, 2);
        1 1: *s = plain_sheet(126, 3, 2);
        1 1: s.names = usize::MAX;
        // Without steps there is no last accrual either; the pool comes first.
        1 1: *s = plain_sheet(3, 0, 2);
        0 1: *s = plain_sheet(3, 1, 2);
        0 1: *s = plain_sheet(3, 3_650, 2);
        1 1: *s = plain_sheet(3, 3_651, 2);
        1 1: s.steps = usize::MAX;
        1 1: *s = plain_sheet(3, 3, 0);
        0 1: *s = plain_sheet(3, 3, 1);
        0 1: *s = plain_sheet(3, 3, 8);
        1 1: *s = plain_sheet(3, 3, 9);
        1 1: s.tranches = usize::MAX;
        0 1: *s = plain_sheet(125, 3_650, 8);

        2 7: list(s, k).pop();
        2 7: list(s, k).clear();
        2 7: lengthen(list(s, k));
        // n hazards for each start, and 1 to 16 starts.
        2 1: set_starts(s, &[]);
        2 1: { set_starts(s, &[1, 3]); s.hazards.truncate(3) };
        2 1: { set_starts(s, &[1, 3]); s.hazards.pop() };
        2 1: { set_starts(s, &[1, 3]); s.hazards.push(0) };
        2 1: { set_starts(s, &[1, 3]); s.starts.pop() };
        0 1: *s = periodic(16);
        2 1: *s = periodic(17);
        2 1: { *s = periodic(16); s.hazards.pop() };

        0 1: s.recovery = 0;
        0 1: s.recovery = B;
        3 1: s.recovery = B + 1;
        3 1: s.recovery = u64::MAX;

        0 1: s.attachments = vec![0, 1, 2];
        0 1: s.attachments = vec![B - 2, B - 1, B];
        4 1: s.attachments = vec![5, 5, 9];
        4 1: s.attachments = vec![5, 9, 9];
        4 1: s.attachments = vec![5, 4, 9];
        4 1: s.attachments = vec![5, 9, 8];
        4 1: s.attachments = vec![5, 9, 4];
        0 1: s.attachments = vec![0, 1, B];
        4 1: s.attachments = vec![0, 1, B + 1];
        4 1: s.attachments = vec![0, B + 1, B];
        4 1: s.attachments = vec![0, 1, u64::MAX];

        0 1: set_starts(s, &[1]);
        0 1: set_starts(s, &[1, 2]);
        0 1: set_starts(s, &[1, 3]);
        0 1: set_starts(s, &[1, 2, 3]);
        25 1: set_starts(s, &[0]);
        25 1: set_starts(s, &[2]);
        25 1: set_starts(s, &[u64::MAX]);
        25 1: set_starts(s, &[0, 1]);
        25 1: set_starts(s, &[2, 3]);
        25 1: set_starts(s, &[1, 1]);
        25 1: set_starts(s, &[1, 0]);
        25 1: set_starts(s, &[1, 2, 2]);
        25 1: set_starts(s, &[1, 3, 2]);
        25 1: set_starts(s, &[1, 4]);
        25 1: set_starts(s, &[1, 3, 4]);
        25 1: set_starts(s, &[1, 4, 3]);
        25 1: set_starts(s, &[1, u64::MAX]);

        0 3: s.hazards[k] = 0;
        0 3: s.hazards[k] = B;
        5 3: s.hazards[k] = B + 1;
        5 3: s.hazards[k] = u64::MAX;

        0 6: { set_starts(s, &[1, 3]); s.hazards[k] = B };
        5 6: { set_starts(s, &[1, 3]); s.hazards[k] = B + 1 };

        6 3: s.discounts[k] = 0;
        0 3: s.discounts[k] = 1;
        0 3: s.discounts[k] = B;
        6 3: s.discounts[k] = B + 1;
        6 3: s.discounts[k] = u64::MAX;

        0 3: s.accruals[k] = 1;
        0 3: s.accruals[k] = B;
        7 3: s.accruals[k] = B + 1;
        7 3: s.accruals[k] = u64::MAX;
        // Only the last one must not be zero.
        0 1: s.accruals = vec![0, 0, 1];
        7 1: s.accruals = vec![1, 1, 0];
        7 1: s.accruals = vec![0, 0, 0];
        // Their sum.
        0 1: *s = accruing(vec![B; 10]);
        0 1: *s = accruing([vec![B; 4], vec![B - 1], vec![B; 5], vec![1]].concat());
        7 1: *s = accruing([vec![B; 10], vec![1]].concat());
        7 1: *s = accruing(vec![B; 3_650]);
        // In 64 bits this sum would wrap round to 1.
        7 1: *s = accruing(vec![1 << 63, 1 << 63, 1]);
        7 1: *s = accruing(vec![u64::MAX; 3_650]);

        0 3: s.elapsed[k] = 1;
        0 3: s.elapsed[k] = 2_000_000;
        21 3: s.elapsed[k] = 2_000_001;
        21 3: s.elapsed[k] = u64::MAX;
        0 1: s.elapsed = vec![2_000_000; 3];
        // By the date at the step or behind it, not the one before.
        0 1: *s = elapsing(vec![5, 0, 0, 9], vec![5, 9, 9, 9]);
        21 1: *s = elapsing(vec![5, 0, 0, 9], vec![6, 9, 9, 9]);
        21 1: *s = elapsing(vec![5, 0, 0, 9], vec![5, 10, 9, 9]);
        21 1: *s = elapsing(vec![5, 0, 0, 9], vec![5, 9, 10, 9]);
        21 1: *s = elapsing(vec![5, 0, 0, 9], vec![5, 9, 9, 10]);
        0 1: *s = elapsing(vec![9, 0, 0, 5], vec![9, 5, 5, 5]);
        21 1: *s = elapsing(vec![9, 0, 0, 5], vec![9, 6, 5, 5]);
        21 1: *s = elapsing(vec![9, 0, 0, 5], vec![9, 5, 6, 5]);
        21 1: *s = elapsing(vec![0, 9, 0, 5], vec![10, 0, 0, 0]);
        // The nearest of the dates ahead, not the longest of them.
        0 1: *s = elapsing(vec![0, 2, 7, 4], vec![2, 2, 7, 4]);
        21 1: *s = elapsing(vec![0, 2, 7, 4], vec![3, 2, 7, 4]);
        21 1: *s = elapsing(vec![0, 2, 7, 4], vec![2, 3, 7, 4]);
        // A year, and no more; together they may be above ten.
        0 1: *s = elapsing([vec![0; 19], vec![B]].concat(), vec![B; 20]);
        21 1: *s = elapsing([vec![0; 19], vec![B]].concat(), vec![B + 1; 20]);

        0 3: s.coupons[k] = 0;
        0 3: s.coupons[k] = 10_000_000;
        8 3: s.coupons[k] = 10_000_001;
        8 3: s.coupons[k] = u64::MAX;

        // The number plays no part.
        0 256: s.number = k as u8;
    }
}

#[test]
fn limits_of_a_sheet() {
    assert_eq!(answer(&plain_sheet(3, 3, 2)), 0);
    for case in cases() {
        for place in 0..case.places {
            let mut sheet = plain_sheet(3, 3, 2);
            (case.change)(&mut sheet, place);
            let about = format!("{}, k = {place}", case.name);
            assert_eq!(answer(&sheet), case.answer, "{about}");
        }
    }
}

type Fault = fn(&mut Sheet);

/// Every set of the ten faults is tried; the first of them must win. 25 stands
/// between 4 and 5, and 21 between 7 and 8.
#[test]
fn first_fault_is_named() {
    let faults: [(Refusal, Fault); 10] = [
        (Refusal::Pool, |s| s.names = 126),
        (Refusal::Length, |s| s.hazards.push(0)),
        (Refusal::Recovery, |s| s.recovery = B + 1),
        (Refusal::Attachments, |s| {
            s.attachments[1] = s.attachments[0]
        }),
        (Refusal::Periods, |s| s.starts[0] = 2),
        (Refusal::Hazard, |s| s.hazards[1] = B + 1),
        (Refusal::Discount, |s| s.discounts[1] = 0),
        (Refusal::Accrual, |s| s.accruals[2] = 0),
        (Refusal::Elapsed, |s| s.elapsed[0] = 2_000_001),
        (Refusal::Coupon, |s| s.coupons[0] = 10_000_001),
    ];
    for set in 1_u32..1_024 {
        let mut sheet = plain_sheet(3, 3, 2);
        for (place, (_, fault)) in faults.iter().enumerate() {
            if set >> place & 1 == 1 {
                fault(&mut sheet);
            }
        }
        let first = set.trailing_zeros() as usize;
        assert_eq!(check(&sheet), Err(faults[first].0), "{set:#b}");
    }
}

/// On sheets of any number of periods and fractions, small and large.
#[test]
fn every_break_of_the_lists_is_refused() {
    let mut random = Random::new(25);
    for at in 0..200 {
        let sheet = match at % 4 {
            0 => random.sheet(5, 60, 2),
            _ => random.small_sheet(),
        };
        assert_eq!(check(&sheet), Ok(()));
        for (name, refusal, change) in breaks() {
            let mut broken = sheet.clone();
            change(&mut broken);
            assert_eq!(check(&broken), Err(refusal), "{name}: {sheet:?}");
        }
    }
}
