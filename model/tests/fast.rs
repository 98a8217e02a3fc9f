//! The benchmark's Rust gives what the model gives.

mod common;

use common::books::{self, Met};
use common::{breaks, plain_sheet, turns, Random};
use lavroudem_model::book::book;
use lavroudem_model::fast;
use lavroudem_model::packed;
use lavroudem_model::register;
use lavroudem_model::sheet::Sheet;
use lavroudem_model::tree::premium_ceiling;
use lavroudem_model::turns::turns as serve;
use lavroudem_model::walk::{self, row_length, Walk};
use std::collections::BTreeSet;

/// Opens and walks back in two calls, then compares rows, values and the
/// distribution.
fn same_as_the_model(sheet: &Sheet, first: usize) {
    let mut register = register::blank();
    register::issue(&mut register, sheet.number).unwrap();
    let length = row_length(sheet);
    let (mut d, mut a) = (vec![1; length], vec![2; length]);
    let (mut fast_d, mut fast_a) = (d.clone(), a.clone());
    let (mut walk, _) = walk::open(Walk::fresh(), sheet, &register, &mut d, &mut a);
    let opened = fast::open(Walk::fresh(), sheet, &register, &mut fast_d, &mut fast_a);
    assert_eq!(opened, (walk, Ok(())));
    for steps in [first, sheet.steps - first, 1] {
        let after = walk::back(walk, sheet, &register, steps, &mut d, &mut a);
        let fast_after = fast::back(walk, sheet, &register, steps, &mut fast_d, &mut fast_a);
        assert_eq!(after, fast_after);
        assert_eq!((&d, &a), (&fast_d, &fast_a));
        walk = after.0;
    }
    for tranche in 0..=sheet.tranches + 1 {
        let model = walk::value(walk, sheet, &register, tranche, 0, &d, &a);
        let fast = fast::value(walk, sheet, &register, tranche, 0, &d, &a);
        assert_eq!(model, fast);
    }
    let (mut row, mut fast_row) = (vec![5; sheet.names + 1], vec![6; sheet.names + 1]);
    walk::forward(sheet, &register, first, &mut row).unwrap();
    fast::forward(sheet, &register, first, &mut fast_row).unwrap();
    assert_eq!(row, fast_row);
    soil(sheet, walk, &register, d, a);
}

/// One entry above its ceiling; every premium leg at its own is not.
fn soil(sheet: &Sheet, walk: Walk, register: &[u8], mut d: Vec<u64>, mut a: Vec<u64>) {
    let counts = sheet.names + 1;
    let ceiling = |place: usize| premium_ceiling(sheet, walk.position, place % counts) as u64;
    let mut at_ceilings: Vec<u64> = (0..a.len()).map(ceiling).collect();
    let ask = |d: &mut [u64], a: &mut [u64]| {
        let model = walk::back(walk, sheet, register, 0, d, a);
        assert_eq!(fast::back(walk, sheet, register, 0, d, a), model);
        model.1.is_ok()
    };
    assert!(ask(&mut d, &mut at_ceilings));
    for place in 0..at_ceilings.len() {
        at_ceilings[place] += 1;
        assert!(!ask(&mut d, &mut at_ceilings));
        at_ceilings[place] -= 1;
    }
    d[sheet.names] = 1_000_000_001;
    assert!(!ask(&mut d, &mut a));
}

#[test]
fn random_sheets() {
    let mut random = Random::new(0xFA57);
    for _ in 0..300 {
        let sheet = random.small_sheet();
        let first = random.below(sheet.steps + 1);
        same_as_the_model(&sheet, first);
    }
    let mut periods = BTreeSet::new();
    let mut fractions = BTreeSet::new();
    for _ in 0..16 {
        let sheet = random.sheet(125, 40, 8);
        periods.insert(sheet.starts.len());
        fractions.insert(sheet.elapsed.iter().filter(|&&e| e > 0).count());
        same_as_the_model(&sheet, 17);
    }
    assert!(periods.is_superset(&BTreeSet::from([1, 2, 3, 16])));
    assert!(fractions.is_superset(&BTreeSet::from([0, 40])) && fractions.len() > 3);
}

#[test]
fn damaged_sheets_are_refused_alike() {
    let register = vec![register::LIVE; 256];
    let changes: [fn(&mut Sheet); 12] = [
        |s| s.names = 126,
        |s| s.steps = 0,
        |s| s.tranches = 9,
        |s| s.hazards.truncate(2),
        |s| s.recovery = 1_000_000_001,
        |s| s.attachments[1] = s.attachments[0],
        |s| s.hazards[0] = 1_000_000_001,
        |s| s.discounts[1] = 0,
        |s| s.discounts[1] = 1_000_000_001,
        |s| s.accruals[2] = 0,
        |s| s.accruals[0] = u64::MAX,
        |s| s.coupons[2] = 10_000_001,
    ];
    let of_lists = breaks().map(|(_, _, change)| change);
    let both: [fn(&mut Sheet); 4] = [
        |s| (s.starts[0], s.attachments[1]) = (2, s.attachments[0]),
        |s| (s.starts[0], s.hazards[0]) = (2, 1_000_000_001),
        |s| (s.elapsed[0], s.accruals[2]) = (2_000_001, 0),
        |s| (s.elapsed[0], s.coupons[2]) = (2_000_001, 10_000_001),
    ];
    for change in changes.into_iter().chain(of_lists).chain(both) {
        let mut sheet = plain_sheet(3, 3, 2);
        change(&mut sheet);
        let mut row = vec![0; 4];
        let model = walk::forward(&sheet, &register, 1, &mut row);
        assert!(model.is_err());
        assert_eq!(fast::forward(&sheet, &register, 1, &mut row), model);
    }
}

/// Every coupon up to one over the limit, and any bytes of any length.
#[test]
fn packed_coupons() {
    for coupon in 0..=10_000_001 {
        let (mut image, mut fast_image) = ([0xFF; 4], [0xFF; 4]);
        let written = packed::write(&mut image, coupon);
        assert_eq!(fast::write_packed(&mut fast_image, coupon), written);
        assert_eq!(fast_image, image);
        assert_eq!(fast::read_packed(&image), packed::read(&image));
    }
    let mut random = Random::new(0x9AC4);
    let mut refusals = BTreeSet::new();
    for _ in 0..100_000 {
        let bytes: Vec<u8> = (0..random.below(7))
            .map(|_| random.below(256) as u8)
            .collect();
        let few: Vec<u8> = bytes.iter().map(|byte| byte % 170).collect();
        for image in [bytes, few] {
            let read = packed::read(&image);
            assert_eq!(fast::read_packed(&image), read);
            refusals.extend(read.err().map(|refusal| refusal.number()));
            let mut image = image;
            let mut fast_image = image.clone();
            let written = packed::write(&mut image, 123_456);
            assert_eq!(fast::write_packed(&mut fast_image, 123_456), written);
            assert_eq!(fast_image, image);
        }
    }
    assert_eq!(refusals, BTreeSet::from([2, 8, 30]));
}

#[test]
fn random_books() {
    let mut random = Random::new(0xB00C_0004);
    let mut met = Met::default();
    for _ in 0..60_000 {
        let lent = books::call(&mut random);
        let (mut out, mut fast_out) = (lent.out.clone(), lent.out.clone());
        let answer = book(&lent.nominals, &lent.values, &mut out);
        let fast_answer = fast::book(&lent.nominals, &lent.values, &mut fast_out);
        assert_eq!(fast_answer, answer, "{lent:?}");
        assert_eq!(fast_out, out, "{lent:?}");
        met.add(&lent, answer, &out);
    }
    met.assert_all(500);
}

#[test]
fn random_turns() {
    let mut random = Random::new(0x7A12_0006);
    let mut met = turns::Met::default();
    for _ in 0..60_000 {
        let lent = turns::call(&mut random);
        let (after, answer) = lent.after(serve);
        let (fast_after, fast_answer) = lent.after(fast::turns);
        assert_eq!(fast_answer, answer, "{lent:?}");
        assert_eq!(fast_after, after, "{lent:?}");
        met.add(&lent, answer, &after);
    }
    met.assert_all(300);
}
