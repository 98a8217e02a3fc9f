//! The proved engine beside the model on the largest sheet: as many names,
//! steps, tranches and periods as there may be, and every list full.
#![cfg(feature = "engine")]

mod common;

use common::desk::Call::{Back, Forward, Open, Ratio, Value};
use common::desk::Desk;
use common::B;
use lavroudem::OpenWalk;
use lavroudem_model::commands::{encode, BACK, DELTA, FORWARD, OPEN, VALUE, WITHDRAW};
use lavroudem_model::deck::{run_on, CALLS};
use lavroudem_model::register::{blank, issue};
use lavroudem_model::sheet::{Sheet, MAX_NAMES, MAX_PERIODS, MAX_STEPS, MAX_TRANCHES};
use lavroudem_model::{decks, engine};

const NUMBER: u8 = 255;

/// A premium date every 73 steps, ten years in all. Hazards and discounts are
/// such that figures at the root come from the whole tree: on the way there is
/// time for all names to default, and little is discounted.
fn largest(periods: usize) -> Sheet {
    let starts = (0..periods as u64).map(|period| 1 + 228 * period);
    let hazards = (0..periods as u64).flat_map(|period| {
        (0..MAX_NAMES as u64).map(move |k| 20_000_000 + 1_000_000 * period + 100_000 * k)
    });
    let steps = 1..=MAX_STEPS as u64;
    let accruals = steps.clone().map(|i| if i % 73 == 0 { B / 5 } else { 0 });
    Sheet {
        number: NUMBER,
        names: MAX_NAMES,
        steps: MAX_STEPS,
        tranches: MAX_TRANCHES,
        recovery: 400_000_000,
        attachments: [0, 30, 60, 90, 120, 220, 450, 550, 1_000]
            .map(|point| point * 1_000_000)
            .to_vec(),
        starts: starts.collect(),
        hazards: hazards.collect(),
        discounts: steps.clone().map(|i| B - 10_000 - i).collect(),
        accruals: accruals.collect(),
        elapsed: steps.map(|i| 2_700_000 * (i % 73)).collect(),
        coupons: (1..=9).map(|place| 1_111_111 * place).collect(),
    }
}

/// By a walk that keeps its own rows, to the root in uneven calls.
#[test]
fn the_largest_sheet() {
    let mut desk = Desk::fresh(largest(MAX_PERIODS), u64::MAX);
    issue(&mut desk.register, NUMBER).unwrap();
    let sheet = engine::lend(&desk.sheet);
    let mut walk = sheet.open(&desk.register).unwrap();
    desk.ask(&CALLS, Open).unwrap();
    for steps in [0, 1, 1_700, 1_948, 1] {
        desk.back_by = steps;
        desk.ask(&CALLS, Back).unwrap();
        let moved = walk.back(&desk.register, steps);
        assert_eq!(moved, Ok(desk.walk.position));
        same_figures(&walk, &mut desk);
    }
    assert_eq!(walk.position(), 0);
    desk.forward_by = MAX_STEPS;
    desk.ask(&CALLS, Forward).unwrap();
    assert!(desk.forward_row[MAX_NAMES] > B / 10);
    let chances = sheet.forward(&desk.register, MAX_STEPS);
    assert_eq!(chances, Ok(desk.forward_row));
}

/// Both rows, and what is answered at the corners of the tree.
fn same_figures(walk: &OpenWalk, desk: &mut Desk) {
    assert_eq!(walk.defaults(&desk.register).unwrap(), desk.default_row);
    assert_eq!(walk.premiums(&desk.register).unwrap(), desk.premium_row);
    for (tranche, count) in [(0, 0), (7, 1), (8, 0), (8, 124), (8, 125)] {
        (desk.tranche, desk.count) = (tranche, count);
        let value = walk.value(&desk.register, tranche, count).unwrap();
        let legs = [value.default_leg, value.premium_leg].map(i128::from);
        let figures = vec![legs[0], legs[1], value.net_value.into()];
        assert_eq!(desk.ask(&CALLS, Value), Ok(figures));
        let ratio = walk.hedge_ratio(&desk.register, tranche, count);
        let ratio = ratio.map(|ratio| vec![ratio.into()]);
        assert_eq!(desk.ask(&CALLS, Ratio), ratio.map_err(engine::refusal));
    }
}

/// A deck has one period.
#[test]
fn a_deck_of_the_largest_sheet() {
    let calls: [(u8, &[u64]); 12] = [
        (VALUE, &[8, 125]),
        (DELTA, &[7, 124]),
        (DELTA, &[8, 124]),
        (DELTA, &[8, 125]),
        (FORWARD, &[3_650, 125]),
        (FORWARD, &[3_650, 126]),
        (OPEN, &[]),
        (BACK, &[1_825]),
        (VALUE, &[8, 124]),
        (VALUE, &[7, 0]),
        (DELTA, &[0, 0]),
        (WITHDRAW, &[255]),
    ];
    let mut deck = decks::of_sheet(&largest(1));
    for (command, operands) in calls {
        deck.extend(encode(command, operands));
    }
    let text = |listing: Vec<u8>| String::from_utf8(listing).unwrap();
    let (listing, left) = run_on(&deck, &blank());
    let listing = text(listing);
    let is_refused = |line: &&str| line.split(' ').nth(1) != Some("0");
    let refused: Vec<&str> = listing.lines().filter(is_refused).collect();
    assert_eq!(refused, ["delta 14", "forward 14"]);
    let mut register = blank();
    assert_eq!(text(lavroudem::run_on(&deck, &mut register)), listing);
    assert_eq!(register, left);
    assert_eq!(text(lavroudem::run_deck(&deck)), listing);
}
