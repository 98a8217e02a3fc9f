//! The proved engine beside the model: the same calls on the same sheets,
//! rows, registers and operands, whole and damaged. Number, figures, walk,
//! rows and register must be equal after every call.
#![cfg(feature = "engine")]

mod common;

use common::desk::Call::{self, Back, Forward, Issue, Open, Ratio, Value, Withdraw};
use common::desk::Desk;
use common::edges::ALL;
use common::{assert_every_break_is_met, break_lists, Break, Met, Random, B};
use lavroudem::OpenWalk;
use lavroudem_model::cash::default_payment;
use lavroudem_model::deck::CALLS;
use lavroudem_model::engine;
use lavroudem_model::refusal::Refusal;
use lavroudem_model::register::{LIVE, UNISSUED};
use lavroudem_model::sheet::Sheet;
use lavroudem_model::tree::{default_ceiling, place, premium_ceiling};
use lavroudem_model::trials;
use std::collections::{BTreeMap, BTreeSet};

/// The calls with the numbers that each can answer (document 01, "Refusals
/// in order").
const ANSWERS: [(Call, &[u8]); 7] = [
    (Issue, &[0, 2, 9, 17]),
    (Withdraw, &[0, 2, 9, 10]),
    (Open, &[0, 1, 2, 3, 4, 25, 5, 6, 7, 21, 8, 9, 10]),
    (
        Back,
        &[0, 1, 2, 3, 4, 25, 5, 6, 7, 21, 8, 9, 10, 11, 12, 13],
    ),
    (
        Value,
        &[0, 1, 2, 3, 4, 25, 5, 6, 7, 21, 8, 9, 10, 11, 12, 14],
    ),
    (
        Ratio,
        &[0, 1, 2, 3, 4, 25, 5, 6, 7, 21, 8, 9, 10, 11, 12, 14, 15, 16],
    ),
    (Forward, &[0, 1, 2, 3, 4, 25, 5, 6, 7, 21, 8, 9, 10, 13]),
];

/// Document 01's number, and the figures; after a refusal there are none.
type Answer = (u8, Vec<i128>);

fn said(answer: Result<Vec<i128>, Refusal>) -> Answer {
    answer.map_or_else(|refusal| (refusal.number(), vec![]), |figures| (0, figures))
}

#[derive(Default)]
struct Tally {
    /// How often each call gave each number.
    answers: BTreeMap<(Call, u8), usize>,
    /// How often each break of periods or fractions was named by every call.
    breaks: Met,
}

/// Makes a call on both sides and keeps what it leaves.
fn ask(desk: &mut Desk, call: Call, tally: &mut Tally) -> Answer {
    let before = desk.clone();
    let mut other = desk.clone();
    let answer = said(desk.ask(&CALLS, call));
    let engine_answer = said(other.ask(&engine::CALLS, call));
    assert_eq!(engine_answer, answer, "{call:?} on {before:?}");
    assert_eq!(&other, desk, "{call:?} on {before:?}");
    *tally.answers.entry((call, answer.0)).or_default() += 1;
    answer
}

// ---- desks

/// A sheet that is accepted, issued, opened and taken some way back.
fn walked(random: &mut Random, sheet: Sheet, tally: &mut Tally) -> Desk {
    let mut desk = Desk::fresh(sheet, u64::MAX);
    desk.premium_row.fill(random.draw());
    desk.forward_row.fill(random.draw());
    let steps = random.below(desk.sheet.steps + 1);
    told_steps(&mut desk, steps);
    desk.tranche = random.below(desk.sheet.tranches + 1);
    desk.count = random.below(desk.sheet.names + 1);
    assert_eq!(ask(&mut desk, Issue, tally).0, 0);
    assert_eq!(ask(&mut desk, Open, tally).0, 0);
    assert_eq!(ask(&mut desk, Back, tally).0, 0);
    desk
}

/// Back and forward are told the same.
fn told_steps(desk: &mut Desk, steps: usize) {
    (desk.back_by, desk.forward_by) = (steps, steps);
}

fn operands(random: &mut Random, desk: &mut Desk) {
    let wild = random.draw() as usize;
    let pick = |random: &mut Random, most: usize| match random.below(12) {
        0 => wild,
        1 => most.saturating_add(1),
        2 => most,
        _ => random.below(most.min(4_000) + 1),
    };
    told_steps(desk, pick(random, desk.walk.position));
    desk.tranche = pick(random, desk.sheet.tranches);
    desk.count = pick(random, desk.sheet.names);
}

/// A call that goes on well is asked for more often.
fn call(random: &mut Random) -> Call {
    match random.below(20) {
        0 => Issue,
        1 => Withdraw,
        2 | 3 => Open,
        4..=8 => Back,
        9..=12 => Value,
        13..=16 => Ratio,
        _ => Forward,
    }
}

// ---- damage, one limit at a time

fn outside(random: &mut Random, most: usize) -> usize {
    match random.below(4) {
        0 => 0,
        1 => usize::MAX,
        2 => random.draw() as usize,
        _ => most + 1,
    }
}

fn above(random: &mut Random, most: u64) -> u64 {
    match random.below(3) {
        0 => most + 1,
        1 => u64::MAX,
        _ => random.draw().saturating_add(most),
    }
}

fn resize<T: Clone>(random: &mut Random, list: &mut Vec<T>, fill: T) {
    match random.below(4) {
        0 => list.clear(),
        1 => drop(list.pop()),
        2 => list.push(fill),
        _ => list.resize(random.below(300), fill),
    }
}

fn set_one(random: &mut Random, list: &mut [u64], figure: u64) {
    if !list.is_empty() {
        let at = random.below(list.len());
        list[at] = figure;
    }
}

/// Hands back how it broke periods or fractions, if it did that.
fn damage_sheet(random: &mut Random, sheet: &mut Sheet) -> Option<Break> {
    let high = above(random, B);
    match random.below(24) {
        0 => sheet.names = outside(random, 125),
        1 => sheet.steps = outside(random, 3_650),
        2 => sheet.tranches = outside(random, 8),
        3 => resize(random, &mut sheet.attachments, B),
        4 => resize(random, &mut sheet.hazards, 0),
        5 => resize(random, &mut sheet.discounts, B),
        6 => resize(random, &mut sheet.accruals, 1),
        7 => resize(random, &mut sheet.coupons, 0),
        8 => sheet.recovery = high,
        9 => set_one(random, &mut sheet.attachments, high),
        10 => sheet.attachments.reverse(),
        11 => set_one(random, &mut sheet.hazards, high),
        12 => set_one(random, &mut sheet.discounts, high),
        13 => set_one(random, &mut sheet.discounts, 0),
        14 => set_one(random, &mut sheet.accruals, high),
        15 => damage_accruals(random, &mut sheet.accruals),
        16 => resize(random, &mut sheet.starts, 1),
        17 => set_one(random, &mut sheet.starts, high),
        18 => resize(random, &mut sheet.elapsed, 0),
        19 => set_one(random, &mut sheet.elapsed, high),
        20..=22 => return Some(break_lists(random, sheet)),
        _ => {
            let coupon = above(random, 10_000_000);
            set_one(random, &mut sheet.coupons, coupon);
        }
    }
    None
}

/// The last one 0, or a sum that is too high or beyond 64 bits.
fn damage_accruals(random: &mut Random, accruals: &mut [u64]) {
    match random.below(3) {
        0 => {
            if let Some(last) = accruals.last_mut() {
                *last = 0;
            }
        }
        1 => accruals.fill(B),
        _ => accruals.fill(u64::MAX),
    }
}

fn damage_state(random: &mut Random, desk: &mut Desk) {
    let number = usize::from(desk.sheet.number);
    let byte = [UNISSUED, LIVE, 0x00, 0xA4, random.draw() as u8][random.below(5)];
    match random.below(12) {
        0 => resize(random, &mut desk.register, LIVE),
        1 | 2 => {
            if let Some(found) = desk.register.get_mut(number) {
                *found = byte;
            }
        }
        3 => desk.walk.open = !desk.walk.open,
        4 => desk.walk.number = desk.walk.number.wrapping_add(1 + random.below(255) as u8),
        5 => desk.walk.position = outside(random, desk.sheet.steps.min(4_000)),
        6 => desk.walk.position = random.below(desk.sheet.steps.min(4_000) + 1),
        7 => resize(random, &mut desk.default_row, 0),
        8 => resize(random, &mut desk.premium_row, 0),
        9 => resize(random, &mut desk.forward_row, 0),
        10 => {
            let entry = above(random, 0);
            set_one(random, &mut desk.default_row, entry);
        }
        _ => {
            // No ceiling is higher: ten years, 125 names and 3,650 steps.
            let entry = above(random, 10 * B + 125 + 2 * 3_650);
            set_one(random, &mut desk.premium_row, entry);
        }
    }
}

/// One damage or several to a whole desk. Hands back a break of periods or
/// fractions if no other refusal comes before its own: it alone befell the
/// sheet, and what is lent beside it has its lengths still.
fn damage(random: &mut Random, desk: &mut Desk) -> Option<Break> {
    let lengths = lent_lengths(desk);
    let mut to_sheet = Vec::new();
    for _ in 0..[1, 1, 1, 2, 4][random.below(5)] {
        if random.one_in(2) {
            to_sheet.push(damage_sheet(random, &mut desk.sheet));
        } else {
            damage_state(random, desk);
        }
    }
    match to_sheet[..] {
        [only] if lent_lengths(desk) == lengths => only,
        _ => None,
    }
}

fn lent_lengths(desk: &Desk) -> [usize; 4] {
    let rows = [&desk.default_row, &desk.premium_row, &desk.forward_row];
    let [defaults, premiums, chances] = rows.map(Vec::len);
    [desk.register.len(), defaults, premiums, chances]
}

// ---- rows lent by someone else, for a sheet that is accepted

/// Rows of any content below the ceilings, now and then one unit above.
fn lend_rows(random: &mut Random, desk: &mut Desk) {
    let sheet = &desk.sheet;
    desk.walk.position = random.below(sheet.steps + 1);
    let position = desk.walk.position;
    let highest = |count| premium_ceiling(sheet, position, count) as u64;
    for tranche in 0..=sheet.index() {
        for count in 0..=sheet.names {
            let here = place(sheet, tranche, count);
            let most = default_ceiling(sheet, tranche, count) as u64;
            desk.default_row[here] = random.with_edges(0, most);
            desk.premium_row[here] = random.with_edges(0, highest(count));
        }
    }
    let here = random.below(desk.default_row.len());
    let (tranche, count) = (here / (sheet.names + 1), here % (sheet.names + 1));
    match random.below(5) {
        0 => desk.default_row[here] = default_ceiling(sheet, tranche, count) as u64 + 1,
        1 => desk.premium_row[here] = highest(count) + 1,
        _ => {}
    }
}

/// Moves the index's jump at a count to a few units, so that ratios are
/// large, off scale or flat.
fn flatten_index(random: &mut Random, desk: &mut Desk) {
    let sheet = &desk.sheet;
    desk.count = random.below(sheet.names);
    let here = place(sheet, sheet.index(), desk.count);
    let payment = default_payment(sheet, sheet.index(), desk.count) as u64;
    let jumped = desk.default_row[here + 1] + payment;
    let most = default_ceiling(sheet, sheet.index(), desk.count) as u64;
    desk.default_row[here] = jumped.saturating_sub(random.between(0, 3)).min(most);
    desk.premium_row[here] = desk.premium_row[here + 1];
}

// ---- the trials

/// One sheet: calls on its own walk, on lent rows, and on damaged copies.
fn trial(random: &mut Random, sheet: Sheet, tally: &mut Tally) {
    let mut desk = walked(random, sheet, tally);
    for _ in 0..6 {
        operands(random, &mut desk);
        let call = call(random);
        ask(&mut desk, call, tally);
    }
    let mut lent = walked(random, desk.sheet.clone(), tally);
    lend_rows(random, &mut lent);
    for _ in 0..6 {
        operands(random, &mut lent);
        if random.one_in(2) {
            flatten_index(random, &mut lent);
        }
        ask(&mut lent.clone(), Ratio, tally);
        ask(&mut lent.clone(), Value, tally);
        ask(&mut lent.clone(), Back, tally);
    }
    let whole = walked(random, desk.sheet.clone(), tally);
    for _ in 0..12 {
        let mut damaged = whole.clone();
        operands(random, &mut damaged);
        if let Some(way) = damage(random, &mut damaged) {
            assert_named(&damaged, way, tally);
        }
        let call = call(random);
        ask(&mut damaged, call, tally);
    }
}

/// Whatever walk, register, entries of rows and operands are.
fn assert_named(broken: &Desk, (name, refusal, _): Break, tally: &mut Tally) {
    for &call in ALL {
        let (number, _) = ask(&mut broken.clone(), call, tally);
        assert_eq!(number, refusal.number(), "{name}: {call:?} on {broken:?}");
    }
    *tally.breaks.entry(name).or_default() += 1;
}

#[test]
fn calls_on_small_sheets() {
    let mut random = Random::new(0x5EED_0001);
    let mut tally = Tally::default();
    for _ in 0..1_200 {
        let sheet = random.small_sheet();
        trial(&mut random, sheet, &mut tally);
    }
    let calls: usize = tally.answers.values().sum();
    assert!(calls > 50_000, "{calls} calls");
    for (call, numbers) in ANSWERS {
        for &number in numbers {
            let times = tally.answers.get(&(call, number)).copied().unwrap_or(0);
            assert!(times >= 5, "{call:?} gave {number} only {times} times");
        }
    }
    assert_every_break_is_met(&tally.breaks);
}

#[test]
fn calls_on_larger_sheets() {
    let mut random = Random::new(0x5EED_0002);
    let mut tally = Tally::default();
    let mut periods = BTreeSet::new();
    let mut fractions = BTreeSet::new();
    for _ in 0..40 {
        let names = random.with_edges(1, 125) as usize;
        let steps = random.with_edges(1, 60) as usize;
        let tranches = random.with_edges(1, 8) as usize;
        let sheet = random.sheet(names, steps, tranches);
        periods.insert(sheet.starts.len());
        fractions.insert(has_fractions(&sheet));
        trial(&mut random, sheet, &mut tally);
    }
    assert!(periods.is_superset(&BTreeSet::from([1, 2, 3, 16])));
    assert_eq!(fractions, BTreeSet::from([false, true]));
}

fn has_fractions(sheet: &Sheet) -> bool {
    sheet.elapsed.iter().any(|&fraction| fraction > 0)
}

/// The largest tree, to the root in uneven calls.
#[test]
fn the_largest_tree() {
    let mut random = Random::new(0x5EED_0003);
    let mut tally = Tally::default();
    let mut sheet = random.sheet(125, 3_650, 8);
    while !has_fractions(&sheet) {
        sheet = random.sheet(125, 3_650, 8);
    }
    let mut desk = walked(&mut random, sheet, &mut tally);
    while desk.walk.position > 0 {
        desk.back_by = random.between(1, 900).min(desk.walk.position as u64) as usize;
        assert_eq!(ask(&mut desk, Back, &mut tally).0, 0);
    }
    for tranche in 0..=8 {
        (desk.tranche, desk.count) = (tranche, 0);
        assert_eq!(ask(&mut desk, Value, &mut tally).0, 0);
        ask(&mut desk, Ratio, &mut tally);
    }
    desk.forward_by = 3_650;
    assert_eq!(ask(&mut desk, Forward, &mut tally).0, 0);
}

/// The walk that keeps its own sheet and rows goes as the lent one does.
#[test]
fn open_walks() {
    let mut random = Random::new(0x5EED_0004);
    let mut tally = Tally::default();
    for _ in 0..300 {
        let sheet = random.small_sheet();
        let mut desk = walked(&mut random, sheet, &mut tally);
        let sheet = desk.sheet.clone();
        let lent = engine::lend(&sheet);
        let mut own = lent.open(&desk.register).unwrap();
        own.back(&desk.register, desk.back_by).unwrap();
        for _ in 0..4 {
            operands(&mut random, &mut desk);
            let moved = own.back(&desk.register, desk.back_by);
            let (number, _) = ask(&mut desk, Back, &mut tally);
            assert_eq!(moved.map_or_else(|refusal| refusal.number(), |_| 0), number);
            assert_eq!(own.position(), desk.walk.position);
            assert_eq!(own.defaults(&desk.register).unwrap(), desk.default_row);
            assert_eq!(own.premiums(&desk.register).unwrap(), desk.premium_row);
            same_figures(&own, &mut desk, &mut tally);
        }
    }
}

fn same_figures(own: &OpenWalk, desk: &mut Desk, tally: &mut Tally) {
    let value = own.value(&desk.register, desk.tranche, desk.count);
    let ratio = own.hedge_ratio(&desk.register, desk.tranche, desk.count);
    let value = value.map(|v| {
        vec![
            v.default_leg.into(),
            v.premium_leg.into(),
            v.net_value.into(),
        ]
    });
    let number = |refusal: lavroudem::Refusal| (refusal.number(), vec![]);
    let value = value.map_or_else(number, |figures| (0, figures));
    let ratio = ratio.map_or_else(number, |ratio| (0, vec![ratio.into()]));
    assert_eq!(value, ask(desk, Value, tally));
    assert_eq!(ratio, ask(desk, Ratio, tally));
}

/// Every refusal on both sides of its edge, through the archive that callers
/// link; the engine's own program tries the same trials below it.
#[test]
fn trials_are_answered_alike() {
    assert_eq!(trials::listing_by(&engine::CALLS), trials::listing());
}
