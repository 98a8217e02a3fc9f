//! What accepted calls that bring a sheet do, and that calls on anything
//! answer or leave no trace.

mod common;

use common::desk::Call::{self, Back, Forward, Open, Ratio, Value};
use common::desk::Desk;
use common::{
    assert_every_break_is_met, break_lists, plain_sheet, set_starts, Break, Met, Random, B,
};
use lavroudem_model::deck::CALLS;
use lavroudem_model::refusal::Refusal;
use lavroudem_model::sheet::Sheet;
use lavroudem_model::tree::{
    default_ceiling, distribution, hedge_ratio, net_value, place, premium_ceiling, roll_back, Rows,
};
use lavroudem_model::walk::Walk;

const ALL: [Call; 5] = [Open, Back, Value, Ratio, Forward];

fn walked(sheet: Sheet) -> Desk {
    Desk::walked(sheet, &CALLS)
}

/// Whatever walk and rows it is given, so long as the lengths are right.
#[test]
fn open_starts_at_the_last_step_with_zero_rows() {
    let mut random = Random::new(8);
    for _ in 0..100 {
        let mut desk = walked(random.small_sheet());
        desk.walk = Walk {
            open: random.between(0, 1) == 0,
            number: random.between(0, 255) as u8,
            position: random.draw() as usize,
        };
        for entry in desk.default_row.iter_mut().chain(&mut desk.premium_row) {
            *entry = random.draw();
        }
        let mut expected = desk.clone();
        expected.default_row.fill(0);
        expected.premium_row.fill(0);
        expected.walk = Walk {
            open: true,
            number: desk.sheet.number,
            position: desk.sheet.steps,
        };
        assert_eq!(desk.ask(&CALLS, Open), Ok(vec![]));
        assert_eq!(desk, expected);
    }
}

/// A desk with any clean rows, not only walked ones, and operands on the
/// tree.
fn any_desk(random: &mut Random) -> Desk {
    let sheet = random.small_sheet();
    let mut desk = walked(sheet.clone());
    desk.walk.position = random.between(0, sheet.steps as u64) as usize;
    desk.back_by = random.between(0, desk.walk.position as u64) as usize;
    desk.forward_by = random.between(0, sheet.steps as u64) as usize;
    desk.tranche = random.between(0, sheet.index() as u64) as usize;
    desk.count = random.between(0, sheet.names as u64) as usize;
    for tranche in 0..=sheet.index() {
        for count in 0..=sheet.names {
            let here = place(&sheet, tranche, count);
            let limit = default_ceiling(&sheet, tranche, count) as u64;
            desk.default_row[here] = random.between(0, limit);
            let limit = premium_ceiling(&sheet, desk.walk.position, count) as u64;
            desk.premium_row[here] = random.between(0, limit);
        }
    }
    desk
}

/// What the tree says of each call's answer, and the desk it leaves.
fn by_the_tree(before: &Desk, call: Call) -> (Result<Vec<i128>, Refusal>, Desk) {
    let (sheet, mut rows, mut desk) = (&before.sheet, before.rows(), before.clone());
    let (tranche, count) = (desk.tranche, desk.count);
    let answer = match call {
        Value => {
            let here = place(sheet, tranche, count);
            let legs = [rows.default_row[here], rows.premium_row[here]].map(|leg| leg as i128);
            let net = net_value(sheet, &rows, tranche, count);
            Ok(vec![legs[0], legs[1], net])
        }
        Ratio if count == sheet.names => Err(Refusal::OffTree),
        Ratio => hedge_ratio(sheet, &rows, tranche, count).map(|ratio| vec![ratio]),
        Forward => {
            let row = distribution(sheet, desk.forward_by);
            desk.forward_row = narrowed(&row);
            Ok(vec![])
        }
        Back => {
            let position = roll_back(sheet, &mut rows, desk.walk.position, desk.back_by);
            desk.walk.position = position;
            desk.default_row = narrowed(&rows.default_row);
            desk.premium_row = narrowed(&rows.premium_row);
            Ok(vec![position as i128])
        }
        other => unreachable!("{other:?} is not of the tree"),
    };
    (answer, desk)
}

fn narrowed(row: &[u128]) -> Vec<u64> {
    row.iter()
        .map(|&entry| u64::try_from(entry).unwrap())
        .collect()
}

#[test]
fn accepted_calls_do_what_the_tree_says_and_no_more() {
    let mut random = Random::new(14);
    let mut ratios = 0;
    let mut negative_ratios = 0;
    for _ in 0..2_000 {
        let mut desk = any_desk(&mut random);
        desk.forward_row.fill_with(|| random.draw());
        for call in [Value, Ratio, Forward, Back] {
            let mut asked = desk.clone();
            let answer = asked.ask(&CALLS, call);
            assert_eq!((answer.clone(), asked), by_the_tree(&desk, call));
            if let (Ratio, Ok(ratio)) = (call, answer) {
                ratios += 1;
                negative_ratios += usize::from(ratio[0] < 0);
            }
        }
    }
    assert!(ratios > 1_000);
    assert!(negative_ratios > 50);
}

/// Its jump over itself.
#[test]
fn ratio_of_the_index_is_one_unless_it_is_flat() {
    let mut random = Random::new(16);
    let mut flat = 0;
    for _ in 0..500 {
        let mut desk = walked(random.small_sheet());
        desk.tranche = desk.sheet.index();
        for count in 0..desk.sheet.names {
            desk.count = count;
            match desk.ask(&CALLS, Ratio) {
                Ok(ratio) => assert_eq!(ratio, [1_000_000]),
                Err(refusal) => {
                    assert_eq!(refusal, Refusal::FlatHedge);
                    flat += 1;
                }
            }
        }
    }
    assert!(flat > 0 && flat < 500);
}

/// Any split, zeros included, of the way back; then nothing more than 0.
#[test]
fn back_in_any_split_reaches_the_root() {
    let mut random = Random::new(13);
    for _ in 0..300 {
        let sheet = random.small_sheet();
        let mut at_once = Rows::zero(&sheet);
        roll_back(&sheet, &mut at_once, sheet.steps, sheet.steps);
        let mut desk = walked(sheet.clone());
        assert_eq!(desk.ask(&CALLS, Open), Ok(vec![]));
        while desk.walk.position > 0 {
            desk.back_by = random.between(0, desk.walk.position as u64) as usize;
            let left = desk.walk.position - desk.back_by;
            assert_eq!(desk.ask(&CALLS, Back), Ok(vec![left as i128]));
            assert_eq!(desk.walk.position, left);
        }
        assert_eq!(desk.rows(), at_once);
        desk.back_by = 1;
        let before = desk.clone();
        assert_eq!(desk.ask(&CALLS, Back), Err(Refusal::OutOfSteps));
        assert_eq!(desk, before);
        desk.back_by = 0;
        let before = desk.clone();
        assert_eq!(desk.ask(&CALLS, Back), Ok(vec![0]));
        assert_eq!(desk, before);
    }
}

#[test]
fn largest_sheet_is_walked_to_its_root() {
    let mut sheet = plain_sheet(125, 3_650, 8);
    set_starts(&mut sheet, &[1, 1_826, 3_650]);
    let mut desk = walked(sheet);
    for part in [0, 1, 2_000, 1_648] {
        desk.back_by = part;
        assert!(desk.ask(&CALLS, Back).is_ok());
    }
    assert_eq!(desk.walk.position, 0);
    desk.forward_by = 3_650;
    (desk.tranche, desk.count) = (8, 124);
    for call in [Value, Ratio, Forward] {
        assert!(desk.ask(&CALLS, call).is_ok());
    }
    assert_eq!(desk.forward_row.iter().sum::<u64>(), B);
}

/// A figure from anywhere in its type, with the ends and the limits of
/// document 01 often.
fn any_figure(random: &mut Random) -> u64 {
    let edges = [0, 1, 2, 8, 9, 125, 126, 3_650, 3_651, 10_000_001, B, B + 1];
    match random.between(0, 3) {
        0 => random.draw(),
        1 => u64::MAX - random.between(0, 2),
        _ => edges[random.between(0, edges.len() as u64 - 1) as usize],
    }
}

fn spoil_list(random: &mut Random, list: &mut Vec<u64>) {
    let figure = any_figure(random);
    match random.between(0, 4) {
        0 => list.push(figure),
        1 => drop(list.pop()),
        2 => list.resize(random.between(0, 40) as usize, figure),
        _ => {
            if !list.is_empty() {
                let place = random.between(0, list.len() as u64 - 1) as usize;
                list[place] = figure;
            }
        }
    }
}

/// Puts something else in the place of one thing of the desk. Hands back how
/// it broke periods or fractions, if it did that.
fn spoil(random: &mut Random, desk: &mut Desk) -> Option<Break> {
    let figure = any_figure(random);
    match random.between(0, 23) {
        0 => desk.sheet.names = figure as usize,
        1 => desk.sheet.steps = figure as usize,
        2 => desk.sheet.tranches = figure as usize,
        3 => desk.sheet.recovery = figure,
        4 => desk.sheet.number = figure as u8,
        5 => spoil_list(random, &mut desk.sheet.attachments),
        6 => spoil_list(random, &mut desk.sheet.hazards),
        7 => spoil_list(random, &mut desk.sheet.discounts),
        8 => spoil_list(random, &mut desk.sheet.accruals),
        9 => spoil_list(random, &mut desk.sheet.coupons),
        10 => spoil_list(random, &mut desk.default_row),
        11 => spoil_list(random, &mut desk.premium_row),
        12 => spoil_list(random, &mut desk.forward_row),
        13 => desk.register.resize(random.between(0, 300) as usize, 0xA5),
        14 => desk.register[..].fill(figure as u8),
        15 => desk.walk.open = !desk.walk.open,
        16 => desk.walk.position = figure as usize,
        17 => desk.back_by = figure as usize,
        18 => desk.tranche = figure as usize,
        19 => spoil_list(random, &mut desk.sheet.starts),
        20 => spoil_list(random, &mut desk.sheet.elapsed),
        21 | 22 => return Some(break_lists(random, &mut desk.sheet)),
        _ => {
            desk.count = figure as usize;
            desk.forward_by = figure as usize;
        }
    }
    None
}

/// A break that is all that is wrong is named by every call.
fn assert_named(spoiled: &[Option<Break>], desk: &Desk, met: &mut Met) {
    if let &[Some((name, refusal, _))] = spoiled {
        for call in ALL {
            let answer = desk.clone().ask(&CALLS, call);
            assert_eq!(answer, Err(refusal), "{name}: {call:?} on {desk:?}");
        }
        *met.entry(name).or_default() += 1;
    }
}

#[test]
fn calls_on_anything_answer_or_refuse_without_a_trace() {
    let mut random = Random::new(2_012);
    let mut accepted = 0;
    let mut refused = [0; 26];
    let mut met = Met::new();
    for _ in 0..40_000 {
        let mut desk = walked(random.small_sheet());
        let spoils = 0..random.between(0, 3);
        let spoiled: Vec<_> = spoils.map(|_| spoil(&mut random, &mut desk)).collect();
        assert_named(&spoiled, &desk, &mut met);
        for call in ALL {
            let mut asked = desk.clone();
            match asked.ask(&CALLS, call) {
                Ok(_) => accepted += 1,
                Err(refusal) => {
                    assert_eq!(asked, desk);
                    refused[usize::from(refusal.number())] += 1;
                }
            }
        }
    }
    assert!(accepted > 10_000);
    for (number, &times) in refused.iter().enumerate().take(15).skip(1) {
        assert!(times > 50, "refusal {number}: {times}");
    }
    assert!(refused[15] > 0);
    for number in [21, 25] {
        assert!(
            refused[number] > 50,
            "refusal {number}: {}",
            refused[number]
        );
    }
    assert_every_break_is_met(&met);
}
