//! Random decks by seed: whole ones, and ones with a limit broken, damaged,
//! cut short, reordered, oversized or of noise. A deck has one period, and may
//! leave out elapsed fractions that are all zero.

use crate::commands::{
    encode, BACK, COMMANDS, COUPON, CUT, DELTA, ELAPSED, FORWARD, HAZARD, ISSUE, OPEN, POOL, STEP,
    VALUE, WITHDRAW,
};
use crate::deck::MAX_DECK;
use crate::random::Random;
use crate::sheet::{Sheet, MAX_NAMES, MAX_STEPS, MAX_TRANCHES};

const B: u64 = 1_000_000_000;

/// A deck as its commands, with their operands.
type Commands = Vec<Vec<u8>>;

/// A deck of a random kind, over a small tree.
pub fn any(random: &mut Random) -> Vec<u8> {
    let mut sheet = random.small_one_period_sheet();
    match random.below(10) {
        0..=3 => whole(random, &sheet).concat(),
        4 | 5 => {
            break_a_limit(random, &mut sheet);
            whole(random, &sheet).concat()
        }
        6 => {
            let mut deck = whole(random, &sheet).concat();
            damage(random, &mut deck);
            deck
        }
        7 => {
            let mut deck = whole(random, &sheet).concat();
            deck.truncate(random.below(deck.len() + 1));
            deck
        }
        8 => {
            let mut commands = whole(random, &sheet);
            shuffle(random, &mut commands);
            commands.concat()
        }
        _ => noise(random),
    }
}

/// A deck with too many figures of a kind, or of too many bytes.
pub fn oversized(random: &mut Random) -> Vec<u8> {
    let sheet = random.small_one_period_sheet();
    let mut commands = whole(random, &sheet);
    let (extra, limit) = match random.below(6) {
        0 => (encode(CUT, &[5]), MAX_TRANCHES + 2),
        1 => (encode(HAZARD, &[5]), MAX_NAMES + 1),
        2 => (encode(STEP, &[B, 1]), MAX_STEPS + 1),
        3 => (encode(COUPON, &[5]), MAX_TRANCHES + 2),
        4 => (encode(ELAPSED, &[0]), MAX_STEPS + 1),
        _ => (pool(&sheet), 1),
    };
    let place = random.below(commands.len());
    for _ in 0..random.with_edges(1, limit as u64) {
        commands.insert(place, extra.clone());
    }
    let mut deck = commands.concat();
    if random.one_in(3) {
        let length = random.between(MAX_DECK as u64 - 2, MAX_DECK as u64 + 2) as usize;
        deck.resize(length, OPEN);
    }
    deck
}

/// A deck of the largest tree, to the root in a few calls.
pub fn longest(random: &mut Random) -> Vec<u8> {
    let sheet = random.one_period_sheet(MAX_NAMES, MAX_STEPS, MAX_TRANCHES);
    let mut commands = entries(random, &sheet);
    commands.push(of_number(ISSUE, sheet.number));
    commands.push(open());
    let mut left = sheet.steps;
    while left > 0 {
        let count = left.min(random.between(1, 2_000) as usize);
        commands.push(back(count));
        commands.push(at_node(VALUE, random.below(9), random.below(126)));
        commands.push(at_node(DELTA, random.below(9), random.below(126)));
        left -= count;
    }
    commands.push(forward(sheet.steps, random.below(126)));
    commands.push(of_number(WITHDRAW, sheet.number));
    commands.push(at_node(VALUE, 0, 0));
    commands.concat()
}

/// A deck that walks a sheet of one period to the root in one call, and asks
/// for the value of every tranche and the distribution there.
pub fn of_sheet(sheet: &Sheet) -> Vec<u8> {
    let mut commands = entries(&mut Random::new(0), &without_zeros(sheet));
    commands.push(of_number(ISSUE, sheet.number));
    commands.push(open());
    commands.push(back(sheet.steps));
    for tranche in 0..=sheet.tranches {
        commands.push(at_node(VALUE, tranche, 0));
    }
    commands.push(forward(sheet.steps, 0));
    commands.concat()
}

// ---- commands

fn pool(sheet: &Sheet) -> Vec<u8> {
    let shape = [sheet.names, sheet.steps, sheet.tranches].map(|number| number as u64);
    let [names, steps, tranches] = shape;
    let number = u64::from(sheet.number);
    encode(POOL, &[names, steps, tranches, sheet.recovery, number])
}

fn of_number(command: u8, number: u8) -> Vec<u8> {
    encode(command, &[u64::from(number)])
}

fn open() -> Vec<u8> {
    encode(OPEN, &[])
}

fn back(steps: usize) -> Vec<u8> {
    encode(BACK, &[steps as u64])
}

fn at_node(command: u8, tranche: usize, count: usize) -> Vec<u8> {
    encode(command, &[tranche as u64, count as u64])
}

fn forward(steps: usize, count: usize) -> Vec<u8> {
    encode(FORWARD, &[steps as u64, count as u64])
}

// ---- decks

/// The sheet, and then calls on it.
fn whole(random: &mut Random, sheet: &Sheet) -> Commands {
    let mut commands = if random.one_in(2) {
        entries(random, &without_zeros(sheet))
    } else {
        entries(random, sheet)
    };
    commands.push(of_number(ISSUE, sheet.number));
    commands.push(open());
    for _ in 0..random.below(12) {
        commands.push(call(random, sheet));
    }
    commands
}

/// The sheet as a deck may enter it: m fractions that are zero need no command.
fn without_zeros(sheet: &Sheet) -> Sheet {
    let mut shorter = sheet.clone();
    if sheet.elapsed.len() == sheet.steps && sheet.elapsed.iter().all(|&e| e == 0) {
        shorter.elapsed.clear();
    }
    shorter
}

/// The commands that make a sheet. They may come in any order, so the lists
/// are dealt out at random, each in its own order.
fn entries(random: &mut Random, sheet: &Sheet) -> Commands {
    let figures = |command: u8, list: &[u64]| -> Commands {
        list.iter()
            .rev()
            .map(|&figure| encode(command, &[figure]))
            .collect()
    };
    let steps = sheet.discounts.iter().zip(&sheet.accruals).rev();
    let mut piles = [
        vec![pool(sheet)],
        figures(CUT, &sheet.attachments),
        figures(HAZARD, &sheet.hazards),
        steps.map(|(&v, &a)| encode(STEP, &[v, a])).collect(),
        figures(COUPON, &sheet.coupons),
        figures(ELAPSED, &sheet.elapsed),
    ];
    let mut commands = Vec::new();
    while piles.iter().any(|pile| !pile.is_empty()) {
        let pile = random.below(piles.len());
        commands.extend(piles[pile].pop());
    }
    commands
}

/// A call with operands that are most often on the tree.
fn call(random: &mut Random, sheet: &Sheet) -> Vec<u8> {
    let mut below = |most: usize| match random.below(10) {
        0 => most + 1,
        1 => random.below(256),
        _ => random.below(most + 1),
    };
    let (steps, tranche, count) = (
        below(sheet.steps),
        below(sheet.tranches),
        below(sheet.names),
    );
    match random.below(20) {
        0 => of_number(ISSUE, random.draw() as u8),
        1 => of_number(WITHDRAW, sheet.number),
        2 => of_number(WITHDRAW, random.draw() as u8),
        3 => open(),
        4..=8 => back(steps),
        9..=12 => at_node(VALUE, tranche, count),
        13..=16 => at_node(DELTA, tranche, count),
        _ => forward(steps, count),
    }
}

/// One figure of the sheet beyond its limit, or a list of another length.
fn break_a_limit(random: &mut Random, sheet: &mut Sheet) {
    let high = random.between(B + 1, u64::from(u32::MAX));
    let (k, i, j) = (
        random.below(sheet.names),
        random.below(sheet.steps),
        random.below(sheet.tranches + 1),
    );
    match random.below(20) {
        0 => sheet.names = [0, 126, 255][random.below(3)],
        1 => sheet.steps = [0, 3_651, 65_535][random.below(3)],
        2 => sheet.tranches = [0, 9, 255][random.below(3)],
        3 => sheet.attachments.push(B),
        4 => drop(sheet.hazards.remove(k)),
        5 => sheet.hazards.push(0),
        6 => {
            sheet.discounts.push(B);
            sheet.accruals.push(1);
        }
        7 => drop(sheet.coupons.remove(j)),
        8 => sheet.recovery = high,
        9 => sheet.attachments.reverse(),
        10 => sheet.attachments[j] = high,
        11 => sheet.hazards[k] = high,
        12 => sheet.discounts[i] = [0, high][random.below(2)],
        13 => sheet.accruals[i] = high,
        14 => sheet.accruals[sheet.steps - 1] = 0,
        15 => sheet.elapsed.push(0),
        16 => drop(sheet.elapsed.remove(i)),
        17 => sheet.elapsed[i] = high,
        18 => sheet.elapsed[i] = sheet.accruals[sheet.next_premium_date(i + 1) - 1] + 1,
        _ => sheet.coupons[j] = random.between(10_000_001, u64::from(u32::MAX)),
    }
}

/// Some bytes changed, taken out or put in.
fn damage(random: &mut Random, deck: &mut Vec<u8>) {
    for _ in 0..random.between(1, 3) {
        let place = random.below(deck.len());
        let byte = random.draw() as u8;
        match random.below(3) {
            0 => deck[place] = byte,
            1 => drop(deck.remove(place)),
            _ => deck.insert(place, byte),
        }
    }
}

fn shuffle(random: &mut Random, commands: &mut Commands) {
    for place in (1..commands.len()).rev() {
        commands.swap(place, random.below(place + 1));
    }
}

/// Commands with operands of any content.
fn noise(random: &mut Random) -> Vec<u8> {
    let mut deck = Vec::new();
    for _ in 0..random.below(30) {
        let command = &COMMANDS[random.below(COMMANDS.len())];
        deck.push(command.byte);
        for _ in 0..command.width() {
            let small = random.one_in(2);
            let byte = random.draw() as u8;
            deck.push(if small { byte % 4 } else { byte });
        }
    }
    deck
}
