//! The orders in which calls check their refusals: of any two of an order, what
//! breaks both is answered with the first.

use super::book::refused_book;
use super::packed::{refused_reading, refused_writing};
use super::turns::refused_turns;
use super::{ensure, entries, same, table, Found};
use crate::common::desk::Call;
use crate::common::edges::{base, edges, Change};
use lavroudem_model::commands::{encode, FORWARD, ISSUE, POOL, WITHDRAW};
use lavroudem_model::deck::{listing, CALLS};
use lavroudem_model::refusal::Refusal;
use lavroudem_model::register::{self, status, Status};
use std::collections::BTreeMap;

/// A change of the base desk for each refusal that a call may give.
fn faults(call: Call) -> BTreeMap<u8, Change> {
    let of_register: [(u8, Change); 4] = [
        (2, |desk| desk.register.truncate(255)),
        (9, |desk| desk.register[1] = register::WITHDRAWN),
        (10, |desk| desk.register[1] = register::UNISSUED),
        (17, |desk| desk.register[1] = register::LIVE),
    ];
    let without = |number| {
        of_register
            .into_iter()
            .filter(move |fault| fault.0 != number)
    };
    match call {
        Call::Issue => without(10).collect(),
        Call::Withdraw => without(17).collect(),
        _ => {
            // The first of each number.
            let edges = edges().into_iter().rev();
            let own = edges.filter(|edge| edge.calls.contains(&call));
            own.map(|edge| (edge.refusal.number(), edge.outside))
                .collect()
        }
    }
}

/// Two that cannot be met at once: bytes of the register, and a byte that is
/// no command beside what a command may be.
fn exclude_each_other(first: u8, second: u8) -> bool {
    let bytes = [9, 10, 17];
    bytes.contains(&first) && bytes.contains(&second) || first == 18 || second == 18
}

/// All pairs of an order: what breaks both is answered with the first.
fn in_order(name: &str, order: &[u8], answer: &dyn Fn(&[u8]) -> Option<u8>) -> Found {
    same(answer(&[]), None, name)?;
    for (place, &first) in order.iter().enumerate() {
        same(answer(&[first]), Some(first), name)?;
        for &second in &order[place + 1..] {
            if exclude_each_other(first, second) {
                ensure(first < second, || {
                    format!("{name}: {second} before {first}")
                })?;
                continue;
            }
            // The higher first, since a flat index undoes a jump off scale.
            let both = [first.max(second), first.min(second)];
            same(answer(&both), Some(first), &format!("{name}, {both:?}"))?;
        }
    }
    Ok(())
}

/// What a call answers on the base desk with these faults.
fn refused(call: Call, numbers: &[u8]) -> Option<u8> {
    let faults = faults(call);
    let mut desk = base();
    if call == Call::Issue {
        desk.register[1] = register::UNISSUED;
    }
    for number in numbers {
        faults[number](&mut desk);
    }
    desk.ask(&CALLS, call).err().map(Refusal::number)
}

/// The listing's last number for a forward of this desk in a deck.
fn refused_in_a_deck(numbers: &[u8]) -> Option<u8> {
    let faults = faults(Call::Forward);
    let mut desk = base();
    for number in numbers {
        match number {
            14 => desk.count = desk.sheet.names + 1,
            number => faults[number](&mut desk),
        }
    }
    let number = [u64::from(desk.sheet.number)];
    let mut deck = entries(&desk.sheet);
    match status(desk.register[1]) {
        Status::Unissued => {}
        Status::Live => deck.extend(encode(ISSUE, &number)),
        Status::Withdrawn => {
            deck.extend([encode(ISSUE, &number), encode(WITHDRAW, &number)].concat())
        }
    }
    deck.extend(encode(
        FORWARD,
        &[desk.forward_by as u64, desk.count as u64],
    ));
    stop_or_answer(&deck)
}

/// The number in the last line, none for 0.
fn stop_or_answer(deck: &[u8]) -> Option<u8> {
    let printed = String::from_utf8(listing(deck)).unwrap();
    let number = printed.lines().last()?.split(' ').nth(1)?.parse().ok()?;
    Some(number).filter(|&number| number != 0)
}

/// A pool, behind another for 20, cut short for 19; or a byte that is none.
fn stopped(numbers: &[u8]) -> Option<u8> {
    let pool = encode(POOL, &[1, 1, 1, 0, 0]);
    let mut deck = Vec::new();
    if numbers.contains(&20) {
        deck.extend(&pool);
    }
    deck.extend(&pool);
    if numbers.contains(&19) {
        deck.pop();
    }
    if numbers.contains(&18) {
        deck.push(0x0E);
    }
    stop_or_answer(&deck)
}

pub fn orders_are_the_models(page: &str) -> Found {
    let calls = [
        ("issue", Call::Issue),
        ("withdraw", Call::Withdraw),
        ("open", Call::Open),
        ("back", Call::Back),
        ("value", Call::Value),
        ("hedge ratio", Call::Ratio),
        ("forward", Call::Forward),
    ];
    let rows = table(page, "| Call | Checks, in this order |")?;
    same(rows.len(), calls.len() + 6, "orders")?;
    for (row, (name, call)) in rows.iter().zip(calls) {
        let numbers = faults(call).into_keys().collect();
        is_order(row, name, numbers, &|numbers| refused(call, numbers))?;
    }
    is_order(&rows[7], "read packed", vec![2, 8, 30], &refused_reading)?;
    is_order(&rows[8], "write packed", vec![2, 8], &refused_writing)?;
    is_order(&rows[9], "book", vec![2, 28], &refused_book)?;
    is_order(&rows[10], "turns", vec![29], &refused_turns)?;
    let of_a_call = faults(Call::Forward).into_keys();
    // A deck has no other starts than the one.
    let of_a_deck = of_a_call.filter(|&number| number != Refusal::Periods.number());
    let in_a_deck = of_a_deck.chain([14]).collect();
    is_order(
        &rows[11],
        "forward in a deck",
        in_a_deck,
        &refused_in_a_deck,
    )?;
    is_order(&rows[12], "a command of a deck", vec![18, 19, 20], &stopped)
}

/// A row has these numbers, in the order in which they are answered.
fn is_order(
    row: &[&str],
    name: &str,
    mut numbers: Vec<u8>,
    answer: &dyn Fn(&[u8]) -> Option<u8>,
) -> Found {
    same(row[0], name, "a call")?;
    let order: Result<Vec<u8>, _> = row[1].split(", ").map(str::parse).collect();
    let order = order.map_err(|_| format!("no order: {row:?}"))?;
    let mut sorted = order.clone();
    sorted.sort();
    numbers.sort();
    same(sorted, numbers, name)?;
    in_order(name, &order, answer)
}
