//! The lists of a sheet may stand anywhere among its numbers: a span means as
//! many numbers as it states, from its start on. So each call must answer as it
//! does for a plain sheet of these lists, and refuse a span that states more
//! numbers than there are, whatever stands where it starts.

use super::super::*;
use crate::sheet::Lists;

/// No two of names, steps and tranches + 1 are the same.
const POOL: Pool = Pool {
    names: 4,
    steps: 3,
    tranches: 1,
    recovery: 400_000_000,
    number: 7,
};

const LISTS: Lists = Lists {
    attachments: &[30_000_000, 400_000_000],
    starts: &[1, 3],
    hazards: &[
        100_000_000,
        200_000_000,
        300_000_000,
        400_000_000,
        150_000_000,
        250_000_000,
        350_000_000,
        450_000_000,
    ],
    discounts: &[980_000_000, 970_000_000, 960_000_000],
    accruals: &[250_000_000, 0, 500_000_000],
    elapsed: &[125_000_000, 100_000_000, 400_000_000],
    coupons: &[1_000_000, 500_000],
};

/// In the order of the spans.
const LENGTHS: [usize; 7] = [2, 2, 8, 3, 3, 3, 2];

const REGISTER: [u8; 256] = [crate::LIVE; 256];

/// What the calls are lent to write, and the walk.
#[derive(Clone, Debug, PartialEq)]
struct Desk {
    walk: Walk,
    defaults: [u64; 10],
    premiums: [u64; 10],
    row: [u64; 5],
}

/// The plain sheet, one step before the last.
fn on_the_way() -> Desk {
    let mut desk = Desk {
        walk: Walk::FRESH,
        defaults: [5; 10],
        premiums: [5; 10],
        row: [5; 5],
    };
    let sheet = Sheet::new(POOL, LISTS);
    call_open(&mut desk, &sheet).unwrap();
    assert_eq!(call_back(&mut desk, &sheet, 1), Ok(vec![2]));
    desk
}

/// A call, and the figures that it answers.
type Call = fn(&mut Desk, &Sheet) -> Result<Vec<i64>, Refusal>;

const CALLS: [(Call, &str); 5] = [
    (call_open, "open"),
    (|desk, sheet| call_back(desk, sheet, 2), "back"),
    (call_value, "value"),
    (call_hedge_ratio, "hedge ratio"),
    (call_forward, "forward"),
];

fn call_open(desk: &mut Desk, sheet: &Sheet) -> Result<Vec<i64>, Refusal> {
    let (d, a) = (&mut desk.defaults, &mut desk.premiums);
    let (walk, answer) = open(desk.walk, sheet, &REGISTER, d, a);
    desk.walk = walk;
    answer.map(|()| vec![])
}

fn call_back(desk: &mut Desk, sheet: &Sheet, steps: usize) -> Result<Vec<i64>, Refusal> {
    let (d, a) = (&mut desk.defaults, &mut desk.premiums);
    let (walk, answer) = back(desk.walk, sheet, &REGISTER, d, a, steps);
    desk.walk = walk;
    answer.map(|position| vec![position as i64])
}

/// Every node.
fn call_value(desk: &mut Desk, sheet: &Sheet) -> Result<Vec<i64>, Refusal> {
    let mut figures = Vec::new();
    for node in 0..10 {
        let (d, a) = (&desk.defaults, &desk.premiums);
        let (walk, answer) = value(desk.walk, sheet, &REGISTER, d, a, node / 5, node % 5);
        desk.walk = walk;
        let value = answer?;
        figures.extend([value.default_leg as i64, value.premium_leg as i64]);
        figures.push(value.net_value);
    }
    Ok(figures)
}

/// Every node that has a next default.
fn call_hedge_ratio(desk: &mut Desk, sheet: &Sheet) -> Result<Vec<i64>, Refusal> {
    let mut figures = Vec::new();
    for node in 0..8 {
        let (d, a) = (&desk.defaults, &desk.premiums);
        let (walk, answer) = hedge_ratio(desk.walk, sheet, &REGISTER, d, a, node / 4, node % 4);
        desk.walk = walk;
        figures.push(answer?);
    }
    Ok(figures)
}

fn call_forward(desk: &mut Desk, sheet: &Sheet) -> Result<Vec<i64>, Refusal> {
    forward(sheet, &REGISTER, &mut desk.row, 3).map(|()| vec![])
}

/// What a call answers, and what it leaves.
fn outcome(call: Call, before: &Desk, sheet: &Sheet) -> (Result<Vec<i64>, Refusal>, Desk) {
    let mut desk = before.clone();
    (call(&mut desk, sheet), desk)
}

fn spans(layout: &Layout) -> [Span; 7] {
    [
        layout.attachments,
        layout.starts,
        layout.hazards,
        layout.discounts,
        layout.accruals,
        layout.elapsed,
        layout.coupons,
    ]
}

fn spanned(numbers: &[u64], spans: [Span; 7]) -> Sheet {
    let [attachments, starts, hazards, discounts, accruals, elapsed, coupons] = spans;
    let layout = Layout {
        pool: POOL,
        attachments,
        starts,
        hazards,
        discounts,
        accruals,
        elapsed,
        coupons,
    };
    Sheet {
        layout,
        numbers: numbers.to_vec(),
    }
}

/// The list that a span means, if the numbers reach that far.
fn reached(numbers: &[u64], span: Span) -> Option<&[u64]> {
    numbers.get(span.at..span.at.checked_add(span.length)?)
}

/// How many calls were accepted, refused for a span that reaches past the
/// numbers, for another length, and otherwise.
#[derive(Default)]
struct Tally {
    accepted: usize,
    past: usize,
    other_length: usize,
    other: usize,
}

/// Each call on a sheet of these spans, beside the plain sheet of the lists
/// that they mean. An empty one stands for a list that is not there.
fn assert_meaning(tally: &mut Tally, before: &Desk, numbers: &[u64], spans: [Span; 7]) {
    let sheet = spanned(numbers, spans);
    let lists = spans.map(|span| reached(numbers, span).unwrap_or(&[]));
    let past = spans.iter().any(|&span| reached(numbers, span).is_none());
    let [attachments, starts, hazards, discounts, accruals, elapsed, coupons] = lists;
    let lists_meant = Lists {
        attachments,
        starts,
        hazards,
        discounts,
        accruals,
        elapsed,
        coupons,
    };
    let plain = Sheet::new(POOL, lists_meant);
    let whole = lists.map(<[u64]>::len) == LENGTHS;
    for (call, name) in CALLS {
        let (answer, after) = outcome(call, before, &sheet);
        let (expected, expected_after) = outcome(call, before, &plain);
        assert_eq!(answer, expected, "{name}, {spans:?}");
        assert_eq!(after, expected_after, "{name}, {spans:?}");
        assert_eq!(answer == Err(Refusal::Length), past || !whole, "{name}, {spans:?}");
        assert!(answer.is_ok() || after == *before, "{name}, {spans:?}");
        match answer {
            Ok(_) => tally.accepted += 1,
            Err(Refusal::Length) if past => tally.past += 1,
            Err(Refusal::Length) => tally.other_length += 1,
            Err(_) => tally.other += 1,
        }
    }
}

#[test]
fn every_call_accepts_the_plain_sheet() {
    let sheet = Sheet::new(POOL, LISTS);
    let lengths = spans(&sheet.layout).map(|span| span.length);
    assert_eq!(lengths, LENGTHS);
    for (call, name) in CALLS {
        let (answer, _) = outcome(call, &on_the_way(), &sheet);
        assert!(answer.is_ok(), "{name}: {answer:?}");
    }
}

/// The 5,040 orders of seven lists.
fn orders() -> Vec<[usize; 7]> {
    let codes = 0..7_usize.pow(7);
    let places = [0, 1, 2, 3, 4, 5, 6];
    let digits = codes.map(|code| places.map(|place| code / 7_usize.pow(place) % 7));
    let orders = digits.filter(|order| (0..7).all(|list| order.contains(&list)));
    orders.collect()
}

/// The figures stay those of the plain sheet.
#[test]
fn lists_in_any_order_with_gaps() {
    let plain = Sheet::new(POOL, LISTS);
    let before = on_the_way();
    for order in orders() {
        let mut numbers = Vec::new();
        let mut moved = spans(&plain.layout);
        for (gap, list) in order.into_iter().enumerate() {
            let own = reached(&plain.numbers, moved[list]).unwrap();
            numbers.extend(vec![u64::MAX; gap]);
            moved[list].at = numbers.len();
            numbers.extend(own);
        }
        let sheet = spanned(&numbers, moved);
        for (call, name) in CALLS {
            let expected = outcome(call, &before, &plain);
            assert_eq!(
                outcome(call, &before, &sheet),
                expected,
                "{name}, {order:?}"
            );
        }
    }
    assert_eq!(orders().len(), 5_040);
}

/// What would be taken for `n` by a count in 32 bits or in bytes, and the
/// largest numbers.
fn far(n: usize) -> [usize; 5] {
    let most = usize::MAX;
    [n + (1 << 32), n + (1 << 61), n + (1 << 63), most - 1, most]
}

/// One list at any place and of any length; the others stay.
#[test]
fn one_span_anywhere() {
    let plain = Sheet::new(POOL, LISTS);
    let whole = spans(&plain.layout);
    let room = plain.numbers.len() + 2;
    let before = on_the_way();
    let mut tally = Tally::default();
    for (list, own) in whole.into_iter().enumerate() {
        for at in (0..=room).chain(far(own.at)) {
            // Lengths that end at 2^64, and beyond it where the list should end.
            let round = at.wrapping_neg();
            let beyond = [round, round.wrapping_add(own.at + own.length)];
            for length in (0..=room).chain(far(own.length)).chain(beyond) {
                let mut spans = whole;
                spans[list] = Span { at, length };
                assert_meaning(&mut tally, &before, &plain.numbers, spans);
            }
        }
    }
    // A list may share its numbers with another, as far as its limits go.
    assert!(tally.accepted > 100, "{}", tally.accepted);
    assert!(tally.past > 9_000, "{}", tally.past);
    assert!(tally.other_length > 9_000, "{}", tally.other_length);
    assert!(tally.other > 100, "{}", tally.other);
}

/// A span that stays, or one with an odd place or length.
fn oddly(way: usize, own: Span, end: usize) -> Span {
    let (at, length) = match way {
        0 => (own.at, own.length),
        1 => (end - own.length, own.length),
        2 => (own.at + 1, own.length),
        3 => (end + 1 - own.length, own.length),
        _ => (end - own.length, usize::MAX),
    };
    Span { at, length }
}

/// All seven lists at once, each in every odd way.
#[test]
fn seven_odd_spans_at_once() {
    let plain = Sheet::new(POOL, LISTS);
    let end = plain.numbers.len();
    let before = on_the_way();
    let mut tally = Tally::default();
    for code in 0..5_usize.pow(7) {
        let mut odd = spans(&plain.layout);
        for (list, span) in odd.iter_mut().enumerate() {
            *span = oddly(code / 5_usize.pow(list as u32) % 5, *span, end);
        }
        assert_meaning(&mut tally, &before, &plain.numbers, odd);
    }
    assert!(tally.accepted > 50, "{}", tally.accepted);
    assert!(tally.past > 10_000, "{}", tally.past);
    assert!(tally.other > 50, "{}", tally.other);
}
