//! The proved engine beside the model, on books: the same positions, and bytes
//! of any length and content. Number, length of the line and every lent byte
//! must be equal after every call.
#![cfg(feature = "engine")]

mod common;

use common::books::{self, adding_to, positions, shuffled, small_book, sold, Lent, Met, Position};
use common::Random;
use lavroudem_model::book::{self, LINE_ROOM, MAX_NOMINAL, MAX_POSITIONS, MAX_VALUE};
use lavroudem_model::engine::refusal;
use lavroudem_model::refusal::Refusal;
use lavroudem_model::trials;

/// Calls both sides; what is left comes in `out`, and a refused call leaves all.
fn ask(nominals: &[i64], values: &[i64], out: &mut [u8]) -> Result<usize, Refusal> {
    let before = out.to_vec();
    let mut other = before.clone();
    let engine = lavroudem::book(nominals, values, out).map_err(refusal);
    let model = book::book(nominals, values, &mut other);
    assert_eq!(engine, model, "{nominals:?} {values:?}");
    assert_eq!(out, other, "{nominals:?} {values:?}");
    match engine {
        Ok(length) => assert_eq!(out[length..], before[length..]),
        Err(_) => assert_eq!(out, before),
    }
    engine
}

/// The line of positions that are taken.
fn line(positions: &[Position]) -> String {
    let (nominals, values): (Vec<i64>, Vec<i64>) = positions.iter().copied().unzip();
    let mut out = [0x30; LINE_ROOM];
    let length = ask(&nominals, &values, &mut out).unwrap();
    String::from_utf8(out[..length].to_vec()).unwrap()
}

#[test]
fn random_calls_are_answered_alike() {
    let mut random = Random::new(0xB00C_0005);
    let mut met = Met::default();
    for _ in 0..400_000 {
        let lent = books::call(&mut random);
        let mut out = lent.out.clone();
        let answer = ask(&lent.nominals, &lent.values, &mut out);
        met.add(&lent, answer, &out);
    }
    met.assert_all(4_000);
}

/// Also by the engine alone, which need not know another order.
#[test]
fn order_plays_no_part() {
    let mut random = Random::new(0xB00C_0006);
    let mut moved = 0;
    for at in 0..20_000 {
        let positions = match at % 200 {
            0 => positions(&mut random, MAX_POSITIONS),
            _ => small_book(&mut random),
        };
        let other = shuffled(&mut random, &positions);
        moved += usize::from(other != positions);
        assert_eq!(line(&other), line(&positions));
    }
    assert!(moved > 12_000, "{moved}");
}

/// Ones and nines of every length, and what a carry or a loan makes of them.
#[test]
fn totals_beside_powers_of_ten_are_alike() {
    for power in 0..=26 {
        for beside in -2..=2 {
            let worth = 10_i128.pow(power) + beside;
            let bought = adding_to(worth);
            let figures = match worth {
                0.. => format!("{worth} {worth} 0"),
                _ => format!("{worth} 0 {worth}"),
            };
            assert_eq!(line(&bought), format!("book 0 {figures}\n"));
            line(&sold(&bought));
            for step in [(1, 1), (-1, 1), (3, -1)] {
                line(&[&bought[..], &[step]].concat());
                line(&[&[step], &sold(&bought)[..]].concat());
            }
            let flat = [&bought[..], &sold(&bought)].concat();
            assert!(line(&flat).starts_with("book 0 0 "));
        }
    }
}

/// Full books of gains and losses: the longest lines, and the largest totals.
#[test]
fn full_books_are_alike() {
    let mut lengths = std::collections::BTreeSet::new();
    for gaining in (0..=MAX_POSITIONS).step_by(64) {
        for sign in [1, -1] {
            let position = |place| match place < gaining {
                true => (sign * MAX_NOMINAL, MAX_VALUE),
                false => (sign * MAX_NOMINAL, -MAX_VALUE),
            };
            let positions: Vec<Position> = (0..MAX_POSITIONS).map(position).collect();
            lengths.insert(line(&positions).len());
        }
    }
    assert_eq!(lengths.last(), Some(&93));
    assert!(
        lengths.contains(&65) && lengths.contains(&67),
        "{lengths:?}"
    );
}

/// Every length of the lent bytes, with books that are taken and that are not.
#[test]
fn odd_lengths_are_refused_alike() {
    for length in 0..=300 {
        for (nominals, values) in [
            (&[][..], &[][..]),
            (&[1, -2], &[3, 4]),
            (&[1, -2], &[3]),
            (&[MAX_NOMINAL + 1], &[1]),
            (&[1], &[MAX_VALUE + 1]),
        ] {
            let mut out = vec![0xFF; length];
            let number = ask(nominals, values, &mut out).err().map(Refusal::number);
            let taken = nominals.len() == values.len()
                && nominals.iter().all(|&nominal| nominal <= MAX_NOMINAL)
                && values.iter().all(|&value| value <= MAX_VALUE);
            let right = match (length, taken) {
                (96, true) => None,
                (96, false) => Some(28),
                _ => Some(2),
            };
            assert_eq!(number, right, "{length}");
        }
    }
}

/// One number at each side of its limit, at each place of a full book.
#[test]
fn limits_are_alike_at_every_place() {
    let lent = Lent {
        nominals: vec![1; MAX_POSITIONS],
        values: vec![1; MAX_POSITIONS],
        out: vec![0; LINE_ROOM],
    };
    let number = |lent: &Lent| {
        let mut out = lent.out.clone();
        let answer = ask(&lent.nominals, &lent.values, &mut out);
        answer.err().map(Refusal::number)
    };
    for place in (0..MAX_POSITIONS).step_by(63).chain([MAX_POSITIONS - 1]) {
        for sign in [1, -1] {
            for more in [0, 1] {
                let right = [None, Some(28)][more as usize];
                let mut changed = lent.clone();
                changed.nominals[place] = sign * (MAX_NOMINAL + more);
                assert_eq!(number(&changed), right, "{place}");
                let mut changed = lent.clone();
                changed.values[place] = sign * (MAX_VALUE + more);
                assert_eq!(number(&changed), right, "{place}");
            }
        }
    }
}

/// The lines of the trials, through the archive that callers link; and the
/// crate has the words too.
#[test]
fn trials_are_answered_alike() {
    let engine = trials::book_lines(|nominals, values, out| {
        lavroudem::book(nominals, values, out).map_err(refusal)
    });
    assert_eq!(engine, trials::book_lines(book::book));
}
