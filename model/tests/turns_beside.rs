//! The proved engine beside the model, on calls for turns: tables, places and
//! lists of any length and content. Answer, place, and every lent record and
//! byte must be equal after every call.
#![cfg(feature = "engine")]

mod common;

use common::turns::{call, left, play, steps, table, Lent, Met};
use common::Random;
use lavroudem_model::engine;
use lavroudem_model::refusal::Refusal;
use lavroudem_model::trials;
use lavroudem_model::turns::{turns, MAX_LEFT, MAX_PLACES, MAX_WALKS};

/// Calls both sides. A refused call leaves all; another one leaves the walks.
fn ask(lent: &Lent) -> (Lent, Result<usize, Refusal>) {
    let (after, answer) = lent.after(engine::turns);
    let right = lent.after(turns);
    assert_eq!(answer, right.1, "{lent:?}");
    assert!(after == right.0, "{lent:?}: {after:?}");
    match answer {
        Ok(count) => {
            let mut walks = lent.table.iter().zip(&after.table);
            assert!(walks.all(|(before, after)| before.walk == after.walk));
            assert_eq!(after.list[count..], lent.list[count..]);
        }
        Err(_) => assert!(after == *lent, "{lent:?}: {after:?}"),
    }
    (after, answer)
}

fn number(lent: &Lent) -> Option<u8> {
    ask(lent).1.err().map(Refusal::number)
}

fn lent(random: &mut Random, steps: &[u16], place: usize, room: usize) -> Lent {
    Lent {
        table: table(random, steps),
        place,
        list: vec![0xEE; room],
    }
}

#[test]
fn random_calls_are_answered_alike() {
    let mut random = Random::new(0x7A12_0011);
    let mut met = Met::default();
    for _ in 0..400_000 {
        let lent = call(&mut random);
        let (after, answer) = ask(&lent);
        met.add(&lent, answer, &after);
    }
    met.assert_all(3_000);
}

/// Every table of up to four walks with few steps, from each place, with room
/// for none up to one more than all steps.
#[test]
fn small_tables_are_served_alike() {
    let mut random = Random::new(0x7A12_0012);
    let mut calls = 0;
    for (walks, most) in [(1, 9_u16), (2, 5), (3, 3), (4, 2)] {
        let base = usize::from(most) + 1;
        for code in 0..base.pow(walks) {
            let digit = |walk: u32| (code / base.pow(walk) % base) as u16;
            let steps: Vec<u16> = (0..walks).map(digit).collect();
            let all: u16 = steps.iter().sum();
            for place in 0..steps.len() {
                for room in 0..=usize::from(all) + 1 {
                    let (after, answer) = ask(&lent(&mut random, &steps, place, room));
                    let written = room.min(all.into());
                    assert_eq!(answer, Ok(written));
                    let taken = all - left(&after.table).iter().sum::<u16>();
                    assert_eq!(usize::from(taken), written);
                    calls += 1;
                }
            }
        }
    }
    assert!(calls > 3_000, "{calls}");
}

/// Each reason of 29, at its limit and past it.
#[test]
fn limits_are_alike() {
    let mut random = Random::new(0x7A12_0013);
    let refused = |holds: bool| if holds { None } else { Some(29) };
    for walks in (0..=300).chain([65_535, 65_536, 65_552]) {
        let lent = lent(&mut random, &vec![1; walks], 0, 3);
        let taken = (1..=MAX_WALKS).contains(&walks);
        assert_eq!(number(&lent), refused(taken), "{walks}");
    }
    for walks in 1..=MAX_WALKS {
        for place in (0..40).chain([255, 256, 1 << 16, 1 << 32, usize::MAX]) {
            let lent = lent(&mut random, &vec![1; walks], place, 3);
            assert_eq!(number(&lent), refused(place < walks), "{walks} {place}");
        }
        for at in 0..walks {
            for most in [MAX_LEFT - 1, MAX_LEFT, MAX_LEFT + 1, u16::MAX] {
                let mut steps = steps(&mut random, walks);
                steps[at] = most;
                let lent = lent(&mut random, &steps, 0, 40);
                assert_eq!(number(&lent), refused(most <= MAX_LEFT), "{steps:?}");
            }
        }
    }
    for room in (0..40)
        .chain(MAX_PLACES - 3..=MAX_PLACES + 3)
        .chain([1 << 17])
    {
        let lent = lent(&mut random, &[2, 0, 1], 1, room);
        assert_eq!(number(&lent), refused(room <= MAX_PLACES), "{room}");
    }
}

/// All steps of full tables, from each place.
#[test]
fn full_tables_are_served_alike() {
    let mut random = Random::new(0x7A12_0014);
    let all = MAX_WALKS * usize::from(MAX_LEFT);
    for place in 0..MAX_WALKS {
        for room in [all - 1, all, MAX_PLACES] {
            let steps = [MAX_LEFT; MAX_WALKS];
            let (after, answer) = ask(&lent(&mut random, &steps, place, room));
            assert_eq!(answer, Ok(room.min(all)));
            assert_eq!(usize::from(after.list[0]), (place + 1) % MAX_WALKS);
        }
    }
}

/// Lists of calls on one table, with refused ones among them: the same turns,
/// and fair ones by the engine's own account.
#[test]
fn turns_are_fair_over_lists_of_calls() {
    let (mut one, mut other) = (Random::new(0x7A12_0015), Random::new(0x7A12_0015));
    let (mut looked_at, mut refused) = (0, 0);
    for _ in 0..12_000 {
        let played = play(&mut one, engine::turns);
        let right = play(&mut other, turns);
        assert_eq!(played.turns, right.turns);
        assert_eq!(played.stands, right.stands);
        looked_at += played.fair().unwrap();
        refused += played.refused;
    }
    assert!(looked_at > 1_600_000, "{looked_at}");
    assert!(refused > 6_000, "{refused}");
}

/// The lines of the trials, through the archive that callers link.
#[test]
fn trials_are_answered_alike() {
    assert_eq!(trials::turn_lines(engine::turns), trials::turn_lines(turns));
}
