//! The proved engine beside the model on whole decks: the listings must be
//! equal to the letter, and so must be the registers that they leave.
#![cfg(feature = "engine")]

use lavroudem_model::deck::{listing, run_on, MAX_DECK};
use lavroudem_model::random::Random;
use lavroudem_model::register::{self, LIVE, UNISSUED, WITHDRAWN};
use lavroudem_model::{decks, engine};
use std::collections::BTreeMap;

/// What the decks printed: how often each word came with each number.
type Tally = BTreeMap<(String, String), usize>;

fn same(deck: &[u8], out: &mut [u8], tally: &mut Tally) {
    let printed = engine::run_deck(deck, out).expect("no room");
    let expected = listing(deck);
    if printed != expected {
        let text = |bytes: &[u8]| String::from_utf8_lossy(bytes).into_owned();
        panic!(
            "deck {deck:02X?}\nengine:\n{}\nmodel:\n{}",
            text(printed),
            text(&expected)
        );
    }
    for line in String::from_utf8(expected).unwrap().lines() {
        let mut fields = line.split(' ');
        let (word, number) = (fields.next().unwrap(), fields.next().unwrap());
        *tally.entry((word.into(), number.into())).or_default() += 1;
    }
}

fn out() -> Vec<u8> {
    vec![0; engine::deck_room(MAX_DECK)]
}

#[test]
fn random_decks() {
    let mut random = Random::new(0xDEC_0001);
    let mut tally = Tally::new();
    let mut out = out();
    for _ in 0..6_000 {
        same(&decks::any(&mut random), &mut out, &mut tally);
    }
    for word in ["open", "back", "value", "delta", "forward"] {
        for number in (0..=10).chain([21]) {
            let entry = (word.to_string(), number.to_string());
            assert!(tally.contains_key(&entry), "no {word} {number}");
        }
        let periods = (word.to_string(), "25".to_string());
        assert!(!tally.contains_key(&periods), "{word} 25");
    }
    for (word, number) in [
        ("issue", 17),
        ("withdraw", 10),
        ("back", 13),
        ("value", 11),
        ("value", 14),
        ("delta", 14),
        ("delta", 15),
        ("forward", 13),
        ("forward", 14),
        ("deck", 18),
        ("deck", 19),
        ("deck", 20),
    ] {
        let entry = (word.to_string(), number.to_string());
        assert!(tally.contains_key(&entry), "no {word} {number}");
    }
}

#[test]
fn oversized_decks() {
    let mut random = Random::new(0xDEC_0002);
    let mut out = out();
    for _ in 0..300 {
        same(&decks::oversized(&mut random), &mut out, &mut Tally::new());
    }
}

#[test]
fn longest_decks() {
    let mut random = Random::new(0xDEC_0003);
    let mut out = out();
    for _ in 0..4 {
        same(&decks::longest(&mut random), &mut out, &mut Tally::new());
    }
}

/// The most that a deck's length can print: a call of one byte a line.
#[test]
fn decks_of_one_command() {
    let mut out = out();
    for command in 0..=255 {
        for length in [1, 2, 500] {
            same(&vec![command; length], &mut out, &mut Tally::new());
        }
    }
    for length in [MAX_DECK - 1, MAX_DECK, MAX_DECK + 1, 2 * MAX_DECK] {
        same(&vec![0x08; length], &mut out, &mut Tally::new());
    }
    same(&[], &mut out, &mut Tally::new());
}

#[test]
fn too_little_room_prints_nothing() {
    let deck = [0x08; 10];
    let mut out = vec![0xEE; engine::deck_room(deck.len()) - 1];
    assert_eq!(engine::run_deck(&deck, &mut out), None);
    assert!(out.iter().all(|&byte| byte == 0xEE));
}

/// Any bytes, and now and then another length than a register has.
fn random_register(random: &mut Random) -> Vec<u8> {
    let mut register = register::blank();
    for byte in &mut register {
        *byte = [UNISSUED, UNISSUED, LIVE, WITHDRAWN, random.draw() as u8][random.below(5)];
    }
    if random.one_in(10) {
        register.resize([0, 1, 255, 257, 1_000][random.below(5)], LIVE);
    }
    register
}

/// The engine on a register, its listing and what it leaves.
fn engine_on(deck: &[u8], register: &[u8], out: &mut [u8]) -> (Vec<u8>, Vec<u8>) {
    let mut left = register.to_vec();
    let printed = engine::run_on(deck, &mut left, out).expect("no room");
    (printed.to_vec(), left)
}

#[test]
fn random_decks_on_random_registers() {
    let mut random = Random::new(0xDEC_0004);
    let mut out = out();
    let (mut shown, mut written) = (0, 0);
    for _ in 0..6_000 {
        let register = random_register(&mut random);
        let deck = decks::any(&mut random);
        let expected = run_on(&deck, &register);
        assert_eq!(
            engine_on(&deck, &register, &mut out),
            expected,
            "{deck:02X?}"
        );
        shown += usize::from(String::from_utf8_lossy(&expected.0).contains("value 0 "));
        written += usize::from(expected.1 != register);
    }
    assert!(shown > 300, "{shown}");
    assert!(written > 300, "{written}");
}

#[test]
fn longest_and_oversized_decks_on_random_registers() {
    let mut random = Random::new(0xDEC_0005);
    let mut out = out();
    for turn in 0..100 {
        let register = random_register(&mut random);
        let deck = match turn {
            0..3 => decks::longest(&mut random),
            _ => decks::oversized(&mut random),
        };
        let expected = run_on(&deck, &register);
        assert_eq!(engine_on(&deck, &register, &mut out), expected);
    }
}

/// Runs one after the other on one register, each from what the last left.
#[test]
fn a_register_through_many_decks() {
    let mut random = Random::new(0xDEC_0006);
    let mut out = out();
    let mut register = register::blank();
    for _ in 0..2_000 {
        let deck = decks::any(&mut random);
        let expected = run_on(&deck, &register);
        assert_eq!(
            engine_on(&deck, &register, &mut out),
            expected,
            "{deck:02X?}"
        );
        register = expected.1;
    }
    let withdrawn = register.iter().filter(|&&byte| byte == WITHDRAWN).count();
    assert!(withdrawn > 50, "{withdrawn}");
}

#[test]
fn too_little_room_leaves_register_and_room() {
    let deck = [0x06, 7, 0x08];
    let mut register = register::blank();
    let mut out = vec![0xEE; engine::deck_room(deck.len()) - 1];
    assert_eq!(engine::run_on(&deck, &mut register, &mut out), None);
    assert!(out.iter().all(|&byte| byte == 0xEE));
    assert_eq!(register, register::blank());
}
