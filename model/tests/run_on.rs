//! A deck on a register that was kept: what it prints, and what it leaves.

mod common;

use common::writes::told;
use common::Random;
use lavroudem_model::commands::{encode, ISSUE, WITHDRAW};
use lavroudem_model::deck::{listing, run_on, MAX_DECK};
use lavroudem_model::decks;
use lavroudem_model::register::{self, status, Status, LIVE, UNISSUED, WITHDRAWN};
use lavroudem_model::worked;

fn text(listing: Vec<u8>) -> String {
    String::from_utf8(listing).unwrap()
}

/// The worked sheet is number 7.
fn worked_deck() -> Vec<u8> {
    let mut deck = decks::of_sheet(&worked::sheet());
    deck.extend(encode(WITHDRAW, &[7]));
    deck
}

#[test]
fn a_second_run_finds_what_the_first_left() {
    let (first, left) = run_on(&worked_deck(), &register::blank());
    let shown = "issue 0\nopen 0\nback 0 0\nvalue 0 54300000 218700000 324300000000000\n\
                 value 0 59700000 805500000 194250000000000\nforward 0 810000000\nwithdraw 0\n";
    assert_eq!(text(first), shown);
    let mut expected = register::blank();
    expected[7] = WITHDRAWN;
    assert_eq!(left, expected);

    let (second, after) = run_on(&worked_deck(), &left);
    let refused = "issue 9\nopen 9\nback 9\nvalue 9\nvalue 9\nforward 9\nwithdraw 9\n";
    assert_eq!(text(second), refused);
    assert_eq!(after, left);
}

#[test]
fn a_live_number_is_taken_and_stays_live() {
    let mut live = register::blank();
    live[7] = LIVE;
    let deck = decks::of_sheet(&worked::sheet());
    let (listing, left) = run_on(&deck, &live);
    let listing = text(listing);
    assert!(listing.starts_with("issue 17\nopen 0\nback 0 0\nvalue 0 54300000 "));
    assert_eq!(left, live);
}

/// Every call is lent the register, and refuses it with 2.
#[test]
fn a_register_of_another_length() {
    for length in [0, 1, 7, 255, 257, 1_000] {
        for byte in [UNISSUED, LIVE, WITHDRAWN] {
            let register = vec![byte; length];
            let (listing, left) = run_on(&worked_deck(), &register);
            let refused = "issue 2\nopen 2\nback 2\nvalue 2\nvalue 2\nforward 2\nwithdraw 2\n";
            assert_eq!(text(listing), refused);
            assert_eq!(left, register);
        }
    }
}

#[test]
fn a_deck_that_is_stopped_keeps_what_was_written() {
    let mut deck = encode(ISSUE, &[3]);
    deck.extend([0xEE, ISSUE, 4]);
    let (listing, left) = run_on(&deck, &register::blank());
    assert_eq!(text(listing), "issue 0\ndeck 18 2\n");
    let mut expected = register::blank();
    expected[3] = LIVE;
    assert_eq!(left, expected);

    let oversized = vec![ISSUE; MAX_DECK + 1];
    let (listing, left) = run_on(&oversized, &register::blank());
    assert_eq!(text(listing), "deck 20 65536\n");
    assert_eq!(left, register::blank());
}

/// Commands that bring a blank register to a state.
fn commands_to(register: &[u8]) -> Vec<u8> {
    let mut deck = Vec::new();
    for (number, &byte) in register.iter().enumerate() {
        let number = number as u64;
        if status(byte) != Status::Unissued {
            deck.extend(encode(ISSUE, &[number]));
        }
        if status(byte) == Status::Withdrawn {
            deck.extend(encode(WITHDRAW, &[number]));
        }
    }
    deck
}

/// The last line of a stopped deck tells an offset, which moves.
fn moved(listing: &str, by: usize) -> String {
    let Some((lines, stop)) = listing.split_once("deck ") else {
        return listing.to_string();
    };
    let (number, offset) = stop.trim_end().split_once(' ').unwrap();
    let offset: usize = offset.parse().unwrap();
    format!("{lines}deck {number} {}\n", offset + by)
}

/// As one deck from a blank register, the first part of which writes the
/// register that the second is run on.
#[test]
fn a_run_goes_on_from_an_earlier_one() {
    let mut random = Random::new(14);
    let mut shown = 0;
    for _ in 0..400 {
        let mut register = register::blank();
        for byte in &mut register {
            *byte = [UNISSUED, LIVE, LIVE, WITHDRAWN][random.below(4)];
        }
        let deck = decks::any(&mut random);
        let before = commands_to(&register);
        let (listing_after, _) = run_on(&deck, &register);
        let listing_after = text(listing_after);
        let whole = text(listing(&[&before[..], &deck[..]].concat()));
        let expected = text(listing(&before)) + &moved(&listing_after, before.len());
        assert_eq!(whole, expected, "{deck:?}");
        shown += usize::from(listing_after.contains("value 0 "));
    }
    assert!(shown > 20, "{shown}");
}

/// The register that is left, from the lines alone.
#[test]
fn the_lines_tell_what_is_left() {
    let mut random = Random::new(41);
    let mut written = 0;
    for _ in 0..400 {
        let mut register = register::blank();
        for byte in &mut register {
            *byte = [UNISSUED, LIVE, WITHDRAWN, random.draw() as u8][random.below(4)];
        }
        let deck = decks::any(&mut random);
        let (listing, left) = run_on(&deck, &register);
        for write in told(&deck, &text(listing)) {
            assert_eq!(register[write.number], write.old);
            register[write.number] = write.new;
            written += 1;
        }
        assert_eq!(left, register, "{deck:?}");
    }
    assert!(written > 100, "{written}");
}
