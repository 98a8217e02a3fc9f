//! The table for people: signs and rounding, refusals in words, and listings
//! that are not those of their deck. Whole tables are held to files in
//! `examples`.

use lavroudem_model::deck::{listing, MAX_DECK};
use lavroudem_model::decks;
use lavroudem_model::random::Random;
use lavroudem_model::refusal::Refusal;
use lavroudem_tool::table::{decimal, nearest, table};
use lavroudem_tool::text::assemble;

/// Two tranches, 0 to 30 % and 30 % to 30.0000003 %; tranche 2 is the index.
const SHEET: &str = "pool 2 9 2 0 7\ncut 0\ncut 300000000\ncut 300000003\n";

/// The last row that these calls give by that listing, its blanks as one.
fn last_row(calls: &str, listing: &str) -> String {
    let deck = assemble(&format!("{SHEET}{calls}")).unwrap();
    let table = table(&deck, listing).unwrap();
    let words: Vec<&str> = table.lines().last().unwrap().split_whitespace().collect();
    words.join(" ")
}

// ---- numbers

#[test]
fn decimals_keep_their_sign() {
    assert_eq!(decimal(0, 3), "0.000");
    assert_eq!(decimal(-5, 3), "-0.005");
    assert_eq!(decimal(5, 3), "0.005");
    assert_eq!(decimal(-1_005, 3), "-1.005");
    assert_eq!(decimal(1_000_000, 6), "1.000000");
    assert_eq!(decimal(54_300_000, 7), "5.4300000");
    assert_eq!(decimal(i128::from(i64::MIN), 1), "-922337203685477580.8");
}

#[test]
fn halves_go_away_from_zero() {
    for (number, divisor, result) in [
        (0, 7, 0),
        (1, 2, 1),
        (-1, 2, -1),
        (3, 2, 2),
        (-3, 2, -2),
        (1, 3, 0),
        (-1, 3, 0),
        (2, 3, 1),
        (-2, 3, -1),
        (149_999_999, 300_000_000, 0),
        (150_000_000, 300_000_000, 1),
        (-149_999_999, 300_000_000, 0),
        (-150_000_000, 300_000_000, -1),
    ] {
        assert_eq!(nearest(number, divisor), result, "{number} / {divisor}");
    }
}

// ---- rows

#[test]
fn values_are_in_per_cent_and_basis_points() {
    let row = |calls, listing| last_row(calls, listing);
    let small = "value 0-30 % 0 - 0.0000001 0.0000000 0.000";
    assert_eq!(row("value 0 0", "value 0 1 0 149999999\n"), small);
    assert_eq!(row("value 0 0", "value 0 1 0 -149999999\n"), small);
    let half = "value 0-30 % 0 - 0.0000000 0.0000000 -0.001";
    assert_eq!(row("value 0 0", "value 0 0 0 -150000000\n"), half);
    let narrow = "value 30-30.0000003 % 1 - 0.0000003 100.0000000 10000.000";
    assert_eq!(row("value 1 1", "value 0 3 1000000000 30000000\n"), narrow);
    let index = "value index 2 - 100.0000000 0.0000000 10000.000";
    let line = "value 0 1000000000 0 10000000000000000\n";
    assert_eq!(row("value 2 2", line), index);
}

#[test]
fn ratios_and_chances() {
    let ratio = last_row("delta 1 0", "delta 0 -5\n");
    assert_eq!(ratio, "delta 30-30.0000003 % 0 - -0.000005");
    let large = last_row("delta 0 0", "delta 0 1000000000000\n");
    assert_eq!(large, "delta 0-30 % 0 - 1000000.000000");
    let chance = last_row("forward 4 2", "forward 0 12345678\n");
    assert_eq!(chance, "forward 2 4 1.2345678");
}

#[test]
fn the_position_is_that_of_accepted_calls() {
    let calls = "open\nback 4\nback 8\nopen\nback 2\ndelta 0 0\n";
    let at_7 = "open 0\nback 0 5\nback 13\nopen 0\nback 0 7\ndelta 0 0\n";
    assert_eq!(last_row(calls, at_7), "delta 0-30 % 0 7 0.000000");
    let at_9 = "open 0\nback 0 5\nback 13\nopen 0\nback 13\ndelta 0 0\n";
    assert_eq!(last_row(calls, at_9), "delta 0-30 % 0 9 0.000000");
    let at_5 = "open 0\nback 0 5\nback 13\nopen 9\nback 9\ndelta 0 0\n";
    assert_eq!(last_row(calls, at_5), "delta 0-30 % 0 5 0.000000");
}

#[test]
fn refusals_come_in_words() {
    let row = last_row("issue 7", "issue 17\n");
    assert_eq!(
        row,
        "issue 7 - refused 17: live (the sheet number is in use already)"
    );
    let row = last_row("value 3 0", "value 14\n");
    assert!(
        row.starts_with("value no. 3 0 - refused 14: off tree ("),
        "{row}"
    );
    let of_calls = Refusal::ALL[..17].iter().chain([&Refusal::Elapsed]);
    for (number, refusal) in (1..=17).chain([21]).zip(of_calls) {
        let row = last_row("back 3", &format!("back {number}\n"));
        let words = format!("back 3 - refused {number}: {} (", refusal.word());
        assert!(row.starts_with(&words), "{row}");
    }
}

/// Without a pool there is no index, and a point too many makes no tranche.
#[test]
fn a_tranche_that_the_deck_lacks_has_its_number() {
    let named = |text: &str, name: &str| {
        let table = table(&assemble(text).unwrap(), "value 1\n").unwrap();
        let row = table.lines().last().unwrap().to_string();
        assert!(row.starts_with(&format!("value  {name} ")), "{row}");
    };
    named("cut 0\ncut 1\nvalue 0 0", "no. 0");
    named("pool 2 9 1 0 7\nvalue 0 0", "no. 0");
    named("pool 2 9 1 0 7\nvalue 1 0", "index");
    named(
        "pool 2 9 1 0 7\ncut 0\ncut 1\ncut 2\ncut 3\nvalue 2 0",
        "no. 2",
    );
}

#[test]
fn faults_of_a_deck_have_their_offset() {
    let told = |deck: &[u8]| {
        let printed = String::from_utf8(listing(deck)).unwrap();
        let table = table(deck, &printed).unwrap();
        let row = table.lines().last().unwrap().to_string();
        (
            row.contains("refused 18: unknown"),
            row.contains("refused 19: cut short"),
            row,
        )
    };
    let (unknown, _, row) = told(&[0x08, 0xFE, 0x08]);
    assert!(unknown && row.ends_with(", at byte 1"), "{row}");
    let (_, short, row) = told(&[0x08, 0x08, 0x09, 1]);
    assert!(short && row.ends_with(", at byte 2"), "{row}");
    // The commands of an oversized deck are not run, so no other row stands.
    let deck = vec![0x08; MAX_DECK + 1];
    let table = table(&deck, "deck 20 65536\n").unwrap();
    assert_eq!(table.matches("refused").count(), 1);
    assert!(table.ends_with(", at byte 65536\n"));
}

/// A row for each line with figures or a refusal, and none else.
#[test]
fn random_decks_have_their_rows() {
    let mut random = Random::new(0x7AB1_0001);
    let heading = table(&assemble("issue 1").unwrap(), "issue 0\n").unwrap();
    for _ in 0..2_000 {
        let deck = decks::any(&mut random);
        let printed = String::from_utf8(listing(&deck)).unwrap();
        let quiet = |line: &&str| {
            let accepted = line.split(' ').nth(1) == Some("0");
            let word = line.split(' ').next().unwrap();
            accepted && ["issue", "withdraw", "open", "back"].contains(&word)
        };
        let lines = printed.lines().filter(|line| !quiet(line)).count();
        let table = table(&deck, &printed).unwrap();
        let rows = match &table[..] {
            "" => 0,
            _ => table.lines().count() - heading.lines().count(),
        };
        assert_eq!(rows, lines, "{printed}\n{table}");
    }
}

/// The figures are those of a tranche that the deck has.
#[test]
fn a_value_without_its_tranche_is_a_mistake() {
    let deck = assemble(&format!("{SHEET}value 3 0")).unwrap();
    let mistake = table(&deck, "value 0 1 2 3\n").unwrap_err();
    let reason = "line 1: a value, but the deck has no tranche 3";
    assert_eq!(mistake.to_string(), reason);
}
