//! Listings are taken only whole, and only beside their own deck.

use lavroudem_model::deck::listing;
use lavroudem_model::decks;
use lavroudem_model::random::Random;
use lavroudem_model::refusal::Refusal;
use lavroudem_tool::course::{course, Course};
use lavroudem_tool::listing::{calls, read, Answer};
use lavroudem_tool::text::assemble;

/// Forty bytes that print nothing.
const SHEET: &str = "pool 2 9 2 0 7\ncut 0\ncut 300000000\ncut 300000003\ncoupon 1 x 3\n";

fn reason(calls: &str, listing: &str) -> String {
    let deck = assemble(&format!("{SHEET}{calls}")).unwrap();
    let answers = read(&course(&deck), listing.as_bytes());
    answers.unwrap_err().to_string()
}

#[test]
fn a_listing_of_another_deck_is_a_mistake() {
    let other = "line 2: `value 9` does not belong to the deck's call";
    assert_eq!(reason("issue 7\nopen", "issue 0\nvalue 9\n"), other);
    let longer = "line 2: `open 0` does not belong to the deck's call";
    assert_eq!(reason("issue 7", "issue 0\nopen 0\n"), longer);
    let ends = "line 2: the listing ends before its deck";
    assert_eq!(reason("issue 7\nopen", "issue 0\n"), ends);
    assert_eq!(reason("issue 7\nbytes ff", "issue 0\n"), ends);
    let nothing = "line 1: the listing ends before its deck";
    assert_eq!(reason("issue 7", ""), nothing);
    let after = "line 2: `open 0` does not belong to the deck's call";
    assert_eq!(reason("bytes ff 08", "deck 18 40\nopen 0\n"), after);
    let early = "line 1: `deck 18 40` does not belong to the deck's call";
    assert_eq!(reason("open\nbytes ff", "deck 18 40\n"), early);
}

/// The worst of all: what is left of a figure looks like one.
#[test]
fn a_cut_line_is_a_mistake() {
    let cut = "line 2: the last line has no end: the listing was cut short";
    assert_eq!(reason("open\ndelta 0 0", "open 0\ndelta 0 724"), cut);
    assert_eq!(reason("open\ndelta 0 0", "open 0\nd"), cut);
    let cut = "line 2: the last line has no end: the listing was cut short";
    assert_eq!(reason("open", "open 0\nop"), cut);
}

#[test]
fn a_line_of_no_listing_is_a_mistake() {
    let no_line = |line: &str| format!("line 1: `{line}` is no line of a listing");
    for line in [
        "open",
        "open zero",
        "open 9223372036854775808",
        "open 9 9",
        "open  0",
        "open 0 ",
        "open 00",
        "open +0",
        "open -0",
        "",
    ] {
        assert_eq!(reason("open", &format!("{line}\n")), no_line(line));
    }
    assert_eq!(reason("open", "open 0\r\n"), no_line("open 0\\r"));
    for number in [22, 18, -1, 25, 28, 29, 30] {
        let refused = format!("line 1: no call of a deck is refused {number}");
        assert_eq!(reason("open", &format!("open {number}\n")), refused);
    }
    let figures = |word: &str| format!("line 1: these are not the figures of `{word}`");
    assert_eq!(reason("value 0 0", "value 0 1 2\n"), figures("value"));
    assert_eq!(reason("value 0 0", "value 0\n"), figures("value"));
    assert_eq!(reason("delta 0 0", "delta 0 1 2\n"), figures("delta"));
    assert_eq!(reason("open", "open 0 1\n"), figures("open"));
}

/// By the sheet that the deck has entered, so 21 among them.
#[test]
fn calls_are_refused_by_their_sheet() {
    let deck = assemble(&format!("{SHEET}elapsed 1 x 9\nopen")).unwrap();
    let course = course(&deck);
    assert_eq!(read(&course, b"open 21\n"), Ok(vec![Err(Refusal::Elapsed)]));
    assert_eq!(calls(&course).count(), 1);
}

#[test]
fn a_deck_line_stands_where_the_deck_stops() {
    let deck = assemble(&format!("{SHEET}bytes ff")).unwrap();
    assert!(read(&course(&deck), b"deck 18 40\n").is_ok());
    let offset = "line 1: `deck` comes with a refusal and an offset";
    assert_eq!(reason("bytes ff", "deck 18\n"), offset);
    for line in ["deck 18 41", "deck 19 40", "deck 20 40"] {
        let other = format!("line 1: `{line}`, but the deck stops by 18 at 40");
        assert_eq!(reason("bytes ff", &format!("{line}\n")), other);
    }
}

/// Every whole listing is taken; cut anywhere, none is.
#[test]
fn random_listings_are_taken_whole_alone() {
    let mut random = Random::new(0x7157_0001);
    for round in 0..3_000 {
        let deck = match round % 100 {
            0 => decks::oversized(&mut random),
            _ => decks::any(&mut random),
        };
        let course = course(&deck);
        let printed = listing(&deck);
        let answers = read(&course, &printed).unwrap();
        let lines = answers.len() + usize::from(course.stop.is_some());
        assert_eq!(printed.iter().filter(|&&byte| byte == b'\n').count(), lines);
        for less in (1..=printed.len()).take(30) {
            let cut = &printed[..printed.len() - less];
            assert!(read(&course, cut).is_err());
        }
    }
}

/// The listing that the answers were read from.
fn printed_again(course: &Course, answers: &[Answer]) -> String {
    let line = |(call, answer): (&str, &Answer)| match answer {
        Ok(figures) => {
            let figures = figures.iter().map(|figure| format!(" {figure}"));
            format!("{call} 0{}\n", figures.collect::<String>())
        }
        Err(refusal) => format!("{call} {}\n", refusal.number()),
    };
    let words = calls(course).map(|placed| placed.read.command.word);
    let lines: String = words.zip(answers).map(line).collect();
    let stop = course.stop.map(|stop| (stop.refusal.number(), stop.offset));
    let stop = stop.map(|(number, offset)| format!("deck {number} {offset}\n"));
    lines + &stop.unwrap_or_default()
}

/// What is taken is taken to the letter, so a damaged listing shows either
/// as what it says or not at all.
#[test]
fn damaged_listings_are_taken_to_the_letter_or_not_at_all() {
    let mut random = Random::new(0x7157_0002);
    let mut taken = 0;
    for _ in 0..20_000 {
        let deck = decks::any(&mut random);
        let course = course(&deck);
        let mut printed = listing(&deck);
        if printed.is_empty() {
            continue;
        }
        let place = random.below(printed.len());
        match random.below(3) {
            0 => printed[place] = b"0123456789 -\ndk\xFF"[random.below(16)],
            1 => drop(printed.remove(place)),
            _ => printed.insert(place, b"0123456789 -\ndk\xFF"[random.below(16)]),
        }
        if let Ok(answers) = read(&course, &printed) {
            taken += 1;
            assert_eq!(printed_again(&course, &answers).as_bytes(), printed);
        }
    }
    assert!(taken > 0);
}
