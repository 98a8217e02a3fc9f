//! The examples: each text gives its stored listing, by the model and by the
//! engine, and its stored table; the five-year sheet is that of its formula.
//! The book's listing is added here once more.

use lavroudem_model::deck::listing;
use lavroudem_tool::book;
use lavroudem_tool::table::table;
use lavroudem_tool::text::{assemble, disassemble};
use std::fmt::Write;
use std::fs;
use std::path::{Path, PathBuf};

const NAMES: [&str; 5] = ["worked", "five-year", "elapsed", "ledger", "refusals"];

/// The text that is no deck.
const BOOK: &str = "book";

fn root() -> PathBuf {
    Path::new(env!("CARGO_MANIFEST_DIR")).join("..")
}

fn stored(name: &str, ending: &str) -> String {
    let file = root().join(format!("examples/{name}.{ending}"));
    fs::read_to_string(&file).unwrap_or_else(|fault| panic!("{}: {fault}", file.display()))
}

fn deck(name: &str) -> Vec<u8> {
    assemble(&stored(name, "txt")).unwrap_or_else(|mistake| panic!("{name}: {mistake}"))
}

/// A text without a listing would be an example that nothing checks.
#[test]
fn all_examples_are_tried() {
    let folder = fs::read_dir(root().join("examples")).unwrap();
    let files = folder.map(|entry| entry.unwrap().file_name().into_string().unwrap());
    let texts = files.filter(|file| file.ends_with(".txt"));
    assert_eq!(texts.count(), NAMES.len() + [BOOK].len());
}

#[test]
fn listings_are_the_models() {
    for name in NAMES {
        let printed = String::from_utf8(listing(&deck(name))).unwrap();
        assert_eq!(printed, stored(name, "listing"), "{name}");
    }
}

#[cfg(feature = "engine")]
#[test]
fn listings_are_the_engines() {
    use lavroudem_model::{deck::MAX_DECK, engine};
    let mut out = vec![0; engine::deck_room(MAX_DECK)];
    for name in NAMES {
        let printed = engine::run_deck(&deck(name), &mut out).expect("no room");
        let printed = String::from_utf8(printed.to_vec()).unwrap();
        assert_eq!(printed, stored(name, "listing"), "{name}");
    }
}

#[test]
fn tables_are_the_stored_ones() {
    for name in NAMES {
        let table = table(&deck(name), &stored(name, "listing")).unwrap();
        assert_eq!(table, stored(name, "table"), "{name}");
    }
}

/// The worked text is the deck that the engine's own program is tried with.
#[test]
fn worked_deck_is_the_stored_one() {
    let stdin = fs::read(root().join("crates/listing/stdin")).unwrap();
    assert_eq!(deck("worked"), stdin);
}

/// The comments tell each refusal that the deck meets, and no other.
#[test]
fn refusals_are_those_of_the_comments() {
    let text = stored("refusals", "txt");
    let told = text
        .lines()
        .filter_map(|line| line.split("# refused ").nth(1));
    let told: Vec<&str> = told.map(|words| words.split(':').next().unwrap()).collect();
    let listing = stored("refusals", "listing");
    let numbers = listing.lines().map(|line| line.split(' ').nth(1).unwrap());
    let met: Vec<&str> = numbers.filter(|&number| number != "0").collect();
    assert_eq!(met, told);
}

/// The comments tell what each figure would be without the elapsed lines, and
/// which ones stay.
#[test]
fn without_elapsed_fractions_it_is_as_the_comments_tell() {
    let text = stored("elapsed", "txt");
    let told = text
        .lines()
        .filter_map(|line| line.split("# without them: ").nth(1));
    let told: Vec<&str> = told.collect();
    let others = text.lines().filter(|line| !line.starts_with("elapsed "));
    let others: Vec<&str> = others.collect();
    let without = listing(&assemble(&others.join("\n")).unwrap());
    let without = String::from_utf8(without).unwrap();
    let figures = |listing: &str| listing.lines().skip(3).map(str::to_string).collect();
    let without: Vec<String> = figures(&without);
    assert_eq!(without, told);
    let with: Vec<String> = figures(&stored("elapsed", "listing"));
    let moved: Vec<bool> = with.iter().zip(&without).map(|(a, b)| a != b).collect();
    assert_eq!(moved, [true, true, true, false]);
}

/// The comments tell each packed coupon as a plain line.
#[test]
fn packed_coupons_are_those_of_the_comments() {
    let text = stored("ledger", "txt");
    let plain = |line| match str::split_once(line, "# as ") {
        Some((_, words)) => words.split(':').next().unwrap(),
        None => line,
    };
    let told: Vec<&str> = text.lines().map(plain).collect();
    let told = told.join("\n");
    assert_eq!(text.matches("\ncoupon packed ").count(), 3);
    assert!(!told.contains("\ncoupon packed "), "{told}");
    assert_eq!(assemble(&told), Ok(deck("ledger")));
}

// ---- the book

/// Its positions, by a reader of their own.
fn positions() -> Vec<(i128, i128)> {
    let text = stored(BOOK, "txt");
    let codes = text.lines().map(|line| line.split('#').next().unwrap());
    let position = |code: &str| match code.split_whitespace().collect::<Vec<_>>()[..] {
        [nominal, value] => Some((nominal.parse().unwrap(), value.parse().unwrap())),
        _ => None,
    };
    codes.filter_map(position).collect()
}

/// All three figures are beyond 64 bits.
#[test]
fn the_books_listing_is_the_sum() {
    let products = positions()
        .into_iter()
        .map(|(nominal, value)| nominal * value);
    let (gains, losses): (Vec<i128>, Vec<i128>) = products.partition(|&product| product > 0);
    let (gains, losses) = (gains.iter().sum::<i128>(), losses.iter().sum::<i128>());
    let total = gains + losses;
    assert_eq!(
        stored(BOOK, "listing"),
        format!("book 0 {total} {gains} {losses}\n")
    );
    let beyond = |figure: i128| figure.unsigned_abs() > u128::from(u64::MAX);
    assert!(beyond(total) && beyond(gains) && beyond(losses));
}

#[cfg(feature = "engine")]
#[test]
fn the_books_listing_is_the_engines() {
    let read = book::read(stored(BOOK, "txt").as_bytes()).unwrap();
    let line = book::line_by(|room| {
        let added = lavroudem::book(&read.nominals, &read.values, room);
        added.map_err(|refusal| refusal.to_string())
    });
    assert_eq!(line, Ok(stored(BOOK, "listing").into_bytes()));
}

#[test]
fn the_books_table_is_the_stored_one() {
    let positions = positions().len();
    let read = book::read(stored(BOOK, "txt").as_bytes()).unwrap();
    assert_eq!(read.nominals.len(), positions);
    let totals = book::totals(stored(BOOK, "listing").as_bytes(), positions).unwrap();
    assert_eq!(totals.table(positions), stored(BOOK, "table"));
}

/// Each value is one that the deck named above it answers.
#[test]
fn the_books_values_are_those_of_decks() {
    let text = stored(BOOK, "txt");
    let mut listing = String::new();
    let mut held = 0;
    for line in text.lines() {
        if let Some((before, _)) = line.split_once(".txt)") {
            listing = stored(before.rsplit('(').next().unwrap(), "listing");
        }
        let code = line.split('#').next().unwrap();
        let Some(value) = code.split_whitespace().nth(1) else {
            continue;
        };
        let mut answers = listing.lines().filter(|line| line.starts_with("value 0 "));
        let end = format!(" {value}");
        assert!(answers.any(|answer| answer.ends_with(&end)), "{line}");
        held += 1;
    }
    assert_eq!(held, positions().len());
}

// ---- the five-year sheet

/// The sheet of `five-year` by the formulas of `examples/README.md`.
fn five_year_sheet() -> String {
    const B: u64 = 1_000_000_000;
    let mut text = "pool 125 1825 6 400000000 5\n".to_string();
    for point in [0, 3, 6, 9, 12, 22, 100] {
        writeln!(text, "cut {}", point * B / 100).unwrap();
    }
    for k in 0..125 {
        writeln!(text, "hazard {}", 1_000_000 * (k + 1)).unwrap();
    }
    let discount = (2 * B * 36_500 + 36_503) / (2 * 36_503);
    let dates: Vec<u64> = (1..=20).map(|quarter| 1_825 * quarter / 20).collect();
    for day in 1..=1_825 {
        let accrual = if dates.contains(&day) { B / 4 } else { 0 };
        writeln!(text, "step {discount} {accrual}").unwrap();
    }
    for basis_points in [500, 500, 300, 100, 100, 25, 100] {
        writeln!(text, "coupon {}", basis_points * 1_000).unwrap();
    }
    text
}

#[test]
fn five_year_sheet_is_that_of_its_formula() {
    let expected = assemble(&five_year_sheet()).unwrap();
    let (sheet, calls) = {
        let deck = deck("five-year");
        (
            deck[..expected.len()].to_vec(),
            disassemble(&deck[expected.len()..]),
        )
    };
    assert_eq!(disassemble(&sheet), disassemble(&expected));
    assert!(calls.starts_with("issue 5\nopen\n"));
}

/// Five years of premium in all, and chances that grow with the count.
#[test]
fn five_year_sheet_is_plausible() {
    let text = five_year_sheet();
    let operands = |word: &str, place: usize| -> Vec<u64> {
        let lines = text.lines().filter(|line| line.starts_with(word));
        let operand = |line: &str| line.split(' ').nth(place).unwrap().parse().unwrap();
        lines.map(operand).collect()
    };
    let accruals = operands("step", 2);
    assert_eq!(accruals.iter().sum::<u64>(), 5_000_000_000);
    assert_eq!(accruals.iter().filter(|&&accrual| accrual > 0).count(), 20);
    assert_ne!(accruals[1_824], 0);
    let hazards = operands("hazard", 1);
    assert!(hazards.is_sorted_by(|p, q| p < q));
}
