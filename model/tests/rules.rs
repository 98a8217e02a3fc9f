//! Holds `docs/RULES.md` to the model: its tables, limits, formulas, orders of
//! refusals, worked arithmetic, and its deck with the listing. At the end every
//! number of the page is changed in turn, and some check must notice.

mod arithmetic;
mod common;
mod page;

use arithmetic::{commas, work_out, Ratio};
use common::edges::walked;
use common::plain_sheet;
use lavroudem_model::book::LINE_ROOM;
use lavroudem_model::cash::{outstanding, pool_loss};
use lavroudem_model::commands::COMMANDS;
use lavroudem_model::packed::IMAGE_LENGTH;
use lavroudem_model::refusal::Refusal;
use lavroudem_model::register::{self, cut_issue, cut_withdrawal, status, Status};
use lavroudem_model::sheet::{B, MAX_ACCRUAL_SUM, MAX_NAMES, MAX_STEPS, MAX_TRANCHES};
use page::book::*;
use page::formulas::*;
use page::limits::*;
use page::orders::*;
use page::packed::*;
use page::turns::*;
use page::worked::*;
use page::{cells, ensure, named, same, says, size, spans, table, whole, Found};
use std::fs;
use std::path::{Path, PathBuf};

type Check = fn(&str) -> Found;

/// Each check is a test of the page, and one of those that a changed number
/// must fail.
macro_rules! checks {
    ($($name:ident;)*) => {
        const CHECKS: &[Check] = &[$($name),*];

        mod holds {
            $(#[test]
            fn $name() {
                super::$name(&super::read()).unwrap();
            })*
        }
    };
}

checks! {
    phrases_stand_on_it;
    worked_deck_is_described;
    three_names_are_described;
    whole_pool_is_described;
    two_periods_are_described;
    fractions_are_described;
    refusals_are_the_models;
    named_refusals_are_the_models;
    commands_are_the_models;
    decisions_are_there;
    links_lead_somewhere;
    lengths_are_the_models;
    register_is_the_models;
    packed_coupons_are_the_models;
    amortisation_is_the_models;
    rooms_are_the_engines;
    worked_arithmetic_is_right;
    deck_prints_its_listing;
    orders_are_the_models;
    limits_of_a_sheet_are_the_models;
    limits_of_a_deck_are_the_models;
    half_is_the_models;
    forward_formula_is_the_models;
    leg_formulas_are_the_models;
    hazard_formula_is_the_models;
    figure_formulas_are_the_models;
    entry_formulas_are_the_models;
    loss_formulas_are_the_models;
    books_are_the_models;
    books_are_described;
    limits_of_a_book_are_the_models;
    worked_book_is_right;
    turns_are_the_models;
    turns_are_described;
    limits_of_turns_are_the_models;
    worked_turns_are_right;
}

fn root() -> PathBuf {
    Path::new(env!("CARGO_MANIFEST_DIR")).join("..")
}

fn read() -> String {
    fs::read_to_string(root().join("docs/RULES.md")).unwrap()
}

// ---- words and numbers

fn refusals_are_the_models(page: &str) -> Found {
    let rows = table(page, "| No. | Word |")?;
    same(rows.len(), Refusal::ALL.len(), "refusals")?;
    for (row, refusal) in rows.iter().zip(Refusal::ALL) {
        let [number, word, _] = cells(row)?;
        same(number, &refusal.number().to_string(), word)?;
        same(word, refusal.word(), number)?;
    }
    numbers_in_between_are_free(page)
}

/// The numbers that no refusal has, and those that are out of turn.
fn numbers_in_between_are_free(page: &str) -> Found {
    let numbers = Refusal::ALL.map(Refusal::number);
    let gaps = numbers.windows(2).map(|pair| pair[0] + 1..pair[1]);
    let mut gaps: Vec<String> = gaps
        .flat_map(|gap| match gap.len() {
            0..=2 => gap.map(|number| number.to_string()).collect(),
            _ => vec![format!("{} to {}", gap.start, gap.end - 1)],
        })
        .collect();
    let last = gaps.pop().ok_or("no number is free")?;
    let free = format!(
        "The numbers {} and {last} stand for nothing;",
        gaps.join(", ")
    );
    let [periods, elapsed, digit] =
        [Refusal::Periods, Refusal::Elapsed, Refusal::Digit].map(Refusal::number);
    let [hazard, accrual, coupon] =
        [Refusal::Hazard, Refusal::Accrual, Refusal::Coupon].map(Refusal::number);
    let places = format!(
        "{periods} comes before {hazard}, {elapsed} after {accrual}, and {digit} before {coupon}:"
    );
    says(page, &format!("{free} {places}"))
}

fn named_refusals_are_the_models(page: &str) -> Found {
    let by_number = |span: &&str| span.starts_with(|c: char| c.is_ascii_digit());
    let found: Vec<&str> = spans(page).into_iter().filter(by_number).collect();
    ensure(found.len() > 20, || "no refusals are named".into())?;
    found.into_iter().try_for_each(|span| named(span).map(drop))
}

fn commands_are_the_models(page: &str) -> Found {
    let rows = table(page, "| Byte | Word | Operands |")?;
    same(rows.len(), COMMANDS.len(), "commands")?;
    for (row, command) in rows.iter().zip(&COMMANDS) {
        let [byte, word, operands, size, line] = cells(row)?;
        let each = command.operands.iter();
        let each: Vec<String> = each
            .map(|(name, width)| format!("{name} {width}"))
            .collect();
        same(byte, &format!("{:02X}", command.byte), "byte")?;
        same(word, command.word, byte)?;
        same(operands, &each.join(", "), word)?;
        same(size, &(1 + command.width()).to_string(), word)?;
        let start = format!("`{word} 0`");
        let right = if command.is_entry() {
            line == "none"
        } else {
            line.starts_with(&start)
        };
        ensure(right, || format!("{word}: {line}"))?;
    }
    Ok(())
}

/// `decision 3, "Title"` is that point of the page of decisions.
fn decisions_are_there(page: &str) -> Found {
    let decisions = fs::read_to_string(root().join("docs/DECISIONS.md")).unwrap();
    let parts: Vec<&str> = page.split("(decision ").skip(1).collect();
    same(parts.len(), 9, "decisions")?;
    for section in [
        "Open points",
        "State: by value or lent",
        "Deck and programs",
    ] {
        says(page, &format!("'{section}'"))?;
        says(&decisions, &format!("\n## {section}\n"))?;
    }
    for part in parts {
        let cited = part.split_once(", \"").zip(part.split_once("\")"));
        let ((number, _), (whole, _)) = cited.ok_or(format!("no title: {part}"))?;
        let title = &whole[number.len() + 3..];
        let start = format!("\n{number}. **{title}");
        let found = decisions.split_once(&start).map(|(_, rest)| rest);
        let ends = found.is_some_and(|rest| rest.starts_with("**") || rest.starts_with(".**"));
        ensure(ends, || format!("no decision {number}, {title}"))?;
    }
    Ok(())
}

fn links_lead_somewhere(page: &str) -> Found {
    for part in page.split("](").skip(1) {
        let target = part.split(')').next().unwrap();
        let there = root().join("docs").join(target).exists();
        ensure(there, || format!("a link to {target}"))?;
    }
    Ok(())
}

/// What prose says with numbers, and formulas that are not worked out here.
const PHRASES: &[&str] = &[
    "m at the end, 0 at the root.",
    "may be any number of 64 bits",
    "| p(s, 0) to p(s, n - 1), for each period |",
    "The first start is 1 and the others rise strictly, none above m.",
    "| v(1) to v(m) |",
    "| a(1) to a(m) |",
    "| e(1) to e(m) |",
    "on the same nominal. With 0 it brings nothing.",
    "Tranche j, counted from 0, lies between point j and point j + 1. The first point may be above 0",
    "takes the count from k to k + 1. Its period is that of step s,",
    "At the count n nobody is left, so p(s, n) = 0.",
    "A unit at step i is worth v(i) / B units at step i - 1.",
    "just when its accrual is not 0. The last accrual is at least 1,",
    "pays M(k + 1) - M(k) at step i, where k is the count before it.",
    "at step i and beside P(i, k + 1), which is paid on what is left.",
    "prints 12 defaults on two lines, of which the second is for 13.",
    "one for each step s from i + 1 to m,",
    "has the chance p(s, k(s - 1)), a stay the chance B - p(s, k(s - 1)).",
    "is multiplied by v(i + 1) × ... × v(s).",
    "counts the payments M(k(s)) - M(k(s - 1)), which are 0 for a stay.",
    "counts P(s, k(s)), and for a default E(s, k(s - 1)) too, neither rounded.",
    "one whole number over B^(2h + 1): B^h for the chances, B^h for the discounts, one B for the cash:",
    "weight × Σ s: v(i + 1) × ... × v(s) × B^(m - s) × B × (M(k(s)) - M(k(s - 1)))\n",
    "weight × Σ s: v(i + 1) × ... × v(s) × B^(m - s) × (a(s) × O(k(s)) + e(s) × (O(k(s - 1)) - O(k(s))))\n",
    "For a stay the last difference is 0.",
    "A fresh walk is closed, with 0 in both others.",
    "at position m. Every entry of both rows is 0,",
    "Back by 0 is accepted and changes nothing.",
    "those of position i + 1.",
    "how many premium dates are among these steps, m - h + 1 to m, and f how many of the same steps have an elapsed fraction other than 0,",
    "The walk then stands at m - h.",
    "| D in the rows | its exact value | h |\n| A in the rows | its exact value | h + (q + f)/2 |\n",
    "| the sum of D over tranches 0 to r - 1, at each count | D of the tranche that spans them | (r + 1) × h |",
    "| the sum of A over tranches 0 to r - 1, at each count | A of the tranche that spans them | (r + 1) × (h + (q + f)/2) |",
    "| the same sum, if the tranches are the whole pool | A of the index in the same rows | (r + 1) × (h + (q + f)/2) |",
    "The tranches are the whole pool if their attachment points run from 0 to B. Then their O(k) add to that of the index,",
    "Where the tranches are the whole pool, their exact A add to that of the index, without a distance.",
    "which leaves it less than two units too high",
    "refused where x is 0 (`15 flat hedge`), and where t is at least 1,000,000 × x (`16 off scale`)",
    "the chances of 0 to n defaults,",
    "fills it for step i, 0 to m:",
    "from the count 0 that end at k. The distances of Q(0) to Q(n) from theirs, all added up, are at most n × i units.",
    "A call that meets none is accepted, answers 0 and",
    "| one is above B, or is 0 |",
    "| one is above B, all together are above their limit, or the last is 0 |",
    "| the number's byte is neither FF nor A5 |",
    "| a back would go below position 0, or a forward above m |",
    "| J of the index is 0 |",
    "| the first start is not 1, starts do not rise strictly, or one is above m |\n",
    "| a half byte of a packed coupon is above 9 |",
    "| by size J of the tranche is 1,000,000 times J of the index, or more |",
    "**Sheet commands**, 01 to 05 and 0D, enter",
    "A deck that enters no elapsed fraction has m of them, all 0;",
    "the sheet of a deck has one period, from step 1 on.",
    "names, steps, tranches, recovery and number are all 0,",
    "**Calls**, 06 to 0C, print one line each: the word, then the refusal's number alone, or 0 and the answer.",
    "The byte 0A ends the line.",
    "checked for 18, 19 and 20, in this order,",
    "the offset of the command's byte, counted from 0,",
    "so 18 and 19 are never met together (",
    "The first default leaves O(1) and takes the rest away.",
    "One step, one premium date and one fraction allow 2.",
    "taken on O(k), or on O(k + 1) | names that stay are paid for twice |",
    "Only step 2 is a premium date, for a year. At position 2 the rows are 0.",
    "M(2) stops at the width, since L(2) is above the upper attachment point.",
    "so the distance may be 1.",
    "One step and one premium date allow 1.5.",
    "for the count 1 gives",
    "The first period has the steps 1 and 2, the second step 3 alone:",
    "The step from position 2 leads into step 3, so it has the hazards of the second period:",
    "a product that needs more than 64 bits",
];

fn phrases_stand_on_it(page: &str) -> Found {
    let b = commas(B as i128);
    let ten_years = commas(MAX_ACCRUAL_SUM as i128);
    let coupon = commas(10_000 * 1_000); // basis points of one, in thousandths
    let bytes = register::REGISTER_LENGTH;
    let counted = [
        format!("B is {b}."),
        format!("{coupon} is the whole nominal a year"),
        format!("are at most {ten_years}, ten years."),
        format!("\n{bytes} bytes, one for each sheet number,"),
    ];
    let phrases = PHRASES
        .iter()
        .copied()
        .chain(counted.iter().map(String::as_str));
    for phrase in phrases {
        says(page, phrase)?;
    }
    Ok(())
}

fn lengths_are_the_models(page: &str) -> Found {
    // Another shape than the base desk's, of which n is r + 1.
    let desk = walked(plain_sheet(5, 3, 2));
    let sheet = &desk.sheet;
    let rows = table(page, "| Lent | Entries |")?;
    let lengths = [
        0,
        desk.register.len(),
        desk.default_row.len(),
        desk.forward_row.len(),
        IMAGE_LENGTH,
        LINE_ROOM,
    ];
    same(rows.len(), lengths.len(), "lengths")?;
    for (row, length) in rows.iter().zip(lengths).skip(1) {
        let [lent, entries, _] = cells(row)?;
        let entries = entries.trim_end_matches(" each");
        let found = work_out(entries, &|name, _| size(sheet, name));
        same(found, Some(Ratio::whole(length as i128)), lent)?;
    }
    Ok(())
}

fn register_is_the_models(page: &str) -> Found {
    let bytes = [register::UNISSUED, register::LIVE, register::WITHDRAWN];
    let [unissued, live, gone] = bytes.map(|byte| format!("{byte:02X}"));
    let rows = table(page, "| Byte | The number is |")?.concat().join(" ");
    let right = format!("{unissued} unissued {live} live any other withdrawn");
    same(rows, right, "bytes of the register")?;
    let writes =
        format!("Issue turns {unissued} into {live}, and withdraw turns {live} into {gone};");
    says(page, &writes)?;
    let rows = table(page, "| Cut in | Bits to clear |")?;
    same(rows.len(), 2, "cuts")?;
    let cuts = [("issue", cut_issue()), ("withdraw", cut_withdrawal())];
    for (row, (word, found)) in rows.iter().zip(cuts) {
        let bits = found.iter().fold(0, |bits, byte| bits | (byte ^ found[0]));
        let with = |wanted| found.iter().filter(|&&byte| status(byte) == wanted).count();
        let [unissued, live, gone] = [Status::Unissued, Status::Live, Status::Withdrawn].map(with);
        let right = format!("{word} {bits:02X} {} {unissued} {live} {gone}", found.len());
        same(row.join(" "), right, word)?;
    }
    Ok(())
}

fn amortisation_is_the_models(page: &str) -> Found {
    let mut sheet = plain_sheet(MAX_NAMES, 1, 2);
    sheet.recovery = 400_000_000;
    let points = [0, 1, 2].map(|point| commas(30_000_000 * point));
    sheet.attachments = vec![0, 30_000_000, 60_000_000];
    let said =
        format!("A pool of {MAX_NAMES} names with a recovery of 400,000,000, and two tranches");
    says(page, &said)?;
    let [low, middle, high] = &points;
    let start = format!("| Defaults | L | O of {low} to {middle} | O of {middle} to {high} |");
    let rows = table(page, &start)?;
    same(rows.len(), 4, "rows of the amortisation")?;
    for (row, count) in rows.iter().zip([6, 7, 12, 13]) {
        let loss = pool_loss(&sheet, count);
        let left = [0, 1].map(|tranche| outstanding(&sheet, tranche, count));
        let numbers = [loss, left[0], left[1]].map(|number| commas(number as i128));
        let right = [vec![count.to_string()], numbers.to_vec()].concat();
        same(row.join(" "), right.join(" "), "amortisation")?;
    }
    Ok(())
}

/// Rooms for the largest sheet of a deck, with its one start; those of the
/// listing stand in the engine.
fn rooms_are_the_engines(page: &str) -> Found {
    let rows = table(page, "| Room | Size |")?;
    let sizes: Result<Vec<i128>, String> = rows.iter().map(|row| whole(row[1])).collect();
    let sizes = sizes?;
    same(sizes.len(), 4, "rooms")?;
    let numbers = 2 * (MAX_TRANCHES + 1) + 1 + MAX_NAMES + 3 * MAX_STEPS;
    let entries = (MAX_TRANCHES + 1) * (MAX_NAMES + 1);
    same(&sizes[..2], &[numbers as i128, entries as i128], "rooms")?;
    let source = fs::read_to_string(root().join("crates/deck/src/lib.rt")).unwrap();
    let room = format!("{} * bytes.min(MOST) + {}", sizes[2], sizes[3]);
    ensure(source.contains(&room), || {
        format!("the engine has no {room}")
    })
}

// ---- the page cannot be changed unseen

/// Every number of the page, as its last digit's place.
fn numbers(page: &str) -> Vec<usize> {
    let bytes = page.as_bytes();
    let digit = |place: usize| bytes.get(place).is_some_and(u8::is_ascii_digit);
    let goes_on = |place: usize| {
        let mark = bytes.get(place).is_some_and(|byte| b",.".contains(byte));
        digit(place) || mark && digit(place + 1)
    };
    (0..bytes.len())
        .filter(|&place| digit(place) && !goes_on(place + 1))
        .collect()
}

/// The page with the digit at a place one up, 9 one down.
fn changed(page: &str, place: usize) -> String {
    let digit = page.as_bytes()[place];
    let other = if digit == b'9' { b'8' } else { digit + 1 };
    let mut bytes = page.as_bytes().to_vec();
    bytes[place] = other;
    String::from_utf8(bytes).unwrap()
}

#[test]
fn no_number_can_be_changed_unseen() {
    let page = read();
    assert!(
        CHECKS.iter().all(|check| check(&page).is_ok()),
        "the page has a fault"
    );
    let unseen: Vec<&str> = numbers(&page)
        .into_iter()
        .filter(|&place| !page[..place].ends_with("ocument 0"))
        .filter(|&place| {
            let other = changed(&page, place);
            CHECKS.iter().all(|check| check(&other).is_ok())
        })
        .map(|place| {
            let start = page[..place].rfind('\n').map_or(0, |end| end + 1);
            &page[start..=place]
        })
        .collect();
    assert!(unseen.is_empty(), "changed unseen: {unseen:#?}");
}
