//! The page's limits, tried on both sides.

use super::{between, cells, entries, named, same, says, size, table, whole, Found};
use crate::arithmetic::{work_out, Ratio};
use crate::common::{plain_sheet, set_starts};
use lavroudem_model::commands::{encode, COMMANDS, CUT, ELAPSED, OPEN, POOL};
use lavroudem_model::deck::{listing, MAX_DECK};
use lavroudem_model::refusal::Refusal;
use lavroudem_model::sheet::{check, Sheet, MAX_TRANCHES};

/// What a sheet is answered: 0 or the number of a refusal.
fn answer(sheet: &Sheet) -> u8 {
    check(sheet).map_or_else(Refusal::number, |()| 0)
}

/// Taken at its least and its most, refused one beyond.
fn both_sides(least: i128, most: i128, refusal: u8, change: &dyn Fn(u64) -> Sheet) -> Found {
    let expected = [
        (least - 1, refusal),
        (least, 0),
        (most, 0),
        (most + 1, refusal),
    ];
    for (value, number) in expected {
        if let Ok(value) = u64::try_from(value) {
            same(answer(&change(value)), number, &format!("at {value}"))?;
        }
    }
    Ok(())
}

/// The second step is no premium date, and the third pays for longer than the
/// first.
fn with_a_date_ahead(fraction: u64) -> Sheet {
    with(|sheet| {
        sheet.accruals = vec![1_000_000, 0, 3_000_000, 5_000_000];
        sheet.elapsed[1] = fraction;
    })
}

/// The sizes of a sheet, and for the second step of the one above: a(d).
fn limit(sheet: &Sheet, name: &str, places: &[Ratio]) -> Option<Ratio> {
    let dated = with_a_date_ahead(0);
    let number = match (name, places) {
        ("d", []) => dated.next_premium_date(2) as i128,
        ("a", [step]) => *dated.accruals.get(step.as_whole()? as usize - 1)? as i128,
        _ => return size(sheet, name),
    };
    Some(Ratio::whole(number))
}

fn with(change: impl FnOnce(&mut Sheet)) -> Sheet {
    let mut sheet = plain_sheet(3, 4, 2);
    change(&mut sheet);
    sheet
}

pub fn limits_of_a_sheet_are_the_models(page: &str) -> Found {
    let figures: [(&str, &dyn Fn(u64) -> Sheet); 5] = [
        ("names", &|value| plain_sheet(value as usize, 4, 2)),
        ("steps", &|value| plain_sheet(3, value as usize, 2)),
        ("tranches", &|value| plain_sheet(3, 4, value as usize)),
        ("periods", &by_periods),
        ("recovery", &|value| with(|sheet| sheet.recovery = value)),
    ];
    let rows = table(page, "| Figure | Sign | Least |")?;
    same(rows.len(), 6, "figures")?;
    for (row, (figure, change)) in rows.iter().zip(figures) {
        let [name, _, least, most, refusal] = cells(row)?;
        same(name, figure, "a figure")?;
        let refusal = named(refusal.trim_matches('`'))?.number();
        both_sides(whole(least)?, whole(most)?, refusal, change)?;
    }
    let bytes = [u8::MIN, u8::MAX].map(|byte| byte.to_string());
    same(
        rows[5].join("|"),
        format!("number||{}|{}|", bytes[0], bytes[1]),
        "number",
    )?;
    limits_of_lists(page)
}

/// So many periods of a step each, but for the last.
fn by_periods(periods: u64) -> Sheet {
    let mut sheet = plain_sheet(3, 17, 2);
    set_starts(&mut sheet, &Vec::from_iter(1..=periods));
    sheet
}

/// A list's name, its length in a sheet, and a sheet with this entry in it.
type List<'a> = (&'a str, fn(&Sheet) -> usize, &'a dyn Fn(u64) -> Sheet);

fn limits_of_lists(page: &str) -> Found {
    let lists: [List; 7] = [
        ("attachments", |sheet| sheet.attachments.len(), &|value| {
            with(|sheet| sheet.attachments[if value < 2 { 0 } else { 2 }] = value)
        }),
        ("starts", |sheet| sheet.starts.len(), &|value| {
            with(|sheet| match value {
                0 | 1 => sheet.starts[0] = value,
                _ => set_starts(sheet, &[1, value]),
            })
        }),
        ("hazards", |sheet| sheet.hazards.len(), &|value| {
            with(|sheet| sheet.hazards[1] = value)
        }),
        ("discounts", |sheet| sheet.discounts.len(), &|value| {
            with(|sheet| sheet.discounts[1] = value)
        }),
        ("accruals", |sheet| sheet.accruals.len(), &|value| {
            with(|sheet| sheet.accruals[1] = value)
        }),
        ("elapsed", |sheet| sheet.elapsed.len(), &with_a_date_ahead),
        ("coupons", |sheet| sheet.coupons.len(), &|value| {
            with(|sheet| sheet.coupons[1] = value)
        }),
    ];
    let rows = table(page, "| List | Sign | Entries |")?;
    same(rows.len(), lists.len(), "lists")?;
    for (row, (list, length, change)) in rows.iter().zip(lists) {
        let [name, _, entries, least, most, refusal] = cells(row)?;
        same(name, list, "a list")?;
        let refusal = named(refusal.trim_matches('`'))?.number();
        let mut sheet = plain_sheet(3, 4, 2);
        let most = work_out(most, &|name, places| limit(&sheet, name, places));
        let most = most.and_then(Ratio::as_whole);
        let most = most.ok_or(format!("no limit of {list}"))?;
        both_sides(whole(least)?, most, refusal, change)?;
        set_starts(&mut sheet, &[1, 4]);
        let found = work_out(entries, &|name, _| size(&sheet, name));
        same(found, Some(Ratio::whole(length(&sheet) as i128)), list)?;
    }
    Ok(())
}

pub fn limits_of_a_deck_are_the_models(page: &str) -> Found {
    let rows = table(page, "| In a deck | Most | One more |")?;
    same(rows.len(), 7, "limits of a deck")?;
    let entries = COMMANDS.iter().filter(|command| command.is_entry());
    for (row, command) in rows.iter().zip(entries) {
        let [word, most, refusal] = cells(row)?;
        same(word, command.word, "an entry")?;
        same(named(refusal.trim_matches('`'))?, Refusal::TooMany, word)?;
        let entry = command.encode(&vec![1; command.operands.len()]);
        let full = entry.repeat(whole(most)? as usize);
        same(listing(&full), vec![], word)?;
        let line = format!("deck {} {}\n", Refusal::TooMany.number(), full.len());
        same(listing(&[full, entry].concat()), line.into_bytes(), word)?;
    }
    let [bytes, most, refusal] = cells(&rows[6])?;
    same((bytes, refusal), ("bytes", "`20 too many`"), "bytes")?;
    same(whole(most)?, MAX_DECK as i128, bytes)?;
    let line = String::from_utf8(listing(&[OPEN].repeat(MAX_DECK + 1))).unwrap();
    let said = format!("prints `{}` and nothing else", line.trim_end());
    says(page, &said)?;
    short_decks_are_the_models(page)
}

/// No pool, more cuts than its tranches have points, and fewer fractions than
/// steps.
fn short_decks_are_the_models(page: &str) -> Found {
    let cuts = MAX_TRANCHES + 1;
    let pool = encode(POOL, &[3, 1, 2, 0, 0]);
    let one_of_four = [entries(&plain_sheet(3, 4, 2)), encode(ELAPSED, &[0])];
    let decks = [
        (vec![], "a call that brings the sheet gets".into()),
        (
            [pool, encode(CUT, &[1]).repeat(cuts)].concat(),
            format!("a deck with {cuts} cuts for 2 tranches is read on, and its calls get"),
        ),
        (
            one_of_four.concat(),
            "one that enters some needs m in all: with fewer or more its calls get".into(),
        ),
    ];
    for (deck, said) in decks {
        let refusal = named(between(page, &format!("{said} `"), "`.")?)?;
        let printed = listing(&[deck, vec![OPEN]].concat());
        let right = format!("open {}\n", refusal.number());
        same(printed, right.into_bytes(), &said)?;
    }
    Ok(())
}
