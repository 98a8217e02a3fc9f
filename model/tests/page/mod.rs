//! Reading a page: its tables, blocks, code spans and sections. What is not as
//! expected is told, not panicked over, so that a changed page can be tried.

pub mod book;
pub mod formulas;
pub mod limits;
pub mod orders;
pub mod packed;
pub mod turns;
pub mod worked;

use crate::arithmetic::{decimal, Ratio};
use lavroudem_model::commands::{encode, ELAPSED, POOL};
use lavroudem_model::refusal::Refusal;
use lavroudem_model::sheet::Sheet;

pub type Found = Result<(), String>;

pub fn ensure(holds: bool, fault: impl FnOnce() -> String) -> Found {
    if holds {
        Ok(())
    } else {
        Err(fault())
    }
}

pub fn same<T: PartialEq + std::fmt::Debug>(found: T, right: T, about: &str) -> Found {
    let equal = found == right;
    ensure(equal, || format!("{about}: {found:?}, not {right:?}"))
}

/// The page has this text.
pub fn says(page: &str, text: &str) -> Found {
    ensure(page.contains(text), || format!("the page lacks: {text}"))
}

/// The rows of the table whose first line starts like this, cell by cell.
pub fn table<'a>(page: &'a str, start: &str) -> Result<Vec<Vec<&'a str>>, String> {
    let mut lines = page.lines().skip_while(|line| !line.starts_with(start));
    lines.next().ok_or(format!("no table {start}"))?;
    let rows = lines.skip(1).take_while(|line| line.starts_with('|'));
    let cells = |line: &'a str| -> Vec<&'a str> {
        let inside = line.strip_prefix('|').unwrap().trim_end();
        inside
            .trim_end_matches('|')
            .split('|')
            .map(str::trim)
            .collect()
    };
    let rows: Vec<Vec<&str>> = rows.map(cells).collect();
    ensure(!rows.is_empty(), || format!("an empty table {start}"))?;
    Ok(rows)
}

/// A row as so many cells.
pub fn cells<'a, const N: usize>(row: &[&'a str]) -> Result<[&'a str; N], String> {
    <[&str; N]>::try_from(row.to_vec()).map_err(|_| format!("other cells: {row:?}"))
}

pub fn whole(text: &str) -> Result<i128, String> {
    let number = decimal(text).and_then(Ratio::as_whole);
    number.ok_or(format!("no whole number: {text}"))
}

pub fn section<'a>(page: &'a str, heading: &str) -> Result<&'a str, String> {
    let start = format!("\n{heading}\n");
    let (_, rest) = page.split_once(&start).ok_or(format!("no {heading}"))?;
    let level = heading.split(' ').next().unwrap();
    let end = rest.find(&format!("\n{level} ")).unwrap_or(rest.len());
    let end = end.min(rest.find("\n## ").unwrap_or(rest.len()));
    Ok(&rest[..end])
}

/// The indented blocks of a text, each as its lines.
pub fn blocks(text: &str) -> Vec<Vec<&str>> {
    let mut blocks = vec![Vec::new()];
    for line in text.lines() {
        match line.strip_prefix("    ") {
            Some(line) => blocks.last_mut().unwrap().push(line),
            None if blocks.last().unwrap().is_empty() => {}
            None => blocks.push(Vec::new()),
        }
    }
    blocks.retain(|block| !block.is_empty());
    blocks
}

/// Code spans.
pub fn spans(page: &str) -> Vec<&str> {
    page.split('`').skip(1).step_by(2).collect()
}

/// The text between two others.
pub fn between<'a>(page: &'a str, start: &str, end: &str) -> Result<&'a str, String> {
    let found = page
        .split_once(start)
        .and_then(|(_, rest)| rest.split_once(end));
    Ok(found.ok_or(format!("no text between {start} and {end}"))?.0)
}

/// The refusal of a span such as `14 off tree`.
pub fn named(span: &str) -> Result<Refusal, String> {
    let right = |refusal: &Refusal| format!("{} {}", refusal.number(), refusal.word()) == span;
    let found = Refusal::ALL.into_iter().find(right);
    found.ok_or(format!("no refusal {span}"))
}

/// n, m, r and u.
pub fn size(sheet: &Sheet, name: &str) -> Option<Ratio> {
    let number = match name {
        "n" => sheet.names,
        "m" => sheet.steps,
        "r" => sheet.tranches,
        "u" => sheet.starts.len(),
        _ => return None,
    };
    Some(Ratio::whole(number as i128))
}

/// The commands that enter a sheet of one period. Fractions that are all zero
/// need none.
pub fn entries(sheet: &Sheet) -> Vec<u8> {
    let [names, steps, tranches] = [sheet.names, sheet.steps, sheet.tranches].map(|n| n as u64);
    let mut deck = encode(
        POOL,
        &[names, steps, tranches, sheet.recovery, sheet.number.into()],
    );
    for (byte, list) in [(2, &sheet.attachments), (3, &sheet.hazards)] {
        deck.extend(list.iter().flat_map(|&figure| encode(byte, &[figure])));
    }
    let steps = sheet.discounts.iter().zip(&sheet.accruals);
    deck.extend(steps.flat_map(|(&discount, &accrual)| encode(4, &[discount, accrual])));
    deck.extend(sheet.coupons.iter().flat_map(|&rate| encode(5, &[rate])));
    if sheet.elapsed.iter().any(|&fraction| fraction != 0) {
        let fractions = sheet.elapsed.iter();
        deck.extend(fractions.flat_map(|&fraction| encode(ELAPSED, &[fraction])));
    }
    deck
}
