//! Books: the lines on the page, its limits, and the one that is worked out.

use super::worked::{figure, three_names};
use super::{blocks, cells, ensure, named, same, says, section, table, whole, Found};
use crate::arithmetic::{commas, work_out_plain};
use crate::common::plain_sheet;
use lavroudem_model::book::{book, LINE_ROOM, MAX_NOMINAL, MAX_POSITIONS, MAX_VALUE};
use lavroudem_model::refusal::Refusal;
use lavroudem_model::sheet::{MAX_ACCRUAL_SUM, MAX_COUPON, MAX_NAMES, MAX_STEPS};
use lavroudem_model::tree::premium_ceiling;
use lavroudem_model::worked;

/// The numbers of the page's table. A page with others might be right too, but
/// most changes of a refused book leave it refused.
const LENT: [(&[i64], &[i64]); 15] = [
    (&[], &[]),
    (&[0], &[7]),
    (&[1], &[1]),
    (&[-1], &[1]),
    (&[-1], &[-1]),
    (&[1, -1], &[5, 5]),
    (&[2, 4, -6, -8], &[3, 5, 7, -9]),
    (&[-8, 2, 4, -6], &[-9, 3, 5, 7]),
    (&[4, 2, -6, -8], &[3, 5, 7, -9]),
    (&[1_000_000, -1_000], &[1, 1]),
    (&[1_000_000, -1], &[1_000_000_000_000, 1]),
    (&[MAX_NOMINAL], &[MAX_VALUE]),
    (&[MAX_NOMINAL + 1], &[0]),
    (&[0], &[-MAX_VALUE - 1]),
    (&[1, 1], &[1]),
];

/// The line without its end, or the refusal.
fn answered(nominals: &[i64], values: &[i64]) -> Result<String, Refusal> {
    let mut out = [0; LINE_ROOM];
    let length = book(nominals, values, &mut out)?;
    let line = String::from_utf8(out[..length].to_vec()).unwrap();
    Ok(line.strip_suffix('\n').unwrap().to_string())
}

/// The line of a book that is taken.
fn written(nominals: &[i64], values: &[i64]) -> Result<String, String> {
    answered(nominals, values).map_err(|refusal| format!("{refusal:?}"))
}

fn list(numbers: &[i64]) -> String {
    if numbers.is_empty() {
        return "none".to_string();
    }
    let numbers: Vec<String> = numbers.iter().map(|&n| commas(n.into())).collect();
    numbers.join(", ")
}

pub fn books_are_the_models(page: &str) -> Found {
    let rows = table(page, "| Nominals | W |")?;
    same(rows.len(), LENT.len(), "books")?;
    for (row, (nominals, values)) in rows.iter().zip(LENT) {
        let [first, second, answer] = cells(row)?;
        same(first, &list(nominals), "nominals")?;
        same(second, &list(values), "values")?;
        let right = match answered(nominals, values) {
            Ok(line) => format!("`{line}`"),
            Err(refusal) => format!("`{} {}`", refusal.number(), refusal.word()),
        };
        same(answer, &right, first)?;
    }
    let full = full_line()?;
    let most = commas(MAX_POSITIONS as i128);
    says(
        page,
        &format!("{most} positions of the most print `{full}`."),
    )
}

/// The line of the most positions, each of the most.
fn full_line() -> Result<String, String> {
    let [nominals, values] = [MAX_NOMINAL, MAX_VALUE].map(|most| vec![most; MAX_POSITIONS]);
    written(&nominals, &values)
}

/// What prose says with numbers, and the three sums.
const PHRASES: &[&str] = &[
    "a gain if that is above 0, a loss if it is below.",
    "and one with 0 for either number does neither.",
    "    total = Σ positions: nominal × W\n",
    "    gains = Σ positions with nominal × W > 0: nominal × W\n",
    "    losses = Σ positions with nominal × W < 0: nominal × W\n",
    "Gains and losses add to the total, gains are at least 0 and losses at most 0.",
    "more than a number of 64 bits holds.",
    "with a line like those of a listing: `book 0`, then total, gains and losses,",
    "with a minus sign if it is negative, and the byte 0A.",
    "so that no W is further from 0 than ",
    "\n### A book: more than 64 bits hold\n",
];

pub fn books_are_described(page: &str) -> Found {
    let full = full_line()?;
    let digits = full.rsplit(' ').nth(1).unwrap().len();
    let [shortest, longest] = lengths()?;
    let of_a_refusal = Refusal::Book.number();
    let counted = [
        format!("the values W as another, and {LINE_ROOM} bytes."),
        format!("A figure may have {digits} digits,"),
        format!("stands at the start of the {LINE_ROOM} bytes,"),
        format!("Its length, {shortest} to {longest}, is answered beside"),
        format!("a line may well have {of_a_refusal} bytes."),
        format!("That {LINE_ROOM} bytes are lent is asked before all this,"),
    ];
    let counted = counted.iter().map(String::as_str);
    for phrase in PHRASES.iter().copied().chain(counted) {
        says(page, phrase)?;
    }
    let (nominals, values) = LENT[9];
    let line = written(nominals, values)?;
    same(line.len() + 1, usize::from(of_a_refusal), "bytes of a line")
}

/// Of the shortest line, and of one in which a quarter of the positions gains,
/// so that every figure has the most digits and two a sign: each with its end.
fn lengths() -> Result<[usize; 2], String> {
    let mut nominals = vec![-MAX_NOMINAL; MAX_POSITIONS];
    nominals[..MAX_POSITIONS / 4].fill(MAX_NOMINAL);
    let values = vec![MAX_VALUE; MAX_POSITIONS];
    let (shortest, longest) = (written(&[], &[])?, written(&nominals, &values)?);
    Ok([shortest.len() + 1, longest.len() + 1])
}

/// What a book is answered: 0 or the number of a refusal.
fn answer(nominals: &[i64], values: &[i64]) -> u8 {
    answered(nominals, values).map_or_else(Refusal::number, |_| 0)
}

pub fn limits_of_a_book_are_the_models(page: &str) -> Found {
    let limits: [(&str, &dyn Fn(i64) -> u8); 3] = [
        ("positions", &|count| {
            let list = vec![1; count as usize];
            answer(&list, &list)
        }),
        ("nominal", &|nominal| answer(&[1, nominal], &[1, 1])),
        ("W", &|value| answer(&[1, 1], &[1, value])),
    ];
    let rows = table(page, "| In a book | Least |")?;
    same(rows.len(), limits.len(), "limits of a book")?;
    for (row, (limit, answer)) in rows.iter().zip(limits) {
        let [name, least, most, refusal] = cells(row)?;
        same(name, limit, "a limit")?;
        let refusal = named(refusal.trim_matches('`'))?.number();
        let (least, most) = (whole(least)? as i64, whole(most)? as i64);
        // Nothing has fewer positions than none.
        ensure(limit != "positions" || least == 0, || "fewer".into())?;
        let below = if limit == "positions" {
            most + 2
        } else {
            least - 1
        };
        for (value, right) in [(below, refusal), (least, 0), (most, 0), (most + 1, refusal)] {
            same(answer(value), right, &format!("{name} {value}"))?;
        }
    }
    same(answer(&[1], &[1, 1]), Refusal::Book.number(), "lists")?;
    values_are_within(page)
}

/// The most that a premium leg may be, and what a coupon makes of it.
fn values_are_within(page: &str) -> Found {
    let mut sheet = plain_sheet(MAX_NAMES, MAX_STEPS, 1);
    sheet.accruals = vec![0; MAX_STEPS];
    sheet.accruals[MAX_STEPS - 10..].fill(MAX_ACCRUAL_SUM as u64 / 10);
    let ceiling = premium_ceiling(&sheet, 0, 0) as i128;
    let furthest = MAX_COUPON as i128 * ceiling;
    ensure(furthest <= MAX_VALUE.into(), || "a W may be outside".into())?;
    let said = format!(
        "a premium leg is at most {}, so that no W is further from 0 than {}.",
        commas(ceiling),
        commas(furthest)
    );
    says(page, &said)
}

/// Three positions with figures of the page, added up in its last part.
pub fn worked_book_is_right(page: &str) -> Found {
    let (two, three) = (worked::sheet(), three_names());
    let values = [
        figure(&two, "W", (0, 0, 0)),
        figure(&three, "W", (0, 0, 0)),
        figure(&three, "W", (0, three.index(), 0)),
    ];
    let values = values.map(|value| value.unwrap() as i64);
    let nominals = [1_000_000, -250_000, -40_000];
    let [first, second, third] = nominals.map(|nominal| commas(nominal.into()));
    let said = format!(
        "at the root and the count 0: {first} pools of tranche 0 of the worked deck, \
        {second} of tranche 0 of the three names, and {third} of their index."
    );
    says(page, &said)?;
    let part = section(page, "### A book: more than 64 bits hold")?;
    let lines = blocks(part).concat();
    same(lines.len(), nominals.len() + 2, "equations")?;
    for (line, (nominal, value)) in lines.iter().zip(nominals.iter().zip(values)) {
        let [nominal, value] = [i128::from(*nominal), value.into()].map(commas);
        ensure(
            line.starts_with(&format!("{nominal} × {value} = ")),
            || format!("another position: {line}"),
        )?;
    }
    let mut ends = Vec::new();
    for line in &lines {
        let (left, right) = line.split_once(" = ").ok_or("no equation")?;
        let [left_value, right_value] = [left, right].map(work_out_plain);
        ensure(left_value.is_some(), || format!("no arithmetic: {left}"))?;
        same(left_value, right_value, line)?;
        ends.push(right.replace(',', ""));
    }
    let line = written(&nominals, &values)?;
    let by_hand = format!("book 0 {} {} {}", ends[4], ends[3], ends[2]);
    same(&line, &by_hand, "the worked book")?;
    let bytes = line.len() + 1;
    says(
        page,
        &format!("The call writes {bytes} bytes: `{line}` and the end"),
    )
}

/// What the call answers with these faults.
pub fn refused_book(numbers: &[u8]) -> Option<u8> {
    let length = LINE_ROOM + usize::from(numbers.contains(&2));
    let beyond = i64::from(numbers.contains(&28));
    let answer = book(&[MAX_NOMINAL + beyond], &[1], &mut vec![0; length]);
    answer.err().map(Refusal::number)
}
