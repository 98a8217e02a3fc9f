//! The arithmetic that the page works through, and its deck with the listing.

use super::{blocks, ensure, entries, same, says, section, Found};
use crate::arithmetic::{commas, work_out_plain, Ratio};
use lavroudem_model::cash::{
    elapsed_payment, outstanding, pool_loss, premium_payment, recovered, tranche_loss,
    tranche_recovery,
};
use lavroudem_model::commands::COMMANDS;
use lavroudem_model::deck::listing;
use lavroudem_model::exact;
use lavroudem_model::natural::Natural;
use lavroudem_model::sheet::{Sheet, B};
use lavroudem_model::tree::{
    default_leg, distribution, hedge_ratio, jump, net_value, premium_leg, roll_back, Rows,
};
use lavroudem_model::worked;
use std::collections::BTreeSet;

/// The sheet of 'Three names'.
pub fn three_names() -> Sheet {
    Sheet {
        number: 5,
        names: 3,
        steps: 1,
        tranches: 1,
        recovery: 500_000_000,
        attachments: vec![100_000_000, 300_000_000],
        starts: vec![1],
        hazards: vec![100_000_000, 200_000_000, 400_000_000],
        discounts: vec![950_000_000],
        accruals: vec![250_000_000],
        elapsed: vec![0],
        coupons: vec![2_000_000, 500_000],
    }
}

/// The sheet of 'Three names with a fraction'.
fn three_names_earned() -> Sheet {
    Sheet {
        elapsed: vec![250_000_000],
        ..three_names()
    }
}

/// The sheet of 'Tranches of the whole pool'.
fn whole_pool() -> Sheet {
    Sheet {
        tranches: 3,
        recovery: 350_000_000,
        attachments: vec![0, 300_000_000, 900_000_000, B as u64],
        coupons: vec![0; 4],
        ..three_names()
    }
}

/// The figures that are worked out, in the page's order.
const ON_THE_WORKED_DECK: &str = "L(1); O(0) of tranche 0; O(1) of tranche 0; P(2, 0) of tranche 0; \
    P(2, 1) of tranche 0; Y; A(1, 0) of tranche 0; Y; A(1, 1) of tranche 0; Y; A(0, 0) of tranche 0; \
    W(0, 0) of tranche 0; Q(1, 0); Q(1, 1); Q(2, 0); Q(2, 1); Q(2, 2)";

const ON_THE_WHOLE_POOL: &str =
    "L(1); Z(1); T(1) of tranche 2; O(1) of tranche 2; T(1) of tranche 1; \
    O(1) of tranche 1; O(1) of tranche 0; O(1) of the index";

const ON_TWO_PERIODS: &str = "p(1, 0); p(2, 0); p(3, 0); p(2, 1); p(3, 1); L(1); \
    Y; D(2, 0) of the index; Y; D(2, 1) of the index; Y; D(1, 0) of the index; Y; D(1, 1) of the index; \
    Y; D(0, 0) of the index; Y; D(0, 1) of the index; Q(2, 0); Q(2, 1); Q(2, 2); Q(3, 0); Q(3, 1); Q(3, 2); \
    exact D(0, 0) of the index; exact A(0, 0) of the index; A(0, 0) of the index";

const ON_THE_WORKED_DECK_EARNED: &str = "E(1, 0) of tranche 0; E(2, 0) of tranche 0; \
    E(2, 1) of tranche 0; Y; A(1, 0) of tranche 0; Y; A(1, 1) of tranche 0; Y; A(0, 0) of tranche 0; \
    exact A(0, 0) of tranche 0; W(0, 0) of tranche 0";

const ON_THREE_NAMES_EARNED: &str = "P(1, 1) of tranche 0; E(1, 0) of tranche 0; \
    E(1, 1) of tranche 0; Y; A(0, 1) of tranche 0; exact A(0, 1) of tranche 0";

const ON_THREE_NAMES: &str = "L(1); L(2); M(1) of tranche 0; M(2) of tranche 0; O(1) of tranche 0; \
    Z(1); O(1) of the index; Y; D(0, 0) of the index; exact D(0, 0) of the index; P(1, 0) of tranche 0; \
    P(1, 1) of tranche 0; Y; A(0, 0) of tranche 0; exact A(0, 0) of tranche 0; Y; D(0, 0) of tranche 0; \
    W(0, 0) of tranche 0; Y; A(0, 0) of the index; Y; D(0, 1) of tranche 0; Y; A(0, 1) of tranche 0; Y; \
    D(0, 1) of the index; Y; A(0, 1) of the index; J(0, 0) of tranche 0; J(0, 0) of the index; \
    ratio(0, 0) of tranche 0";

pub fn worked_arithmetic_is_right(page: &str) -> Found {
    let parts = [
        (
            "### The worked deck: a premium leg and a chance",
            worked::sheet(),
            ON_THE_WORKED_DECK,
        ),
        (
            "### Three names: where rounding shows",
            three_names(),
            ON_THREE_NAMES,
        ),
        (
            "### Tranches of the whole pool: recoveries off the top",
            whole_pool(),
            ON_THE_WHOLE_POOL,
        ),
        (
            "### Two periods: the hazard of the step ahead",
            worked::two_periods(),
            ON_TWO_PERIODS,
        ),
        (
            "### Premium up to a default: the worked deck with fractions",
            worked::earned(),
            ON_THE_WORKED_DECK_EARNED,
        ),
        (
            "### Three names with a fraction: rounded apart",
            three_names_earned(),
            ON_THREE_NAMES_EARNED,
        ),
    ];
    for (heading, sheet, figures) in parts {
        let mut known = known_numbers(&sheet);
        let mut names = Vec::new();
        for line in blocks(section(page, heading)?).concat() {
            let name = worked_line(&sheet, line, &mut known);
            names.extend(name.map_err(|fault| format!("{line}: {fault}"))?);
        }
        same(names.join("; "), figures.to_string(), heading)?;
    }
    Ok(())
}

/// A sheet's inputs and figures. A rounding may hide a change of a number
/// within it, so that these must be the sheet's own.
fn known_numbers(sheet: &Sheet) -> BTreeSet<i128> {
    let b = B as i128;
    let mut known = BTreeSet::from([0, 1, 2, 3, b / 2 - 1, b / 2, b, 1_000_000, 10_000_000]);
    let lists = [
        &sheet.attachments,
        &sheet.hazards,
        &sheet.discounts,
        &sheet.accruals,
        &sheet.elapsed,
        &sheet.coupons,
    ];
    for &number in lists.into_iter().flatten().chain([&sheet.recovery]) {
        known.extend([i128::from(number), b - i128::from(number)]);
    }
    for name in ["L", "Z", "M", "T", "O", "P", "E", "D", "A", "W", "J", "Q"] {
        for position in 0..=sheet.steps {
            for count in 0..=sheet.names {
                let at = |tranche| figure(sheet, name, (position, tranche, count));
                known.extend((0..=sheet.index()).filter_map(at));
            }
        }
    }
    known
}

/// All sides are equal, and a side with a name, which is given back, is the
/// model's figure of that name.
fn worked_line<'a>(
    sheet: &Sheet,
    line: &'a str,
    known: &mut BTreeSet<i128>,
) -> Result<Option<&'a str>, String> {
    let sides: Vec<&str> = line.split(" = ").collect();
    ensure(sides.len() > 1, || "no equation".into())?;
    let last = value(sides[sides.len() - 1])?;
    let name = Some(sides[0]).filter(|side| value(side).is_err());
    let written = &sides[usize::from(name.is_some())..];
    for side in written {
        same(value(side)?, last, side)?;
    }
    rounds_as_said(written, known)?;
    known.extend(last.as_whole());
    match name {
        Some(name) if name != "Y" => same_figure(sheet, name, last)?,
        _ => {}
    }
    Ok(name)
}

fn value(side: &str) -> Result<Ratio, String> {
    work_out_plain(side).ok_or(format!("no arithmetic: {side}"))
}

/// What a rounding would hide: the numbers within the first side are known,
/// and two halves are equal before they are rounded.
fn rounds_as_said(written: &[&str], known: &BTreeSet<i128>) -> Found {
    if written[0].contains("half(") || written[0].contains("floor(") {
        for text in literals(written[0]) {
            let number = value(text)?.as_whole(); // decimals stand where nothing is hidden
            let own = number.is_none_or(|number| known.contains(&number));
            ensure(own, || format!("{text} is not the sheet's"))?;
        }
    }
    let within = |side: &str| Some(side.strip_prefix("half(")?.strip_suffix(')')?.to_string());
    for pair in written.windows(2) {
        if let (Some(product), Some(number)) = (within(pair[0]), within(pair[1])) {
            same(value(&product)?, value(&number)?, "before rounding")?;
        }
    }
    Ok(())
}

/// The numbers in a text.
fn literals(text: &str) -> Vec<&str> {
    let parts = text.split(|c: char| !c.is_ascii_digit() && c != ',' && c != '.');
    parts
        .map(|part| part.trim_end_matches([',', '.']))
        .filter(|part| !part.is_empty())
        .collect()
}

/// Compares a figure such as `A(1, 0) of tranche 0`, or an exact one.
fn same_figure(sheet: &Sheet, label: &str, value: Ratio) -> Found {
    let (head, subject) = label.split_once(" of ").unwrap_or((label, "tranche 0"));
    let number = subject.strip_prefix("tranche ").map(str::parse::<usize>);
    let tranche = match (subject, number) {
        ("the index", _) => sheet.index(),
        (_, Some(Ok(tranche))) if tranche < sheet.tranches => tranche,
        _ => return Err(format!("no tranche: {subject}")),
    };
    let (name, places) = head.split_once('(').ok_or(format!("no figure: {head}"))?;
    let places = places.trim_end_matches(')').split(", ").map(str::parse);
    let places: Result<Vec<usize>, _> = places.collect();
    let (position, count) = match places.as_deref() {
        Ok(&[count]) => (0, count),
        Ok(&[position, count]) => (position, count),
        _ => return Err(format!("no places: {head}")),
    };
    let on_tree = position <= sheet.steps && count <= sheet.names;
    ensure(on_tree, || format!("off the tree: {head}"))?;
    if let Some(leg) = name.strip_prefix("exact ") {
        return same_exact(sheet, leg, (position, tranche, count), value);
    }
    let right =
        figure(sheet, name, (position, tranche, count)).ok_or(format!("no figure: {name}"))?;
    same(value, Ratio::whole(right), label)
}

/// The model's figure of a name at a position, tranche and count.
pub fn figure(sheet: &Sheet, name: &str, (i, j, k): (usize, usize, usize)) -> Option<i128> {
    let rows = || rows_at(sheet, i);
    let figure = match name {
        "L" => pool_loss(sheet, k) as i128,
        "Z" => recovered(sheet, k) as i128,
        "M" => tranche_loss(sheet, j, k) as i128,
        "T" => tranche_recovery(sheet, j, k) as i128,
        "O" => outstanding(sheet, j, k) as i128,
        "P" if i > 0 => premium_payment(sheet, j, i, k) as i128,
        "E" if i > 0 && k < sheet.names => elapsed_payment(sheet, j, i, k) as i128,
        "D" => default_leg(sheet, &rows(), j, k) as i128,
        "A" => premium_leg(sheet, &rows(), j, k) as i128,
        "W" => net_value(sheet, &rows(), j, k),
        "J" if k < sheet.names => jump(sheet, &rows(), j, k),
        "ratio" if k < sheet.names => hedge_ratio(sheet, &rows(), j, k).ok()?,
        "Q" => distribution(sheet, i)[k] as i128,
        "p" if i > 0 => sheet.hazard(i, k) as i128,
        _ => return None,
    };
    Some(figure)
}

pub fn rows_at(sheet: &Sheet, position: usize) -> Rows {
    let mut rows = Rows::zero(sheet);
    roll_back(sheet, &mut rows, sheet.steps, sheet.steps - position);
    rows
}

fn same_exact(sheet: &Sheet, leg: &str, (i, j, k): (usize, usize, usize), value: Ratio) -> Found {
    let right = match leg {
        "D" => exact::default_leg(sheet, i, j, k),
        "A" => exact::premium_leg(sheet, i, j, k),
        _ => return Err(format!("no leg: {leg}")),
    };
    let found = Natural::new(value.over as u128).times(&exact::leg_denominator(sheet, i));
    let right = right.times(&Natural::new(value.under as u128));
    same(found, right, "an exact value")
}

/// Numbers with commas.
fn list(numbers: &[u64], between: &str) -> String {
    let numbers: Vec<String> = numbers.iter().map(|&n| commas(n.into())).collect();
    numbers.join(between)
}

/// What is said of the worked deck and of what it prints.
pub fn worked_deck_is_described(page: &str) -> Found {
    let sheet = worked::sheet();
    let at_root = |name| figure(&sheet, name, (0, 0, 0)).unwrap();
    let [d, a, w] = ["D", "A", "W"].map(at_root);
    let chance = distribution(&sheet, 2)[1];
    let tranche = list(&sheet.attachments, " to ");
    let recovery = commas(sheet.recovery.into());
    let said = [
        format!("two steps, one tranche of {tranche} ("),
        format!("with a recovery of {recovery}. The first default"),
        format!("the second figure of `value 0 {d} {a} {w}`."),
        format!("So `forward 2 1` prints `forward 0 {chance}`."),
    ];
    said.iter().try_for_each(|said| says(page, said))
}

/// What is said of the sheet of three names.
pub fn three_names_are_described(page: &str) -> Found {
    let sheet = three_names();
    let tranche = list(&sheet.attachments, " to ");
    let recovery = commas(sheet.recovery.into());
    let [hazards, coupons] = [&sheet.hazards, &sheet.coupons].map(|rates| list(rates, ", "));
    let [discount, accrual] = [&sheet.discounts, &sheet.accruals].map(|steps| list(steps, ""));
    let number = sheet.number;
    let said = [
        format!("one step, recovery {recovery}, one tranche of {tranche}."),
        format!("Hazards {hazards}; discount {discount}, accrual {accrual}; coupons {coupons}."),
        format!("The sheet of three names, with the number {number}."),
    ];
    said.iter().try_for_each(|said| says(page, said))
}

pub fn whole_pool_is_described(page: &str) -> Found {
    let sheet = whole_pool();
    let points = list(&sheet.attachments, " to ");
    let recovery = commas(sheet.recovery.into());
    let said = format!("Three names, recovery {recovery}, tranches of {points}: the whole pool.");
    says(page, &said)
}

pub fn two_periods_are_described(page: &str) -> Found {
    let sheet = worked::two_periods();
    let tranche = list(&sheet.attachments, " to ");
    let starts = list(&sheet.starts, ", ");
    let (first, second) = sheet.hazards.split_at(sheet.names);
    let [first, second] = [first, second].map(|period| list(period, ", "));
    let recovery = sheet.recovery;
    let date = sheet.steps;
    let said = [
        format!("Two names, three steps, recovery {recovery}, one tranche of {tranche}."),
        format!("Starts {starts}; hazards {first} in the first period and {second} in the second."),
        format!("All discounts are one, and only step {date} is a premium date, for a year."),
    ];
    said.iter().try_for_each(|said| says(page, said))
}

/// What is said of the two sheets with fractions, and of what the first prints.
pub fn fractions_are_described(page: &str) -> Found {
    let sheet = worked::earned();
    let at_root = |name| figure(&sheet, name, (0, 0, 0)).unwrap();
    let [d, a, w] = ["D", "A", "W"].map(at_root);
    let [two, one] = [&sheet, &three_names_earned()].map(|sheet| list(&sheet.elapsed, ", "));
    let said = [
        format!("The sheet of the worked deck with the elapsed fractions {two}:"),
        format!("`value 0 0` at the root prints `value 0 {d} {a} {w}`."),
        format!("The sheet of three names with the elapsed fraction {one}, the accrual"),
    ];
    said.iter().try_for_each(|said| says(page, said))
}

/// Each line of the page's deck has the offset, the bytes and the command.
pub fn deck_prints_its_listing(page: &str) -> Found {
    let found = blocks(section(page, "## A deck, byte by byte")?);
    let [lines, printed] = &found[..] else {
        return Err("a deck and its listing are not found".into());
    };
    let mut deck = Vec::new();
    for line in lines {
        let fields: Vec<&str> = line.split_whitespace().collect();
        same(fields[0], &deck.len().to_string(), line)?;
        let is_byte = |field: &&&str| field.len() == 2 && !field.contains(char::is_lowercase);
        let bytes: Vec<&str> = fields[1..].iter().take_while(is_byte).copied().collect();
        let read: Result<Vec<u8>, _> = bytes
            .iter()
            .map(|byte| u8::from_str_radix(byte, 16))
            .collect();
        let read = read.map_err(|_| line.to_string())?;
        same(read.clone(), written(&fields[1 + bytes.len()..])?, line)?;
        deck.extend(read);
    }
    let sheet = entries(&three_names());
    ensure(deck.starts_with(&sheet), || "another sheet".into())?;
    let right = String::from_utf8(listing(&deck)).unwrap();
    same(printed.join("\n") + "\n", right, "the listing")
}

/// A command in words as bytes; no words stand for the byte above the last.
fn written(words: &[&str]) -> Result<Vec<u8>, String> {
    let Some((word, operands)) = words.split_first() else {
        return Ok(vec![COMMANDS[COMMANDS.len() - 1].byte + 1]);
    };
    let command = COMMANDS.iter().find(|command| command.word == *word);
    let command = command.ok_or(format!("no command {word}"))?;
    let operands: Result<Vec<u64>, _> = operands.iter().map(|operand| operand.parse()).collect();
    let operands = operands.map_err(|_| format!("operands of {word}"))?;
    same(operands.len(), command.operands.len(), word)?;
    Ok(command.encode(&operands))
}
