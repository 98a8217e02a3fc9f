//! What `callers/c/unequal.c`, `callers/c/periods.c` and
//! `callers/c/elapsed.c` print is what the model says of their sheets, and
//! what `callers/c/packed.c`, `callers/c/book.c` and `callers/c/turns.c` print
//! is what it says of those coupons, positions and walks.

use lavroudem_model::book::{book, LINE_ROOM};
use lavroudem_model::packed;
use lavroudem_model::refusal::Refusal;
use lavroudem_model::sheet::{check, Sheet};
use lavroudem_model::tree::{
    default_leg, distribution, hedge_ratio, net_value, premium_leg, roll_back, Rows,
};
use lavroudem_model::turns::{turns, Turn};
use lavroudem_model::walk::Walk;
use lavroudem_model::worked::two_periods;
use std::fmt::Write;

const UNEQUAL: &str = include_str!("../../callers/unequal.stdout");
const PERIODS: &str = include_str!("../../callers/periods.stdout");
const ELAPSED: &str = include_str!("../../callers/elapsed.stdout");
const PACKED: &str = include_str!("../../callers/packed.stdout");
const BOOK: &str = include_str!("../../callers/book.stdout");
const TURNS: &str = include_str!("../../callers/turns.stdout");

/// No two of names, steps and tranches + 1 are the same.
fn unequal_sheet() -> Sheet {
    Sheet {
        number: 7,
        names: 4,
        steps: 3,
        tranches: 1,
        recovery: 400_000_000,
        attachments: vec![30_000_000, 400_000_000],
        starts: vec![1],
        hazards: vec![100_000_000, 200_000_000, 300_000_000, 400_000_000],
        discounts: vec![980_000_000, 970_000_000, 960_000_000],
        accruals: vec![250_000_000, 0, 500_000_000],
        elapsed: vec![0; 3],
        coupons: vec![1_000_000, 500_000],
    }
}

/// In the order of the spans.
fn lengths(sheet: &Sheet) -> [usize; 7] {
    [
        sheet.attachments.len(),
        sheet.starts.len(),
        sheet.hazards.len(),
        sheet.discounts.len(),
        sheet.accruals.len(),
        sheet.elapsed.len(),
        sheet.coupons.len(),
    ]
}

/// Length and place of lists that stand one after the other.
fn spans(lengths: [usize; 7]) -> String {
    let mut at = 0;
    let mut line = String::new();
    for length in lengths {
        write!(line, "{length} at {at}, ").unwrap();
        at += length;
    }
    format!("{line}{at} in all\n")
}

/// Every node of a position: its figures, and a hedge ratio where there is a
/// next default.
fn nodes(sheet: &Sheet, rows: &Rows, position: usize) -> String {
    let mut lines = String::new();
    for tranche in 0..=sheet.tranches {
        for count in 0..=sheet.names {
            let default = default_leg(sheet, rows, tranche, count);
            let premium = premium_leg(sheet, rows, tranche, count);
            let net = net_value(sheet, rows, tranche, count);
            write!(
                lines,
                "{position} {tranche} {count}: {default} {premium} {net}"
            )
            .unwrap();
            if count < sheet.names {
                let ratio = hedge_ratio(sheet, rows, tranche, count).unwrap();
                write!(lines, " {ratio}").unwrap();
            }
            lines.push('\n');
        }
    }
    lines
}

/// The chances of default counts, each after a space.
fn chances(sheet: &Sheet, steps: usize) -> String {
    let row = distribution(sheet, steps);
    row.iter().map(|chance| format!(" {chance}")).collect()
}

#[test]
fn the_example_of_unequal_lists_prints_the_figures_of_the_model() {
    let sheet = unequal_sheet();
    assert_eq!(check(&sheet), Ok(()));
    let mut text = spans([5, 4, 2, 11, 3, 6, 7]);
    text += &spans(lengths(&sheet));
    let mut rows = Rows::zero(&sheet);
    let mut position = sheet.steps;
    while position > 0 {
        position = roll_back(&sheet, &mut rows, position, 1);
        text += &nodes(&sheet, &rows, position);
    }
    for steps in 0..=sheet.steps {
        let row = chances(&sheet, steps);
        writeln!(text, "forward {steps}:{row}").unwrap();
    }
    assert_eq!(UNEQUAL, text);
}

/// The example's last call is on starts that do not rise.
#[test]
fn the_example_of_two_periods_prints_the_figures_of_the_model() {
    let mut sheet = two_periods();
    assert_eq!(check(&sheet), Ok(()));
    let mut text = spans(lengths(&sheet));
    let mut rows = Rows::zero(&sheet);
    let mut position = sheet.steps;
    while position > 0 {
        position = roll_back(&sheet, &mut rows, position, 1);
        let default = default_leg(&sheet, &rows, sheet.index(), 0);
        writeln!(text, "index at step {position}: default leg {default}").unwrap();
    }
    for steps in [2, 3] {
        let row = chances(&sheet, steps);
        writeln!(text, "chances after {steps} steps:{row}").unwrap();
    }
    sheet.starts[1] = 1;
    let refusal = check(&sheet).unwrap_err();
    let (number, word) = (refusal.number(), refusal.word());
    writeln!(text, "starts 1 and 1: refusal {number}, {word}").unwrap();
    assert_eq!(PERIODS, text);
}

/// Premium is paid at steps 2 and 3, for half a year and for a quarter.
fn earning_sheet(elapsed: [u64; 3]) -> Sheet {
    Sheet {
        number: 7,
        names: 2,
        steps: 3,
        tranches: 1,
        recovery: 0,
        attachments: vec![0, 500_000_000],
        starts: vec![1],
        hazards: vec![100_000_000, 200_000_000],
        discounts: vec![1_000_000_000, 800_000_000, 1_000_000_000],
        accruals: vec![0, 500_000_000, 250_000_000],
        elapsed: elapsed.to_vec(),
        coupons: vec![1_000_000, 500_000],
    }
}

/// The premium legs on the way to the root, and the hedge ratio there.
fn premiums_to_root(sheet: &Sheet) -> String {
    let mut lines = String::new();
    let mut rows = Rows::zero(sheet);
    let mut position = sheet.steps;
    while position > 0 {
        position = roll_back(sheet, &mut rows, position, 1);
        let tranche = premium_leg(sheet, &rows, 0, 0);
        let index = premium_leg(sheet, &rows, sheet.index(), 0);
        writeln!(
            lines,
            "step {position}: premium leg {tranche}, of the index {index}"
        )
        .unwrap();
    }
    let ratio = hedge_ratio(sheet, &rows, 0, 0).unwrap();
    writeln!(lines, "hedge ratio: {ratio} millionths").unwrap();
    lines
}

/// Between its two walks the example tries a fraction that is too high.
#[test]
fn the_example_of_elapsed_fractions_prints_the_figures_of_the_model() {
    let mut sheet = earning_sheet([250_000_000, 500_000_000, 125_000_000]);
    assert_eq!(check(&sheet), Ok(()));
    let mut text = spans(lengths(&sheet));
    text += &premiums_to_root(&sheet);
    sheet.elapsed[2] = 250_000_001;
    let refusal = check(&sheet).unwrap_err();
    let (number, word) = (refusal.number(), refusal.word());
    let fraction = sheet.elapsed[2];
    writeln!(
        text,
        "elapsed {fraction} at step 3: refusal {number}, {word}"
    )
    .unwrap();
    text += &premiums_to_root(&earning_sheet([0; 3]));
    assert_eq!(ELAPSED, text);
}

/// Bytes as an example shows them.
fn shown(image: &[u8]) -> String {
    let pairs: Vec<String> = image.iter().map(|byte| format!("{byte:02X}")).collect();
    pairs.join(" ")
}

fn told(refusal: Refusal) -> String {
    format!("refusal {}, {}", refusal.number(), refusal.word())
}

#[test]
fn packed_coupons() {
    let ledger: [&[u8]; 7] = [
        &[0x01, 0x00, 0x00, 0x00],
        &[0x00, 0x50, 0x00, 0x00],
        &[0x10, 0x00, 0x00, 0x00],
        &[0x00, 0x0A, 0x00, 0x00],
        &[0x10, 0x00, 0x00, 0x01],
        &[0x99, 0x99, 0x99, 0x9A],
        &[0x01, 0x00, 0x00],
    ];
    let mut lines = String::new();
    for image in ledger {
        let read = packed::read(image).map_or_else(told, |coupon| format!("coupon {coupon}"));
        writeln!(lines, "{}: {read}", shown(image)).unwrap();
    }
    for place in [0, 2] {
        let mut image = ledger[place].to_vec();
        let coupon = packed::read(&image).unwrap() + 12_500;
        let stays = match packed::write(&mut image, coupon) {
            Ok(()) => String::new(),
            Err(refusal) => format!("{}; the image stays ", told(refusal)),
        };
        writeln!(lines, "coupon {coupon}: {stays}{}", shown(&image)).unwrap();
    }
    assert_eq!(lines, PACKED);
}

/// The nominals and net values of `callers/c/book.c`; one pool too many, a value
/// left out, and a byte of the buffer left out.
#[test]
fn positions_of_a_book() {
    let nominals = [1_000_000, -724_386, 250_000, -40];
    let values = [
        324_300_000_000_000,
        194_250_000_000_000,
        -90_000_000_000_000_001,
        -7,
    ];
    let turned = |list: [i64; 4]| [list[3], list[2], list[1], list[0]];
    let (last_nominals, last_values) = (turned(nominals), turned(values));
    let mut raised = nominals;
    raised[0] += 1;
    let books: [(&str, &[i64], &[i64], usize); 6] = [
        ("no positions", &[], &[], LINE_ROOM),
        ("four positions", &nominals, &values, LINE_ROOM),
        ("turned round", &last_nominals, &last_values, LINE_ROOM),
        ("one pool more", &raised, &values, LINE_ROOM),
        ("a value short", &nominals, &values[..3], LINE_ROOM),
        ("a byte short", &nominals, &values, LINE_ROOM - 1),
    ];
    let mut out = [0; LINE_ROOM];
    let mut length = 0;
    let mut lines = String::new();
    for (what, nominals, values, room) in books {
        let stays = match book(nominals, values, &mut out[..room]) {
            Ok(written) => {
                length = written;
                String::new()
            }
            Err(refusal) => format!("{}; the line stays ", told(refusal)),
        };
        let line = str::from_utf8(&out[..length]).unwrap();
        write!(lines, "{what}: {stays}{line}").unwrap();
    }
    assert_eq!(lines, BOOK);
}

/// A sheet of `callers/c/turns.c`; they differ in their steps.
fn sheet_of(steps: usize, number: u8) -> Sheet {
    let mut accruals = vec![0; steps];
    accruals[steps - 1] = 1_000_000_000;
    Sheet {
        number,
        names: 5,
        steps,
        tranches: 1,
        recovery: 400_000_000,
        attachments: vec![0, 300_000_000],
        starts: vec![1],
        hazards: vec![1_000_000; 5],
        discounts: vec![999_900_000; steps],
        accruals,
        elapsed: vec![0; steps],
        coupons: vec![500_000; 2],
    }
}

/// The walks go back in turns, and their values are those of walks alone.
#[test]
fn walks_in_turns() {
    let sheets: Vec<Sheet> = [3_650, 2, 40, 10, 120]
        .into_iter()
        .zip(100..)
        .map(|(steps, number)| sheet_of(steps, number))
        .collect();
    let mut rows: Vec<Rows> = sheets.iter().map(Rows::zero).collect();
    let opened = |sheet: &Sheet| Turn {
        walk: Walk {
            open: true,
            number: sheet.number,
            position: sheet.steps,
        },
        left: sheet.steps as u16,
    };
    let mut table: Vec<Turn> = sheets.iter().map(opened).collect();
    let mut place = sheets.len() - 1;
    let mut text = String::new();
    let mut served = 0;
    for call in 0.. {
        let mut list = [0; 6];
        let count = turns(&mut table, &mut place, &mut list).unwrap();
        let list = &list[..count];
        if list.is_empty() {
            break;
        }
        if call < 3 {
            let places: String = list.iter().map(|place| format!(" {place}")).collect();
            writeln!(text, "turns:{places}").unwrap();
        }
        for named in list.iter().map(|&named| usize::from(named)) {
            let position = &mut table[named].walk.position;
            *position = roll_back(&sheets[named], &mut rows[named], *position, 1);
            served += 1;
            if *position == 0 {
                writeln!(text, "walk {named} at its root after {served} turns").unwrap();
            }
        }
    }
    for (walk, (sheet, rows)) in sheets.iter().zip(&rows).enumerate() {
        assert_eq!(check(sheet), Ok(()));
        let mut alone = Rows::zero(sheet);
        let steps = sheet.steps;
        assert_eq!(roll_back(sheet, &mut alone, steps, steps), 0);
        assert_eq!(*rows, alone);
        let default = default_leg(sheet, rows, 0, 0);
        let premium = premium_leg(sheet, rows, 0, 0);
        let net = net_value(sheet, rows, 0, 0);
        writeln!(
            text,
            "walk {walk}, steps {steps}: default leg {default}, premium leg {premium}, \
             net value {net}, as alone"
        )
        .unwrap();
    }
    assert_eq!(TURNS, text);
}
