//! The deck and its listing: the worked deck to the letter, the refusals of
//! the deck itself, and what every command prints.

mod common;

use common::desk::{Call, Desk};
use common::{plain_sheet, Random, B};
use lavroudem_model::commands::{
    decode, encode, BACK, COUPON, CUT, DELTA, ELAPSED, FORWARD, HAZARD, ISSUE, OPEN, POOL, STEP,
    VALUE, WITHDRAW,
};
use lavroudem_model::deck::{listing, CALLS};
use lavroudem_model::decks;
use lavroudem_model::refusal::Refusal;
use lavroudem_model::sheet::Sheet;
use lavroudem_model::tree::{default_leg, distribution, net_value, premium_leg, roll_back, Rows};
use lavroudem_model::worked;
use std::io::Write;
use std::process::{Command, Stdio};

/// A function for each command.
macro_rules! commands {
    ($($name:ident $byte:ident($($operand:ident),*);)*) => {
        $(fn $name($($operand: u64),*) -> Vec<u8> {
            written($byte, &[$($operand),*])
        })*
    };
}

commands! {
    pool POOL(names, steps, tranches, recovery, number);
    cut CUT(point);
    hazard HAZARD(chance);
    step STEP(discount, accrual);
    coupon COUPON(rate);
    issue ISSUE(number);
    withdraw WITHDRAW(number);
    open OPEN();
    back BACK(steps);
    value VALUE(tranche, count);
    delta DELTA(tranche, count);
    forward FORWARD(steps, count);
    elapsed ELAPSED(fraction);
}

/// An operand that its width cannot hold is a mistake of the test.
fn written(byte: u8, operands: &[u64]) -> Vec<u8> {
    let bytes = encode(byte, operands);
    assert_eq!(decode(&bytes).unwrap().operands(), operands);
    bytes
}

fn pool_of(sheet: &Sheet) -> Vec<u8> {
    pool(
        sheet.names as u64,
        sheet.steps as u64,
        sheet.tranches as u64,
        sheet.recovery,
        sheet.number.into(),
    )
}

/// The sheet's lists, each as its commands; none for fractions that are zero.
fn lists_of(sheet: &Sheet) -> [Vec<Vec<u8>>; 5] {
    let fractions = match sheet.elapsed.iter().any(|&fraction| fraction != 0) {
        true => &sheet.elapsed[..],
        false => &[],
    };
    let each = |list: &[u64], command: fn(u64) -> Vec<u8>| -> Vec<Vec<u8>> {
        list.iter().map(|&figure| command(figure)).collect()
    };
    let steps = sheet.discounts.iter().zip(&sheet.accruals);
    [
        each(&sheet.attachments, cut),
        each(&sheet.hazards, hazard),
        steps.map(|(&v, &a)| step(v, a)).collect(),
        each(&sheet.coupons, coupon),
        each(fractions, elapsed),
    ]
}

/// The sheet commands in the order of document 01.
fn sheet_deck(sheet: &Sheet) -> Vec<u8> {
    let mut deck = pool_of(sheet);
    deck.extend(lists_of(sheet).concat().concat());
    deck
}

fn printed(deck: &[u8]) -> String {
    String::from_utf8(listing(deck)).unwrap()
}

/// Commands, each with the line that it prints; an empty one where it prints
/// nothing.
type Lines<'a> = [(Vec<u8>, &'a str)];

/// What the commands print after those of a sheet or other bytes.
fn assert_lines(start: &[u8], lines: &Lines) {
    let mut deck = start.to_vec();
    let mut expected = String::new();
    for (command, line) in lines {
        deck.extend(command);
        if !line.is_empty() {
            expected += line;
            expected += "\n";
        }
    }
    assert_eq!(printed(&deck), expected);
}

fn worked_calls() -> Vec<Vec<u8>> {
    vec![
        issue(7),
        open(),
        back(2),
        value(0, 0),
        value(1, 0),
        delta(0, 0),
        forward(2, 1),
        withdraw(7),
        value(0, 0),
    ]
}

fn worked_deck() -> Vec<u8> {
    [sheet_deck(&worked::sheet()), worked_calls().concat()].concat()
}

const WORKED_LISTING: &str = "\
issue 0
open 0
back 0 0
value 0 54300000 218700000 324300000000000
value 0 59700000 805500000 194250000000000
delta 0 724386
forward 0 170000000
withdraw 0
value 9
";

#[test]
fn worked_deck_prints_its_nine_lines() {
    assert_eq!(printed(&worked_deck()), WORKED_LISTING);
}

/// Byte for byte by hand, so that the helpers above are not trusted alone.
#[test]
fn worked_deck_is_these_bytes() {
    let bytes = [
        0x01, 0x02, 0x02, 0x00, 0x01, 0x00, 0x84, 0xD7, 0x17, 0x07, // pool
        0x02, 0x00, 0x00, 0x00, 0x00, // cut 0
        0x02, 0x00, 0xA3, 0xE1, 0x11, // cut 300000000
        0x03, 0x00, 0xE1, 0xF5, 0x05, // hazard 100000000
        0x03, 0x00, 0xC2, 0xEB, 0x0B, // hazard 200000000
        0x04, 0x00, 0xCA, 0x9A, 0x3B, 0x00, 0x00, 0x00, 0x00, // step 1
        0x04, 0x00, 0xE9, 0xA4, 0x35, 0x00, 0xCA, 0x9A, 0x3B, // step 2
        0x05, 0x40, 0x42, 0x0F, 0x00, // coupon 1000000
        0x05, 0x20, 0xA1, 0x07, 0x00, // coupon 500000
        0x06, 0x07, // issue 7
        0x08, // open
        0x09, 0x02, 0x00, // back 2
        0x0A, 0x00, 0x00, // value 0 0
        0x0A, 0x01, 0x00, // value 1 0
        0x0B, 0x00, 0x00, // delta 0 0
        0x0C, 0x02, 0x00, 0x01, // forward 2 1
        0x07, 0x07, // withdraw 7
        0x0A, 0x00, 0x00, // value 0 0
    ];
    assert_eq!(worked_deck(), bytes);
    assert_eq!(listing(&bytes), WORKED_LISTING.as_bytes());
}

/// Each command with operands that fill their widths, and its bytes by hand,
/// the low byte of an operand first.
const BY_HAND: [(&str, &[u64], &[u8]); 13] = [
    (
        "pool",
        &[0xF1, 0x0102, 0xF2, 0x0304_0506, 0xF3],
        &[0x01, 0xF1, 0x02, 0x01, 0xF2, 0x06, 0x05, 0x04, 0x03, 0xF3],
    ),
    ("cut", &[0x0102_0304], &[0x02, 0x04, 0x03, 0x02, 0x01]),
    ("hazard", &[0xA102_0304], &[0x03, 0x04, 0x03, 0x02, 0xA1]),
    (
        "step",
        &[0x0102_0304, 0x0506_0708],
        &[0x04, 0x04, 0x03, 0x02, 0x01, 0x08, 0x07, 0x06, 0x05],
    ),
    ("coupon", &[0xF102_0304], &[0x05, 0x04, 0x03, 0x02, 0xF1]),
    ("issue", &[0xF1], &[0x06, 0xF1]),
    ("withdraw", &[0xF2], &[0x07, 0xF2]),
    ("open", &[], &[0x08]),
    ("back", &[0x0102], &[0x09, 0x02, 0x01]),
    ("value", &[0xF1, 0xF2], &[0x0A, 0xF1, 0xF2]),
    ("delta", &[0xF3, 0xF4], &[0x0B, 0xF3, 0xF4]),
    ("forward", &[0xF102, 0xF3], &[0x0C, 0x02, 0xF1, 0xF3]),
    ("elapsed", &[0xE102_0304], &[0x0D, 0x04, 0x03, 0x02, 0xE1]),
];

/// One table encodes and decodes, so that neither may be judged by the other.
#[test]
fn every_command_is_written_and_read_as_by_hand() {
    for (word, operands, bytes) in BY_HAND {
        assert_eq!(encode(bytes[0], operands), bytes, "{word}");
        // What follows a command is not its own.
        let read = decode(&[bytes, &[0xEE]].concat()).unwrap();
        assert_eq!(read.operands(), operands, "{word}");
        assert_eq!(read.length, bytes.len(), "{word}");
        assert_eq!(read.command.word, word);
    }
}

/// A tree of 258 steps, which need two bytes.
#[test]
fn high_byte_of_steps_is_read() {
    let sheet = [
        0x01, 0x01, 0x02, 0x01, 0x01, 0x00, 0x00, 0x00, 0x00, 0x07, // pool 1 258 1 0 7
        0x02, 0x00, 0x00, 0x00, 0x00, // cut 0
        0x02, 0x00, 0xCA, 0x9A, 0x3B, // cut 1000000000
        0x03, 0x00, 0x00, 0x00, 0x00, // hazard 0
        0x05, 0x00, 0x00, 0x00, 0x00, // coupon 0
        0x05, 0x00, 0x00, 0x00, 0x00, // coupon 0
    ];
    // step 1000000000 1
    let step = [0x04, 0x00, 0xCA, 0x9A, 0x3B, 0x01, 0x00, 0x00, 0x00];
    let lines = [
        (step.repeat(258), ""),
        (vec![0x06, 0x07], "issue 0"),
        (vec![0x08], "open 0"),
        (vec![0x09, 0x03, 0x01], "back 13"),  // 259
        (vec![0x09, 0x00, 0x01], "back 0 2"), // 256
        (vec![0x0C, 0x02, 0x01, 0x00], "forward 0 1000000000"), // 258
        (vec![0x0C, 0x03, 0x01, 0x00], "forward 13"), // 259
    ];
    assert_lines(&sheet, &lines);
}

/// Runs the program with a deck on its standard input.
fn run_program(deck: &[u8]) -> Vec<u8> {
    let mut program = Command::new(env!("CARGO_BIN_EXE_listing"))
        .stdin(Stdio::piped())
        .stdout(Stdio::piped())
        .spawn()
        .unwrap();
    let mut input = program.stdin.take().unwrap();
    input.write_all(deck).unwrap();
    drop(input); // the end of the deck
    let run = program.wait_with_output().unwrap();
    assert!(run.status.success());
    run.stdout
}

#[test]
fn program_prints_the_listing_of_its_input() {
    for deck in [vec![], worked_deck(), vec![0x0E], vec![0x08; 70_000]] {
        assert_eq!(run_program(&deck), listing(&deck));
    }
}

#[test]
fn empty_deck_prints_nothing() {
    assert_eq!(printed(&[]), "");
}

#[test]
fn sheet_commands_print_nothing() {
    assert_eq!(printed(&sheet_deck(&worked::sheet())), "");
    assert_eq!(printed(&sheet_deck(&plain_sheet(125, 3_650, 8))), "");
    // Nor are their figures looked at.
    let most = u64::from(u32::MAX);
    let commands = [
        pool(255, 65_535, 255, most, 255),
        cut(most),
        hazard(most),
        step(most, most),
        coupon(most),
        elapsed(most),
    ];
    assert_eq!(printed(&commands.concat()), "");
}

/// Every command with its width in bytes, operands included.
fn one_of_each() -> [(Vec<u8>, usize); 13] {
    [
        (pool(1, 2, 3, 4, 5), 10),
        (cut(1), 5),
        (hazard(1), 5),
        (step(1, 2), 9),
        (coupon(1), 5),
        (issue(1), 2),
        (withdraw(1), 2),
        (open(), 1),
        (back(1), 3),
        (value(1, 2), 3),
        (delta(1, 2), 3),
        (forward(1, 2), 4),
        (elapsed(1), 5),
    ]
}

#[test]
fn every_other_byte_is_unknown() {
    for byte in 0..=255 {
        let known = (0x01..=0x0D).contains(&byte);
        for rest in [0, 20] {
            let deck = [vec![byte], vec![0; rest]].concat();
            assert_eq!(printed(&deck).starts_with("deck 18 0\n"), !known);
        }
    }
    assert_eq!(printed(&[0x00]), "deck 18 0\n");
    assert_eq!(printed(&[0x0E]), "deck 18 0\n");
    assert_eq!(printed(&[0xFF; 9]), "deck 18 0\n");
}

#[test]
fn offset_is_that_of_the_command_byte() {
    let mut deck = Vec::new();
    for (command, width) in one_of_each() {
        assert_eq!(command.len(), width);
        let spoilt = [deck.clone(), vec![0x77]].concat();
        let line = format!("deck 18 {}\n", deck.len());
        assert!(printed(&spoilt).ends_with(&line));
        deck.extend(command);
    }
    assert!(!printed(&deck).contains("deck"));
}

#[test]
fn command_is_cut_short_at_each_operand_byte() {
    for (command, width) in one_of_each() {
        for length in 1..width {
            let short = &command[..length];
            assert_eq!(printed(short), "deck 19 0\n");
            let later = [issue(3), open(), short.to_vec()].concat();
            assert_eq!(printed(&later), "issue 0\nopen 1\ndeck 19 3\n");
        }
        assert!(!printed(&command).contains("deck"));
    }
}

#[test]
fn second_pool_is_one_too_many() {
    let first = pool(2, 2, 1, 400_000_000, 7);
    assert_eq!(printed(&first), "");
    let twice = [first.clone(), first.clone()].concat();
    assert_eq!(printed(&twice), "deck 20 10\n");
    let later = [first.clone(), cut(0), open(), first].concat();
    assert_eq!(printed(&later), "open 2\ndeck 20 16\n");
}

#[test]
fn each_list_has_a_most() {
    let lists = [
        (cut(1), 9),
        (hazard(1), 125),
        (step(1, 1), 3_650),
        (coupon(1), 9),
        (elapsed(1), 3_650),
    ];
    for (command, most) in &lists {
        let full = command.repeat(*most);
        assert_eq!(printed(&full), "");
        let line = format!("deck 20 {}\n", full.len());
        assert_eq!(printed(&command.repeat(most + 1)), line);
        // A pool with smaller numbers does not lower it.
        let with_pool = [pool(1, 1, 1, 0, 0), command.repeat(most + 1)].concat();
        let line = format!("deck 20 {}\n", full.len() + 10);
        assert_eq!(printed(&with_pool), line);
    }
    // A full list leaves the others their room.
    let mut all = pool(2, 2, 1, 0, 7);
    for (command, most) in &lists {
        all.extend(command.repeat(*most));
    }
    assert_eq!(printed(&[all, open()].concat()), "open 2\n");
}

#[test]
fn oversized_deck_prints_one_line_only() {
    let most = vec![0x08; 65_536];
    assert_eq!(printed(&most), "open 1\n".repeat(65_536));
    for length in [65_537, 65_538, 100_000, 1 << 20] {
        // Whatever is in it: calls, an unknown command, one cut short.
        assert_eq!(printed(&vec![0x08; length]), "deck 20 65536\n");
        assert_eq!(printed(&vec![0xEE; length]), "deck 20 65536\n");
        let mut cut_short = vec![0x08; length];
        cut_short[length - 1] = 0x01;
        assert_eq!(printed(&cut_short), "deck 20 65536\n");
    }
    // The last command may end with the last byte allowed.
    let mut brim = vec![0x08; 65_534];
    brim.extend(issue(4));
    assert!(printed(&brim).ends_with("open 1\nissue 0\n"));
    brim.pop();
    assert!(printed(&brim).ends_with("open 1\ndeck 19 65534\n"));
}

/// 18, then 19, then 20, for one command after another.
#[test]
fn deck_refusals_come_in_order() {
    // Unknown: there is no telling whether it is cut short.
    assert_eq!(printed(&[0x08, 0x0E]), "open 1\ndeck 18 1\n");
    // One too many, but cut short.
    let first = pool(2, 2, 1, 0, 7);
    for length in 1..first.len() {
        let deck = [&first, &first[..length]].concat();
        assert_eq!(printed(&deck), "deck 19 10\n");
    }
    let lists = [
        (cut(1), 9),
        (hazard(1), 125),
        (step(1, 1), 3_650),
        (coupon(1), 9),
        (elapsed(1), 3_650),
    ];
    for (command, most) in lists {
        let full = command.repeat(most);
        for length in 1..command.len() {
            let deck = [&full[..], &command[..length]].concat();
            assert_eq!(printed(&deck), format!("deck 19 {}\n", full.len()));
        }
        // The first command at fault is named, whatever comes later.
        let deck = [&full[..], &command[..], &[0x0E]].concat();
        assert_eq!(printed(&deck), format!("deck 20 {}\n", full.len()));
    }
    assert_eq!(printed(&[0x0E, 0x01]), "deck 18 0\n");
}

#[test]
fn deck_refusal_stops_the_run_and_keeps_earlier_lines() {
    let (before, after) = (worked_calls().concat(), worked_calls().concat());
    let sheet = sheet_deck(&worked::sheet());
    let offset = sheet.len() + before.len();
    let deck = [sheet, before, vec![0x20], after].concat();
    assert_eq!(
        printed(&deck),
        format!("{WORKED_LISTING}deck 18 {offset}\n")
    );
}

/// All its figures are zero then, so check 1 fails first; the register works
/// all the same.
#[test]
fn deck_without_a_pool_is_refused_its_pool() {
    let lines = [
        (issue(0), "issue 0"),
        (open(), "open 1"),
        (back(0), "back 1"),
        (value(0, 0), "value 1"),
        (delta(0, 0), "delta 1"),
        (forward(0, 0), "forward 1"),
        (issue(0), "issue 17"),
        (withdraw(0), "withdraw 0"),
        (withdraw(0), "withdraw 9"),
        (issue(0), "issue 9"),
        (open(), "open 1"),
    ];
    assert_lines(&[], &lines);
    // Nor do lists make a pool.
    assert_lines(&lists_of(&worked::sheet()).concat().concat(), &lines);
}

/// Every call that brings the sheet prints the same refusal.
fn assert_all_print(start: &[u8], refusal: Refusal) {
    let calls = [open(), back(0), value(0, 0), delta(0, 0), forward(0, 0)].concat();
    let words = ["open", "back", "value", "delta", "forward"];
    let lines = words.map(|word| format!("{word} {}\n", refusal.number()));
    assert_eq!(printed(&[start, &calls].concat()), lines.concat());
}

#[test]
fn pool_beyond_its_limits_is_refused_in_every_call() {
    for (names, steps, tranches) in [
        (0, 2, 1),
        (126, 2, 1),
        (255, 2, 1),
        (2, 0, 1),
        (2, 3_651, 1),
        (2, 65_535, 1),
        (2, 2, 0),
        (2, 2, 9),
        (2, 2, 255),
        (255, 65_535, 255),
    ] {
        assert_all_print(&pool(names, steps, tranches, 0, 0), Refusal::Pool);
    }
}

/// Merges lists at random; each keeps its own order.
fn shuffled(random: &mut Random, mut lists: Vec<Vec<Vec<u8>>>) -> Vec<u8> {
    let mut merged = Vec::new();
    while !lists.is_empty() {
        let draw = random.between(0, lists.len() as u64 - 1) as usize;
        if lists[draw].is_empty() {
            lists.remove(draw);
        } else {
            merged.extend(lists[draw].remove(0));
        }
    }
    merged
}

#[test]
fn sheet_commands_may_come_in_any_order() {
    let mut random = Random::new(5);
    for _ in 0..100 {
        let mut lists = lists_of(&worked::sheet()).to_vec();
        lists.push(vec![pool_of(&worked::sheet())]);
        // The number can be issued before, between or after them.
        lists.push(vec![issue(7)]);
        let sheet = shuffled(&mut random, lists);
        let calls = worked_calls()[1..].concat();
        let deck = [sheet, calls].concat();
        assert_eq!(printed(&deck), WORKED_LISTING);
    }
}

/// Calls see the sheet as it is when they come.
#[test]
fn sheet_commands_may_follow_calls() {
    let sheet = worked::sheet();
    let [cuts, hazards, steps, coupons, _] = lists_of(&sheet).map(|list| list.concat());
    let lines = [
        (issue(7), "issue 0"),
        (open(), "open 1"), // no pool yet
        (pool_of(&sheet), ""),
        (open(), "open 2"),
        (cuts, ""),
        (hazards, ""),
        (open(), "open 2"),
        (forward(0, 0), "forward 2"),
        (steps, ""),
        (coupons[..5].to_vec(), ""),
        (open(), "open 2"), // one coupon short
        (coupons[5..].to_vec(), ""),
        (back(1), "back 11"), // whole, but not open
        (open(), "open 0"),
        (back(1), "back 0 1"),
        (value(0, 0), "value 0 27000000 243000000 27000000000000"),
        (hazard(0), ""), // one hazard too long, for good
        (value(0, 0), "value 2"),
        (back(1), "back 2"),
        (delta(0, 0), "delta 2"),
        (forward(1, 0), "forward 2"),
        (open(), "open 2"),
        (withdraw(7), "withdraw 0"),
        (open(), "open 2"),
        (hazard(0), ""),
        (open(), "open 2"),
    ];
    assert_lines(&[], &lines);
}

#[test]
fn negative_net_value_is_printed_with_a_minus() {
    let mut sheet = worked::sheet();
    sheet.coupons = vec![10_000_000, 10_000_000];
    let start = [issue(7), open(), back(2)].concat();
    let at_root = |sheet: &Sheet, tranche: &str, index: &str| {
        let lines = [
            (start.clone(), "issue 0\nopen 0\nback 0 0"),
            (value(0, 0), tranche),
            (value(1, 0), index),
        ];
        assert_lines(&sheet_deck(sheet), &lines);
    };
    // 10^7 x (54300000 - 218700000) and 10^7 x (59700000 - 805500000)
    at_root(
        &sheet,
        "value 0 54300000 218700000 -1644000000000000",
        "value 0 59700000 805500000 -7458000000000000",
    );
    sheet.hazards = vec![0, 0];
    sheet.discounts = vec![1_000_000_000, 1_000_000_000];
    at_root(
        &sheet,
        "value 0 0 300000000 -3000000000000000",
        "value 0 0 1000000000 -10000000000000000",
    );
}

/// The first default takes all of the tranche, so a second moves nothing.
#[test]
fn ratio_of_zero_is_printed_without_a_sign() {
    let lines = [
        (issue(7), "issue 0"),
        (open(), "open 0"),
        (back(2), "back 0 0"),
        (delta(0, 1), "delta 0 0"),
        (delta(1, 1), "delta 0 1000000"),
    ];
    assert_lines(&sheet_deck(&worked::sheet()), &lines);
}

#[test]
fn forward_refuses_the_count_last() {
    let lines = [
        (forward(2, 3), "forward 10"),
        (issue(7), "issue 0"),
        (forward(0, 0), "forward 0 1000000000"),
        (forward(0, 1), "forward 0 0"),
        (forward(1, 0), "forward 0 900000000"),
        (forward(1, 1), "forward 0 100000000"),
        (forward(2, 2), "forward 0 20000000"),
        (forward(2, 3), "forward 14"),
        (forward(2, 255), "forward 14"),
        (forward(3, 0), "forward 13"),
        (forward(3, 3), "forward 13"),
        (forward(65_535, 255), "forward 13"),
        (withdraw(7), "withdraw 0"),
        (forward(3, 3), "forward 9"),
    ];
    assert_lines(&sheet_deck(&worked::sheet()), &lines);
}

/// A walk belongs to the number of the pool; the register to all numbers.
#[test]
fn calls_print_their_refusals() {
    let lines = [
        (open(), "open 10"),
        (back(0), "back 10"),
        (value(0, 0), "value 10"),
        (delta(0, 0), "delta 10"),
        (withdraw(7), "withdraw 10"),
        (issue(8), "issue 0"),
        (withdraw(8), "withdraw 0"),
        (issue(8), "issue 9"),
        (issue(7), "issue 0"),
        (issue(7), "issue 17"),
        (back(0), "back 11"),
        (value(0, 0), "value 11"),
        (delta(0, 0), "delta 11"),
        (open(), "open 0"),
        (back(3), "back 13"),
        (back(0), "back 0 2"),
        (back(1), "back 0 1"),
        (back(2), "back 13"),
        (back(65_535), "back 13"),
        (value(2, 0), "value 14"),
        (value(0, 3), "value 14"),
        (value(1, 2), "value 0 0 0 0"),
        (delta(2, 0), "delta 14"),
        (delta(0, 2), "delta 14"),
        (delta(255, 255), "delta 14"),
        (open(), "open 0"),
        (back(2), "back 0 0"),
        (back(1), "back 13"),
        (withdraw(7), "withdraw 0"),
        (open(), "open 9"),
        (back(0), "back 9"),
        (delta(0, 0), "delta 9"),
    ];
    assert_lines(&sheet_deck(&worked::sheet()), &lines);
}

#[test]
fn faults_of_the_sheet_print_their_refusals() {
    type Fault = fn(&mut Sheet);
    let faults: [(Refusal, Fault); 13] = [
        (Refusal::Recovery, |s| s.recovery = B + 1),
        (Refusal::Attachments, |s| s.attachments[1] = 0),
        (Refusal::Attachments, |s| s.attachments[1] = B + 1),
        (Refusal::Hazard, |s| s.hazards[1] = u64::from(u32::MAX)),
        (Refusal::Discount, |s| s.discounts[0] = 0),
        (Refusal::Discount, |s| s.discounts[0] = B + 1),
        (Refusal::Accrual, |s| s.accruals[1] = 0),
        (Refusal::Accrual, |s| s.accruals[0] = B + 1),
        (Refusal::Elapsed, |s| s.elapsed[0] = B + 1),
        (Refusal::Elapsed, |s| s.elapsed[1] = B + 1),
        (Refusal::Elapsed, |s| s.elapsed[1] = u64::from(u32::MAX)),
        (Refusal::Coupon, |s| s.coupons[0] = 10_000_001),
        (Refusal::Coupon, |s| s.coupons[1] = u64::from(u32::MAX)),
    ];
    for (refusal, fault) in faults {
        let mut sheet = worked::sheet();
        fault(&mut sheet);
        assert_all_print(&sheet_deck(&sheet), refusal);
    }
}

/// The hazards of a second period are too many; those of the first hold to the
/// last step.
#[test]
fn a_deck_has_one_period() {
    let two = worked::two_periods();
    assert_all_print(&sheet_deck(&two), Refusal::Length);
    let one = Sheet {
        starts: vec![1],
        hazards: vec![100_000_000, 200_000_000],
        ..two
    };
    let lines = [
        (issue(6), "issue 0"),
        (open(), "open 0"),
        (back(1), "back 0 2"),
        (value(1, 0), "value 0 50000000 950000000 25000000000000"),
        (forward(3, 0), "forward 0 729000000"),
    ];
    assert_lines(&sheet_deck(&one), &lines);
}

#[test]
fn no_deck_meets_the_refusal_of_periods() {
    let mut random = Random::new(25);
    let mut refused = [0; 26];
    for _ in 0..2_000 {
        for line in printed(&decks::any(&mut random)).lines() {
            let number: usize = line.split(' ').nth(1).unwrap().parse().unwrap();
            refused[number] += 1;
        }
    }
    for number in [2, 4, 5, 21] {
        assert!(refused[number] > 100, "refusal {number}");
    }
    assert_eq!(refused[22..], [0; 4]);
}

/// What both values at the root print, for the worked sheet's number.
fn assert_root(start: &[u8], tranche: &str, index: &str) {
    let lines = [
        (issue(7), "issue 0"),
        (open(), "open 0"),
        (back(2), "back 0 0"),
        (value(0, 0), tranche),
        (value(1, 0), index),
    ];
    assert_lines(start, &lines);
}

/// m zeros, or none, print the old listing; other fractions raise the premium.
#[test]
fn a_deck_without_fractions_has_as_many_zeros() {
    let old = [
        "value 0 54300000 218700000 324300000000000",
        "value 0 59700000 805500000 194250000000000",
    ];
    let none = sheet_deck(&worked::sheet());
    assert_root(&none, old[0], old[1]);
    let zeros = [&none[..], &elapsed(0).repeat(2)].concat();
    assert_root(&zeros, old[0], old[1]);
    assert_root(
        &sheet_deck(&worked::earned()),
        "value 0 54300000 244425000 298575000000000",
        "value 0 59700000 855125000 169437500000000",
    );
}

/// Whatever their figures: zeros too, and too many of them for the pool.
#[test]
fn another_count_of_fractions_is_refused_its_length() {
    let mut sheet = worked::sheet();
    for steps in [2, 3, 300] {
        sheet.steps = steps;
        sheet.discounts = vec![B; steps];
        sheet.accruals = vec![1; steps];
        let start = [sheet_deck(&sheet), issue(7)].concat();
        let accepted = format!("issue 0\nopen 0\nback 0 {}\n", steps - 1);
        for count in [0, 1, steps - 1, steps, steps + 1, 2 * steps, 3_650] {
            for fraction in [0, 1] {
                let entered = elapsed(fraction).repeat(count);
                let deck = [start.clone(), entered, open(), back(1)].concat();
                let right = match count {
                    0 => accepted.as_str(),
                    _ if count == steps => accepted.as_str(),
                    _ => "issue 0\nopen 2\nback 2\n",
                };
                assert_eq!(printed(&deck), right, "{count} of {steps}");
            }
        }
    }
}

/// The steps of a deck's pool and the fractions that it enters, up to where it
/// stops.
fn steps_and_fractions(deck: &[u8]) -> (u64, Vec<u64>) {
    let (mut at, mut steps, mut fractions) = (0, 0, Vec::new());
    while at < deck.len() {
        let Ok(read) = decode(&deck[at..]) else { break };
        match read.command.byte {
            POOL => steps = read.operands()[1],
            ELAPSED => fractions.push(read.operands()[0]),
            _ => {}
        }
        at += read.length;
    }
    (steps, fractions)
}

/// None, zeros, others that are accepted, too high ones, another count, and one
/// more than a deck may have.
#[test]
fn random_decks_have_fractions_of_every_kind() {
    let mut random = Random::new(26);
    let [mut none, mut zeros, mut others, mut high, mut count, mut most] = [0; 6];
    for at in 0..4_000 {
        let deck = match at % 20 {
            0 => decks::oversized(&mut random),
            _ => decks::any(&mut random),
        };
        let listing = printed(&deck);
        let (steps, fractions) = steps_and_fractions(&deck);
        let accepted = listing.contains("value 0 ");
        let all = fractions.len() as u64 == steps;
        let zero = fractions.iter().all(|&fraction| fraction == 0);
        none += usize::from(accepted && fractions.is_empty());
        zeros += usize::from(accepted && all && zero);
        others += usize::from(accepted && all && !zero);
        high += usize::from(listing.contains("open 21\n"));
        let other = !fractions.is_empty() && !all;
        count += usize::from(other && listing.contains("open 2\n"));
        most += usize::from(fractions.len() > 3_650 && listing.contains("deck 20 "));
    }
    let kinds = [none, zeros, others, high, count, most];
    assert!(kinds.iter().all(|&kind| kind >= 5), "{kinds:?}");
}

/// Before the pool, among the lists, or after an open: calls see the fractions
/// that stand there when they come. While there are too few, none is accepted.
#[test]
fn fractions_may_follow_calls() {
    let start = sheet_deck(&worked::sheet());
    let lines = [
        (issue(7), "issue 0"),
        (open(), "open 0"),
        (back(1), "back 0 1"),
        (value(0, 0), "value 0 27000000 243000000 27000000000000"),
        (elapsed(250_000_000), ""),
        (value(0, 0), "value 2"),
        (back(1), "back 2"),
        (open(), "open 2"),
        (elapsed(750_000_000), ""),
        // The walk goes on from where it stood: 0.1 of 75000000 more.
        (value(0, 0), "value 0 27000000 243000000 27000000000000"),
        (back(1), "back 0 0"),
        (value(0, 0), "value 0 54300000 226200000 316800000000000"),
        (open(), "open 0"),
        (back(2), "back 0 0"),
        (value(0, 0), "value 0 54300000 244425000 298575000000000"),
        (elapsed(0), ""), // one too many, for good
        (value(0, 0), "value 2"),
        (forward(1, 0), "forward 2"),
    ];
    assert_lines(&start, &lines);
    let before = [elapsed(250_000_000), elapsed(750_000_000), start].concat();
    let root = [open(), back(2), value(0, 0)].concat();
    let listing = printed(&[before, issue(7), root].concat());
    let right = "value 0 54300000 244425000 298575000000000\n";
    assert!(listing.ends_with(right));
}

/// One name that defaults in each step with an even chance. The index leg
/// lacks 600000000 / 2^steps of a sure loss, rounded down: 1 unit after 29
/// steps, 0 after 30. The tranche still earns its first coupons.
#[test]
fn ratio_can_be_off_scale_and_then_flat() {
    for (steps, line) in [(29, "delta 16"), (30, "delta 15")] {
        let mut sheet = plain_sheet(1, steps, 1);
        sheet.number = 7;
        sheet.attachments = vec![0, 300_000_000];
        sheet.hazards = vec![500_000_000];
        sheet.discounts = vec![B; steps];
        sheet.accruals = vec![1; steps];
        sheet.accruals[0] = B;
        sheet.coupons = vec![10_000_000, 0];
        let lines = [
            (issue(7), "issue 0"),
            (open(), "open 0"),
            (back(steps as u64), "back 0 0"),
            (delta(0, 0), line),
        ];
        assert_lines(&sheet_deck(&sheet), &lines);
    }
}

#[test]
fn largest_sheet_runs_from_a_deck() {
    let mut sheet = plain_sheet(125, 3_650, 8);
    sheet.number = 255;
    let mut rows = Rows::zero(&sheet);
    roll_back(&sheet, &mut rows, 3_650, 3_650);
    let mut expected = String::from("issue 0\nopen 0\nback 0 3649\nback 0 0\n");
    let mut calls = vec![issue(255), open(), back(1), back(3_649)];
    for (tranche, count) in [(0, 0), (7, 60), (8, 0), (8, 124), (3, 125)] {
        let default = default_leg(&sheet, &rows, tranche, count);
        let premium = premium_leg(&sheet, &rows, tranche, count);
        let net = net_value(&sheet, &rows, tranche, count);
        expected += &format!("value 0 {default} {premium} {net}\n");
        calls.push(value(tranche as u64, count as u64));
    }
    let row = distribution(&sheet, 3_650);
    expected += &format!("forward 0 {}\nforward 0 {}\n", row[0], row[125]);
    calls.extend([forward(3_650, 0), forward(3_650, 125)]);
    let deck = [sheet_deck(&sheet), calls.concat()].concat();
    assert_eq!(printed(&deck), expected);
}

/// A random call made by hand: its command, and the line that it must print.
fn by_hand(desk: &mut Desk, random: &mut Random) -> (Vec<u8>, String) {
    desk.number = match random.between(0, 3) {
        0 => desk.sheet.number.wrapping_add(1),
        _ => desk.sheet.number,
    };
    let tranche = random.between(0, desk.sheet.tranches as u64 + 1);
    let count = random.between(0, desk.sheet.names as u64 + 1);
    let steps = random.between(0, 3);
    (desk.tranche, desk.count) = (tranche as usize, count as usize);
    (desk.back_by, desk.forward_by) = (steps as usize, steps as usize);
    let number = desk.number.into();
    let (call, word, command) = match random.between(0, 30) {
        0..=2 => (Call::Issue, "issue", issue(number)),
        3 => (Call::Withdraw, "withdraw", withdraw(number)),
        4..=6 => (Call::Open, "open", open()),
        7..=15 => (Call::Back, "back", back(steps)),
        16..=22 => (Call::Value, "value", value(tranche, count)),
        23..=27 => (Call::Ratio, "delta", delta(tranche, count)),
        _ => (Call::Forward, "forward", forward(steps, count)),
    };
    let mut answer = desk.ask(&CALLS, call);
    if call == Call::Forward {
        // The call fills a row; its command asks for one count.
        let chance = desk.forward_row.get(desk.count).ok_or(Refusal::OffTree);
        answer = answer.and(chance.map(|&chance| vec![chance.into()]));
    }
    (command, by_hand_line(word, answer))
}

fn by_hand_line(word: &str, answer: Result<Vec<i128>, Refusal>) -> String {
    let numbers = match answer {
        Ok(figures) => [vec![0], figures].concat(),
        Err(refusal) => vec![refusal.number().into()],
    };
    let fields: Vec<String> = numbers.iter().map(|number| format!(" {number}")).collect();
    format!("{word}{}\n", fields.concat())
}

#[test]
fn listing_says_what_the_calls_answer() {
    let mut random = Random::new(1);
    let mut accepted = 0;
    let mut negative = 0;
    for _ in 0..500 {
        let sheet = random.small_one_period_sheet();
        let mut deck = sheet_deck(&sheet);
        let mut desk = Desk::fresh(sheet, 0);
        let mut expected = String::new();
        for _ in 0..60 {
            let (command, line) = by_hand(&mut desk, &mut random);
            accepted += usize::from(line.split_whitespace().nth(1) == Some("0"));
            negative += usize::from(line.contains('-'));
            deck.extend(command);
            expected += &line;
        }
        assert_eq!(printed(&deck), expected);
    }
    assert!(accepted > 5_000);
    assert!(negative > 100);
}

/// Words, how many figures an accepted call answers, and fields in the one
/// decimal form a number has. A deck line can only be the last.
fn assert_well_formed(listing: &str) {
    let words = [
        ("issue", 0),
        ("withdraw", 0),
        ("open", 0),
        ("back", 1),
        ("value", 3),
        ("delta", 1),
        ("forward", 1),
    ];
    assert!(listing.is_empty() || listing.ends_with('\n'));
    let lines: Vec<&str> = listing.split_terminator('\n').collect();
    for (place, line) in lines.iter().enumerate() {
        let mut fields = line.split(' ');
        let word = fields.next().unwrap();
        let mut figures = Vec::new();
        for field in fields {
            let figure: i128 = field.parse().unwrap();
            assert_eq!(figure.to_string(), field);
            figures.push(figure);
        }
        if word == "deck" {
            assert_eq!(place + 1, lines.len());
            assert_eq!(figures.len(), 2);
            assert!((18..=20).contains(&figures[0]));
            continue;
        }
        let (_, answers) = words.iter().find(|(known, _)| *known == word).unwrap();
        if figures[0] == 0 {
            assert_eq!(figures.len(), 1 + answers);
        } else {
            assert_eq!(figures.len(), 1);
            // The program's own rows are never soiled.
            let of_a_call = (1..=17).contains(&figures[0]) || figures[0] == 21;
            assert!(of_a_call && figures[0] != 12);
        }
    }
}

#[test]
fn random_bytes_are_always_listed() {
    let mut random = Random::new(18);
    let mut refused = [0; 21];
    for _ in 0..50_000 {
        // Mostly command bytes, or a run would end at its first byte.
        let share = random.between(0, 10);
        let length = random.between(0, 120) as usize;
        let mut deck = Vec::new();
        for _ in 0..length {
            let most = if random.between(0, 9) < share {
                14
            } else {
                255
            };
            deck.push(random.between(0, most) as u8);
        }
        let listing = printed(&deck);
        assert_well_formed(&listing);
        if let Some(place) = listing.find("deck ") {
            let number: usize = listing[place + 5..place + 7].parse().unwrap();
            refused[number] += 1;
        }
    }
    assert!(refused[18] > 1_000);
    assert!(refused[19] > 1_000);
    assert!(refused[20] > 100);
}

/// A good deck with some bytes spoilt, so that runs get farther.
#[test]
fn spoilt_decks_are_always_listed() {
    let mut random = Random::new(19);
    let mut accepted_lines = 0;
    for _ in 0..20_000 {
        let mut deck = worked_deck();
        for _ in 0..random.between(1, 3) {
            let place = random.between(0, deck.len() as u64 - 1) as usize;
            match random.between(0, 3) {
                0 => drop(deck.drain(place..=place)),
                1 => deck.insert(place, random.between(0, 255) as u8),
                2 => deck[place] = random.between(0, 14) as u8,
                _ => deck[place] = random.between(0, 255) as u8,
            }
        }
        let listing = printed(&deck);
        assert_well_formed(&listing);
        accepted_lines += listing.matches("value 0").count();
    }
    assert!(accepted_lines > 1_000);
}
