//! The diagnosis beside the engine's verdict: a cause that is really so for
//! every refusal 1 to 8 or 21 and every stop, and no word of anything else.

use lavroudem_model::commands::{decode, COUPON, CUT, ELAPSED, HAZARD, POOL, STEP};
use lavroudem_model::deck::{listing, MAX_DECK};
use lavroudem_model::decks;
use lavroudem_model::random::Random;
use lavroudem_model::refusal::Refusal;
use lavroudem_tool::course::course;
use lavroudem_tool::diagnosis::{findings, told, Cause, Fault, Finding, StopFault};
use lavroudem_tool::listing::read;
use lavroudem_tool::text::{assemble, assemble_with_lines, Assembled, Lines};

fn found(deck: &[u8]) -> Vec<Finding> {
    let course = course(deck);
    let answers = read(&course, &listing(deck)).unwrap();
    findings(deck, &course, &answers)
}

fn explained(text: &str) -> String {
    let Assembled { deck, lines } = assemble_with_lines(text).unwrap();
    told("desk", &lines, &found(&deck))
}

// ---- the words, with their lines

/// Two names, two steps, one tranche; a line each.
const SHEET: [&str; 9] = [
    "pool 2 2 1 400000000 7",
    "cut 0",
    "cut 300000000",
    "hazard 100000000",
    "hazard 200000000",
    "step 1000000000 0",
    "step 900000000 1000000000",
    "coupon 1000000",
    "coupon 500000",
];

/// The sheet with a line of it replaced, issued and opened on lines 10, 11.
fn with(line: usize, text: &str) -> String {
    let mut lines = SHEET.to_vec();
    lines[line - 1] = text;
    explained(&format!("{}\nissue 7\nopen\n", lines.join("\n")))
}

fn refused(number: u8, word: &str, causes: &[&str]) -> String {
    let verdict = format!("desk: line 11: open was refused {number} ({word})\n");
    let causes = causes.iter().map(|cause| format!("desk: {cause}\n"));
    verdict + &causes.collect::<String>()
}

/// Line, what is put there, refusal, its word and its causes.
type Limit = (
    usize,
    &'static str,
    u8,
    &'static str,
    &'static [&'static str],
);

const LIMITS: [Limit; 14] = [
    (
        1,
        "",
        1,
        "pool",
        &["line 11: no pool comes before this call"],
    ),
    (
        1,
        "pool 126 0 9 0 7",
        1,
        "pool",
        &[
            "line 1: names is 126, not 1 to 125",
            "line 1: steps is 0, not 1 to 3650",
            "line 1: tranches is 9, not 1 to 8",
        ],
    ),
    (4, "", 2, "length", &["line 1: hazards: 1 of 2"]),
    (8, "coupon 1 x 3", 2, "length", &["line 8: coupons: 4 of 2"]),
    (
        1,
        "pool 2 3 2 0 7",
        2,
        "length",
        &[
            "line 1: cuts: 2 of 3",
            "line 1: steps: 2 of 3",
            "line 1: coupons: 2 of 3",
        ],
    ),
    (
        1,
        "pool 2 2 1 1000000001 7",
        3,
        "recovery",
        &["line 1: the recovery is 1000000001, above 1000000000"],
    ),
    (
        3,
        "cut 0",
        4,
        "cuts",
        &["line 3: cut 2 is 0, not above the one before, 0"],
    ),
    (
        3,
        "cut 1000000001",
        4,
        "cuts",
        &["line 3: cut 2 is 1000000001, above 1000000000"],
    ),
    (
        5,
        "hazard 1000000001",
        5,
        "hazard",
        &["line 5: hazard 2 is 1000000001, above 1000000000"],
    ),
    (
        6,
        "step 0 0",
        6,
        "discount",
        &["line 6: the discount of step 1 is 0"],
    ),
    (
        6,
        "step 1000000001 0",
        6,
        "discount",
        &["line 6: the discount of step 1 is 1000000001, above 1000000000"],
    ),
    (
        6,
        "step 1 1000000001",
        7,
        "accrual",
        &["line 6: the accrual of step 1 is 1000000001, above 1000000000"],
    ),
    (
        7,
        "step 1 0",
        7,
        "accrual",
        &["line 7: the accrual of step 2, the last, is 0"],
    ),
    (
        9,
        "coupon 10000001",
        8,
        "coupon",
        &["line 9: coupon 2 is 10000001, above 10000000"],
    ),
];

#[test]
fn each_limit_has_its_words_and_its_line() {
    for (line, text, number, word, causes) in LIMITS {
        assert_eq!(with(line, text), refused(number, word, causes));
    }
    assert_eq!(with(4, SHEET[3]), "");
}

/// Accruals of a sheet that is within limits but for them.
fn with_steps(count: usize, steps: &str) -> String {
    let sheet = format!("pool 1 {count} 1 0 7\ncut 0\ncut 1\nhazard 1\ncoupon 1 x 2\n");
    explained(&format!("{sheet}issue 7\n{steps}\nopen\n"))
}

#[test]
fn the_accruals_pass_their_sum_at_a_step() {
    let sum = "desk: line 9: open was refused 7 (accrual)\n\
               desk: line 8: here the accruals reach 10800000000, above 10000000000\n";
    let steps = "step 1 900000000 x 11\nstep 1 900000000";
    assert_eq!(with_steps(12, steps), sum);
    // Ten years are not too many.
    let last = "desk: line 9: open was refused 7 (accrual)\n\
                desk: line 8: the accrual of step 11, the last, is 0\n";
    let steps = "step 1 1000000000 x 10\nstep 1 0";
    assert_eq!(with_steps(11, steps), last);
}

/// Ten lines of a sheet with premium dates at steps 3 and 5.
const DATES: &str = "pool 1 5 1 0 7\ncut 0\ncut 1\nhazard 1\nstep 1 0 x 2\n\
                     step 1 250000000\nstep 1 0\nstep 1 500000000\ncoupon 1 x 2\nissue 7\n";

fn with_elapsed(fractions: &str) -> String {
    explained(&format!("{DATES}{fractions}\nopen\n"))
}

/// A step that is a premium date goes by its own accrual.
#[test]
fn an_elapsed_fraction_has_its_premium_date() {
    let above = "elapsed 0\nelapsed 250000001\nelapsed 4294967295\nelapsed 500000001 x 2";
    let told = "desk: line 15: open was refused 21 (elapsed)\n\
                desk: line 12: elapsed 2 is 250000001, above 250000000, \
                the accrual of the next premium date, step 3\n\
                desk: line 13: elapsed 3 is 4294967295, above 250000000, \
                the accrual of the next premium date, step 3\n\
                desk: line 14: elapsed 4 is 500000001, above 500000000, \
                the accrual of the next premium date, step 5\n\
                desk: line 14: elapsed 5 is 500000001, above 500000000, \
                the accrual of the next premium date, step 5\n";
    assert_eq!(with_elapsed(above), told);
    let highest = "elapsed 250000000 x 3\nelapsed 500000000 x 2";
    assert_eq!(with_elapsed(highest), "");
}

/// There are as many as steps, or none.
#[test]
fn elapsed_fractions_are_counted() {
    let short = "desk: line 12: open was refused 2 (length)\ndesk: line 1: elapsed: 3 of 5\n";
    assert_eq!(with_elapsed("elapsed 0 x 3"), short);
    let long = "desk: line 13: open was refused 2 (length)\ndesk: line 12: elapsed: 6 of 5\n";
    assert_eq!(with_elapsed("elapsed 0 x 5\nelapsed 0"), long);
    assert_eq!(with_elapsed("elapsed 0 x 5"), "");
    assert_eq!(with_elapsed(""), "");
    let told = explained("pool 2 2 1 0 7\nelapsed 0\nissue 7\nopen\n");
    let lists: Vec<&str> = told.lines().skip(1).collect();
    let expected = [
        "desk: line 1: cuts: 0 of 2",
        "desk: line 1: hazards: 0 of 2",
        "desk: line 1: steps: 0 of 2",
        "desk: line 1: elapsed: 1 of 2",
        "desk: line 1: coupons: 0 of 2",
    ];
    assert_eq!(lists, expected);
}

/// One explanation for all calls on the same sheet, and not without end.
#[test]
fn what_is_the_same_is_told_once() {
    let calls = "pool 2 1 1 0 7\nissue 7\nopen\nback 1\nvalue 0 0 x 3\n";
    let verdict = "desk: line 3: open was refused 2 (length), and so were 4 more calls\n";
    let told = explained(calls);
    assert!(told.starts_with(verdict), "{told}");
    assert_eq!(told.lines().count(), 5);
    let grows = "pool 9 1 1 0 7\nissue 7\n".to_string() + &"hazard 1\nopen\n".repeat(8);
    let told = explained(&grows);
    assert_eq!(told.matches("was refused 2").count(), 5);
    assert!(
        told.ends_with("desk: and 3 more lines with a refusal\n"),
        "{told}"
    );
    let high = "pool 99 1 1 0 7\ncut 0\ncut 1\nhazard 1000000001 x 99\nstep 1 1\n\
                coupon 1 x 2\nissue 7\nopen\n";
    let told = explained(high);
    assert!(told.ends_with("desk: and 94 more\n"), "{told}");
    assert_eq!(told.lines().count(), 7);
}

/// A text, the refusal that stops its deck, the offset and the cause.
const STOPS: [(&str, &str, usize, &str); 9] = [
    (
        "open\nbytes ff",
        "18 (unknown)",
        1,
        "line 2: no command has the byte FF",
    ),
    (
        "open\nbytes 09 01",
        "19 (cut short)",
        1,
        "line 2: the deck ends in `back`, after 2 of 3 bytes",
    ),
    (
        "pool 1 1 1 1 1\n\npool 1 1 1 1 1",
        "20 (too many)",
        10,
        "line 3: a second pool",
    ),
    (
        "hazard 1 x 125\nhazard 2",
        "20 (too many)",
        625,
        "line 2: one hazard more than 125",
    ),
    (
        "cut 1 x 10",
        "20 (too many)",
        45,
        "line 1: one cut more than 9",
    ),
    (
        "step 1 1 x 3650\n#\nstep 1 1",
        "20 (too many)",
        32850,
        "line 3: one step more than 3650",
    ),
    (
        "elapsed 1 x 3650\n\nelapsed 0",
        "20 (too many)",
        18250,
        "line 3: one elapsed more than 3650",
    ),
    (
        "open\nbytes 0d 01 00",
        "19 (cut short)",
        1,
        "line 2: the deck ends in `elapsed`, after 3 of 5 bytes",
    ),
    (
        "open x 65536\nopen\nopen",
        "20 (too many)",
        65536,
        "line 2: here the deck passes 65536 bytes",
    ),
];

#[test]
fn a_stop_has_its_line_and_its_offset() {
    for (text, number, offset, cause) in STOPS {
        let told = explained(text);
        let verdict = format!(": the deck stops at byte {offset}: refused {number}\n");
        assert!(told.contains(&verdict), "{told}");
        assert!(told.ends_with(&format!("desk: {cause}\n")), "{told}");
    }
}

#[test]
fn a_binary_deck_has_offsets() {
    let deck = [0x08, 0xFE];
    let told = told("desk", &Lines::default(), &found(&deck));
    let expected = "desk: byte 0: open was refused 1 (pool)\n\
                    desk: byte 0: no pool comes before this call\n\
                    desk: byte 1: the deck stops at byte 1: refused 18 (unknown)\n\
                    desk: byte 1: no command has the byte FE\n";
    assert_eq!(told, expected);
}

#[test]
fn an_elapsed_fraction_of_a_binary_deck_has_its_offset() {
    let sheet = assemble(DATES).unwrap();
    let fractions = assemble("elapsed 250000001\nelapsed 0 x 4\nopen").unwrap();
    let deck = [&sheet[..], &fractions].concat();
    let told = told("desk", &Lines::default(), &found(&deck));
    let (open, first) = (sheet.len() + 25, sheet.len());
    let expected = format!(
        "desk: byte {open}: open was refused 21 (elapsed)\n\
         desk: byte {first}: elapsed 1 is 250000001, above 250000000, \
         the accrual of the next premium date, step 3\n"
    );
    assert_eq!(told, expected);
}

// ---- over random decks

/// The numbers that a kind of entry has before an offset, by their place
/// among the operands.
fn entered(deck: &[u8], before: usize, kind: u8, operand: usize) -> Vec<u64> {
    let mut numbers = Vec::new();
    let mut offset = 0;
    while offset < before {
        let read = decode(&deck[offset..]).ok().unwrap();
        if read.command.byte == kind {
            numbers.push(read.operands()[operand]);
        }
        offset += read.length;
    }
    numbers
}

/// A sheet as a call brought it, read once more.
struct Brought<'a> {
    deck: &'a [u8],
    call: usize,
}

const B: u64 = 1_000_000_000;

impl Brought<'_> {
    fn list(&self, kind: u8, operand: usize) -> Vec<u64> {
        entered(self.deck, self.call, kind, operand)
    }

    fn pool(&self, operand: usize) -> Option<u64> {
        self.list(POOL, operand).first().copied()
    }

    /// Whether a cause is so, and one of this refusal. Written without the
    /// code that finds it.
    fn bears_out(&self, refusal: Refusal, cause: &Cause) -> bool {
        match (refusal, &cause.fault) {
            (Refusal::Pool, Fault::NoPool) => self.pool(0).is_none(),
            (Refusal::Pool, &Fault::Shape { what, found, .. }) => self.is_outside(what, found),
            (Refusal::Length, &Fault::Length { list, found, asked }) => {
                found != asked && self.has_length(list, found, asked)
            }
            (Refusal::Recovery, &Fault::Recovery(found)) => {
                self.pool(3) == Some(found) && found > B
            }
            (_, &Fault::Above { place, number, .. }) => self.is_above(refusal, place, number),
            _ => self.breaks_an_order(refusal, &cause.fault),
        }
    }

    fn is_outside(&self, what: &str, found: u64) -> bool {
        let (operand, most) = match what {
            "names" => (0, 125),
            "steps" => (1, 3_650),
            _ => (2, 8),
        };
        self.pool(operand) == Some(found) && !(1..=most).contains(&found)
    }

    fn has_length(&self, list: &str, found: usize, asked: usize) -> bool {
        let (kind, wanted) = match list {
            "cuts" => (CUT, self.pool(2).unwrap() + 1),
            "hazards" => (HAZARD, self.pool(0).unwrap()),
            "steps" => (STEP, self.pool(1).unwrap()),
            // None at all is not too few.
            "elapsed" if found > 0 => (ELAPSED, self.pool(1).unwrap()),
            "elapsed" => return false,
            _ => (COUPON, self.pool(2).unwrap() + 1),
        };
        self.list(kind, 0).len() == found && wanted == asked as u64
    }

    fn is_above(&self, refusal: Refusal, place: usize, number: u64) -> bool {
        let (kind, operand, limit) = match refusal {
            Refusal::Attachments => (CUT, 0, B),
            Refusal::Hazard => (HAZARD, 0, B),
            Refusal::Discount => (STEP, 0, B),
            Refusal::Accrual => (STEP, 1, B),
            Refusal::Coupon => (COUPON, 0, 10_000_000),
            _ => return false,
        };
        self.list(kind, operand)[place - 1] == number && number > limit
    }

    /// A fraction above the accrual of a date, which is the next one.
    fn passes_its_date(&self, place: usize, number: u64, accrual: u64, date: usize) -> bool {
        let accruals = self.list(STEP, 1);
        let next = date >= place && accruals[place - 1..date - 1].iter().all(|&a| a == 0);
        let its_own = accrual != 0 && accruals[date - 1] == accrual;
        let entered = self.list(ELAPSED, 0)[place - 1] == number;
        next && its_own && entered && number > accrual
    }

    /// The causes that are not of one figure and its highest.
    fn breaks_an_order(&self, refusal: Refusal, fault: &Fault) -> bool {
        match (refusal, fault) {
            (Refusal::Attachments, &Fault::NotRising { place, number, .. }) => {
                let cuts = self.list(CUT, 0);
                cuts[place - 1] == number && number <= cuts[place - 2]
            }
            (Refusal::Discount, &Fault::NoDiscount { step }) => self.list(STEP, 0)[step - 1] == 0,
            (Refusal::Accrual, &Fault::AccrualSum { sum }) => {
                let all: u64 = self.list(STEP, 1).iter().sum();
                sum > 10 * u128::from(B) && u128::from(all) >= sum
            }
            (Refusal::Accrual, &Fault::LastAccrual { step }) => {
                let accruals = self.list(STEP, 1);
                accruals.len() == step && accruals[step - 1] == 0
            }
            (
                Refusal::Elapsed,
                &Fault::AboveAccrual {
                    place,
                    number,
                    accrual,
                    date,
                },
            ) => self.passes_its_date(place, number, accrual, date),
            _ => false,
        }
    }
}

/// The refusals of a sheet that a deck can meet.
const OF_THE_SHEET: [usize; 9] = [1, 2, 3, 4, 5, 6, 7, 8, 21];

/// The calls that a listing shows as refused by 1 to 8 or 21.
fn refused_by_the_sheet(deck: &[u8]) -> Vec<usize> {
    let numbers = String::from_utf8(listing(deck)).unwrap();
    let calls = numbers.lines().filter(|line| !line.starts_with("deck "));
    let number = |line: &str| line.split(' ').nth(1).unwrap().parse().unwrap();
    let numbers = calls.map(number);
    let of_the_sheet = |number: &usize| OF_THE_SHEET.contains(number);
    numbers.filter(of_the_sheet).collect()
}

#[test]
fn every_refusal_of_a_sheet_has_a_cause_that_is_so() {
    let mut random = Random::new(0xD1A6_0001);
    let mut met = [0; 22];
    for _ in 0..20_000 {
        let deck = decks::any(&mut random);
        let numbers = refused_by_the_sheet(&deck);
        let found = found(&deck);
        let calls: Vec<&Finding> = found.iter().filter(|found| found.word != "deck").collect();
        let mut explained = Vec::new();
        for finding in calls {
            let number = usize::from(finding.refusal.number());
            explained.extend(vec![number; 1 + finding.more_calls]);
            met[number] += 1;
            assert!(!finding.causes.is_empty(), "{finding:?}");
            let brought = Brought {
                deck: &deck,
                call: finding.offset,
            };
            for cause in &finding.causes {
                let so = brought.bears_out(finding.refusal, cause);
                assert!(so, "{finding:?}");
            }
        }
        assert_eq!(explained, numbers);
    }
    let each = OF_THE_SHEET.into_iter().all(|number| met[number] > 0);
    assert!(each, "{met:?}");
}

fn stands_there(deck: &[u8], finding: &Finding, fault: &StopFault) -> bool {
    let number = finding.refusal.number();
    match fault {
        StopFault::UnknownByte(byte) => number == 18 && deck[finding.offset] == *byte,
        StopFault::CutCommand { found, .. } => {
            number == 19 && deck.len() - finding.offset == *found
        }
        StopFault::SecondPool => number == 20 && deck[finding.offset] == POOL,
        StopFault::FullList { .. } => {
            let lists = [CUT, HAZARD, STEP, COUPON, ELAPSED];
            number == 20 && lists.contains(&deck[finding.offset])
        }
        StopFault::LongDeck => number == 20 && deck.len() > MAX_DECK,
    }
}

#[test]
fn every_stop_has_its_cause() {
    let mut random = Random::new(0xD1A6_0002);
    let mut met = [0; 3];
    for round in 0..3_000 {
        let deck = match round % 10 {
            0 => decks::oversized(&mut random),
            _ => decks::any(&mut random),
        };
        let printed = String::from_utf8(listing(&deck)).unwrap();
        let last = printed.lines().last().unwrap_or_default();
        let found = found(&deck);
        let stop = found.last().filter(|finding| finding.word == "deck");
        let Some(finding) = stop else {
            assert!(!last.starts_with("deck "));
            continue;
        };
        let number = finding.refusal.number();
        assert_eq!(last, format!("deck {number} {}", finding.offset));
        met[usize::from(number - 18)] += 1;
        let Fault::Stop(fault) = &finding.causes[0].fault else {
            panic!("{finding:?}");
        };
        assert!(stands_there(&deck, finding, fault), "{finding:?}");
    }
    assert!(met.iter().all(|&count| count > 0), "{met:?}");
}

/// However many calls are refused before it.
#[test]
fn a_stop_is_told_behind_many_refusals() {
    let text = "open\npool 2 2 1 0 7\nopen\ncut 0\nopen\ncut 1\nopen\nhazard 1\nopen\nhazard 1 x 125\n";
    let told = explained(text);
    assert!(told.contains("line 10: the deck stops at byte 650"), "{told}");
    let more = explained(&text.replace("hazard 1\nopen\n", "hazard 1\nopen\nstep 1 1\nopen\n"));
    assert!(more.contains("and 1 more line with a refusal"), "{more}");
}
