//! The trial entries that the engine's program `trials` runs, as the model
//! answers them: one line an entry. The program's stored output is this text.
//!
//! Entries come as edges: one number of a trial runs through a few values
//! that follow one another, so that each refusal stands beside what is just
//! accepted. `tests/trials.rs` holds that no number can be moved unseen.

use crate::book;
use crate::deck::{Calls, CALLS};
use crate::packed;
use crate::refusal::Refusal;
use crate::register::{self, LIVE, UNISSUED, WITHDRAWN};
use crate::sheet::Sheet;
use crate::turns::{self, Turn};
use crate::walk::{row_length, Value, Walk};
use std::ops::RangeInclusive;

/// Units in the whole pool.
const B: u64 = 1_000_000_000;

/// The number of the sheet.
const NUMBER: u8 = 7;

/// Room for the longest lists that are tried: the figures of a sheet are
/// made for so many places and lent in part.
const ROOM: usize = 3_652;

/// Defines a struct of numbers, and a way to reach each of them.
macro_rules! numbers {
    ($(#[$about:meta])* $name:ident { $($(#[$said:meta])* $number:ident,)* }) => {
        $(#[$about])*
        #[derive(Clone, Copy, Debug, PartialEq, Eq)]
        pub struct $name {
            $($(#[$said])* pub $number: u64,)*
        }

        impl $name {
            /// Each number with its name.
            pub fn numbers(&mut self) -> Vec<(&'static str, &mut u64)> {
                vec![$((stringify!($number), &mut self.$number)),*]
            }

            /// The same but for one number.
            pub fn with(mut self, name: &str, value: u64) -> $name {
                let mut numbers = self.numbers().into_iter();
                *numbers.find(|(other, _)| *other == name).unwrap().1 = value;
                self
            }
        }
    };
}

numbers! {
    /// Every number of a trial: what is lent, and what is asked.
    Trial {
        names,
        steps,
        tranches,
        recovery,
        /// Lengths; 0 stands for what the pool asks for.
        attachments_lent,
        /// This one is told as it is.
        starts_lent,
        /// 0 stands for the names of each start that is lent.
        hazards_lent,
        discounts_lent,
        accruals_lent,
        elapsed_lent,
        coupons_lent,
        register_lent,
        defaults_lent,
        premiums_lent,
        row_lent,
        /// The first three attachment points. The next ones stand one apart,
        /// so that none of them can be moved.
        lowest,
        middle,
        highest,
        /// The first three starts of a period; the next ones stand one apart.
        start,
        second_start,
        other_starts,
        /// The first and third hazard, and all others of the first period.
        hazard,
        third_hazard,
        other_hazards,
        /// The first hazard of the second period, and the one behind it; the
        /// next ones stand a thousandth apart, so that no two periods are
        /// alike.
        next_hazard,
        later_hazards,
        /// The first discount, and all others.
        discount,
        other_discounts,
        /// The first and third accrual, and all others but the second, which is 0.
        accrual,
        third_accrual,
        other_accruals,
        /// 1: the elapsed fractions of the first three steps are those below.
        /// Otherwise they are 0, as all others are.
        has_elapsed,
        elapsed,
        second_elapsed,
        third_elapsed,
        /// The first and third coupon, and all others.
        coupon,
        third_coupon,
        other_coupons,
        /// The byte of the sheet's number.
        byte,
        /// 1: walk and rows are made up. Otherwise the walk is opened.
        made_up,
        /// 1: the made-up walk is open.
        open,
        number,
        position,
        /// Operands: steps back, tranche and count, steps forward.
        back,
        tranche,
        count,
        forward,
        /// D of tranche 0 at the counts 0 and 1, of all of tranche 1, of the
        /// index at the counts 0 and 1, and at the last.
        own_default,
        own_next_default,
        other_defaults,
        index_default,
        index_next_default,
        last_default,
        /// A at the same places; tranche 1 and all other places alike.
        own_premium,
        own_next_premium,
        other_premiums,
        index_premium,
        index_next_premium,
        last_premium,
    }
}

/// Two tranches on three names and three steps, walked from end to root.
pub const WALKED: Trial = Trial {
    names: 3,
    steps: 3,
    tranches: 2,
    recovery: 400_000_001,
    attachments_lent: 0,
    starts_lent: 1,
    hazards_lent: 0,
    discounts_lent: 0,
    accruals_lent: 0,
    elapsed_lent: 0,
    coupons_lent: 0,
    register_lent: 256,
    defaults_lent: 0,
    premiums_lent: 0,
    row_lent: 0,
    lowest: 0,
    middle: 300_000_000,
    highest: 700_000_000,
    start: 1,
    second_start: 2,
    other_starts: 3,
    hazard: 100_000_000,
    third_hazard: 700_000_000,
    other_hazards: 200_000_000,
    next_hazard: 150_000_000,
    later_hazards: 50_000_000,
    discount: 950_000_000,
    other_discounts: 990_000_000,
    accrual: 250_000_000,
    third_accrual: B,
    other_accruals: 950_000_000,
    has_elapsed: 0,
    elapsed: 200_000_000,
    second_elapsed: 600_000_000,
    third_elapsed: 350_000_000,
    coupon: 1_000_000,
    third_coupon: 500_000,
    other_coupons: 700_000,
    byte: LIVE as u64,
    made_up: 0,
    open: 1,
    number: NUMBER as u64,
    position: 2,
    back: 3,
    tranche: 0,
    count: 0,
    forward: 3,
    own_default: 200_000_999,
    own_next_default: 1_000,
    other_defaults: 3_000,
    index_default: 200_001_999,
    index_next_default: 2_000,
    last_default: 0,
    own_premium: 6_000_000,
    own_next_premium: 5_000_000,
    other_premiums: 7_000_000,
    index_premium: 8_000_000,
    index_next_premium: 5_000_000,
    last_premium: 9_000_000,
};

/// The same sheet, with a walk and rows that the caller makes up, one step
/// before the end.
pub const MADE_UP: Trial = Trial {
    made_up: 1,
    back: 0,
    ..WALKED
};

/// Jumps in whole units of a coupon: with these D, what a default pays makes
/// up for what it ends, so a jump is A at count 0 less A at count 1.
const JUMPS: Trial = Trial {
    coupon: 1,
    third_coupon: 1,
    ..MADE_UP
};

/// Small hazards, so that the last of many steps still counts.
const MANY_STEPS: Trial = Trial {
    back: 3_650,
    forward: 3_650,
    hazard: 100_000,
    third_hazard: 300_000,
    other_hazards: 200_000,
    other_discounts: 999_900_000,
    other_accruals: 2_000_004,
    tranche: 1,
    ..WALKED
};

/// The sheet with elapsed fractions.
const EARNED: Trial = Trial {
    has_elapsed: 1,
    ..WALKED
};

/// One name that defaults in the next step: the index has no premium but what
/// was earned up to that.
const ONE_DEFAULT: Trial = Trial {
    names: 1,
    hazard: B,
    tranche: 2,
    ..EARNED
};

/// A number of a trial, and the values it takes in turn.
pub struct Edge {
    pub number: &'static str,
    pub values: RangeInclusive<u64>,
    pub start: Trial,
}

impl Edge {
    /// The trial at a value.
    pub fn at(&self, value: u64) -> Trial {
        self.start.with(self.number, value)
    }

    /// The start of its lines: the number's name in words, and its value.
    fn words(&self, value: u64) -> String {
        format!("{:18} {value}", self.number.replace('_', " "))
    }
}

fn edge(number: &'static str, values: RangeInclusive<u64>, start: Trial) -> Edge {
    Edge {
        number,
        values,
        start,
    }
}

/// All edges, by the refusal that stands at them.
pub fn edges() -> Vec<Edge> {
    [
        pool(),
        lengths(),
        periods(),
        figures(),
        premiums(),
        elapsed(),
        bytes(),
        walks(),
        default_ceilings(),
        premium_ceilings(),
        operands(),
        scales(),
        halves(),
    ]
    .into_iter()
    .flatten()
    .collect()
}

/// 1.
fn pool() -> Vec<Edge> {
    let high_count = Trial {
        tranche: 1,
        count: 124,
        ..WALKED
    };
    let one_step = Trial {
        back: 1,
        forward: 1,
        ..WALKED
    };
    // The index of one tranche, and of eight.
    let first = Trial {
        tranche: 1,
        ..WALKED
    };
    let eighth = Trial {
        tranche: 8,
        ..WALKED
    };
    vec![
        edge("names", 0..=1, WALKED),
        edge("names", 125..=126, high_count),
        edge("steps", 0..=1, one_step),
        edge("steps", 3_650..=3_651, MANY_STEPS),
        edge("tranches", 0..=1, first),
        edge("tranches", 8..=9, eighth),
    ]
}

/// 2: one fewer, right, one more.
fn lengths() -> Vec<Edge> {
    vec![
        edge("attachments_lent", 2..=4, WALKED),
        edge("hazards_lent", 2..=4, WALKED),
        edge("discounts_lent", 2..=4, WALKED),
        edge("accruals_lent", 2..=4, WALKED),
        edge("coupons_lent", 2..=4, WALKED),
        edge("register_lent", 255..=257, WALKED),
        edge("defaults_lent", 11..=13, WALKED),
        edge("premiums_lent", 11..=13, WALKED),
        edge("row_lent", 3..=5, WALKED),
    ]
}

/// 2, 25 and 5, of the periods.
fn periods() -> Vec<Edge> {
    let starts = |starts_lent| Trial {
        starts_lent,
        ..WALKED
    };
    let hazards = |hazards_lent| Trial {
        hazards_lent,
        ..WALKED
    };
    // A chance of one leaves nobody at count 0, but only after one step.
    let last = Trial {
        second_start: 3,
        ..starts(2)
    };
    // So many steps that 17 starts would be on the tree.
    let many = Trial {
        steps: 17,
        back: 17,
        forward: 17,
        other_accruals: 100_000_000,
        tranche: 2,
        ..WALKED
    };
    vec![
        edge("starts_lent", 0..=2, hazards(3)),
        edge("starts_lent", 1..=3, hazards(6)),
        edge("starts_lent", 16..=17, many),
        edge("hazards_lent", 5..=7, starts(2)),
        edge("start", 0..=2, WALKED),
        edge("second_start", 1..=4, starts(2)),
        edge("other_starts", 2..=4, starts(3)),
        edge("next_hazard", B..=B + 1, last),
    ]
}

/// 3 to 6.
fn figures() -> Vec<Edge> {
    let sure = Trial {
        other_hazards: B,
        ..WALKED
    };
    let all_sure = Trial { hazard: B, ..sure };
    let second = Trial {
        tranche: 1,
        ..WALKED
    };
    let index = Trial {
        tranche: 2,
        ..WALKED
    };
    let late = Trial { count: 2, ..index };
    vec![
        edge("recovery", B..=B + 1, late),
        edge("lowest", 299_999_999..=300_000_000, WALKED),
        edge("middle", 0..=1, WALKED),
        edge("middle", 699_999_999..=700_000_000, second),
        edge("highest", B..=B + 1, second),
        edge("hazard", B..=B + 1, sure),
        edge("third_hazard", B..=B + 1, all_sure),
        edge("discount", 0..=1, index),
        edge("discount", B..=B + 1, index),
    ]
}

/// 7 and 8.
fn premiums() -> Vec<Edge> {
    let index = Trial {
        tranche: 2,
        ..WALKED
    };
    // Ten times B but for 450,000,000, besides the first accrual.
    let full = Trial {
        steps: 12,
        back: 12,
        ..index
    };
    vec![
        edge("accrual", B..=B + 1, index),
        edge("accrual", 450_000_000..=450_000_001, full),
        edge("third_accrual", 0..=1, index),
        edge("coupon", 10_000_000..=10_000_001, WALKED),
        edge("third_coupon", 10_000_000..=10_000_001, index),
    ]
}

/// Elapsed fractions: 2, values, 21, and 7 and 8 beside it.
fn elapsed() -> Vec<Edge> {
    let index = Trial {
        tranche: 2,
        ..EARNED
    };
    // Back by 1 leads to the node before step 3.
    let third = Trial {
        back: 1,
        ..ONE_DEFAULT
    };
    let second = Trial {
        back: 2,
        ..ONE_DEFAULT
    };
    let dear = Trial {
        coupon: 10_000_001,
        ..EARNED
    };
    vec![
        edge("elapsed_lent", 2..=4, EARNED),
        edge("tranche", 0..=3, EARNED),
        edge("back", 1..=4, ONE_DEFAULT),
        edge("elapsed", 250_000_000..=250_000_001, ONE_DEFAULT),
        // Step 2 is no premium date, the next one is step 3.
        edge("second_elapsed", B..=B + 1, second),
        edge("third_elapsed", B..=B + 1, third),
        edge("third_accrual", 599_999_999..=600_000_000, index),
        edge("third_accrual", 0..=1, EARNED),
        edge("elapsed", 250_000_000..=250_000_001, dear),
    ]
}

/// 9 and 10.
fn bytes() -> Vec<Edge> {
    let byte = |values| edge("byte", values, WALKED);
    vec![byte(0x00..=0x00), byte(0xA4..=0xA6), byte(0xFE..=0xFF)]
}

/// 11, and 12 beside it: at the last step nearly no premium is left, so these
/// rows are over their ceilings there.
fn walks() -> Vec<Edge> {
    vec![
        edge("open", 0..=1, MADE_UP),
        edge("number", 6..=8, MADE_UP),
        edge("position", 2..=4, MADE_UP),
    ]
}

/// The made-up rows asked at the next count of tranche 0, and at the first,
/// the next and the last count of the index.
fn made_up_nodes() -> [Trial; 4] {
    let asked = |tranche, count| Trial {
        tranche,
        count,
        ..MADE_UP
    };
    [asked(0, 1), asked(2, 0), asked(2, 1), asked(2, 3)]
}

/// 12 for D: the width less what is lost.
fn default_ceilings() -> Vec<Edge> {
    let [next, index, index_next, last] = made_up_nodes();
    vec![
        edge("own_default", 300_000_000..=300_000_001, MADE_UP),
        edge("own_next_default", 100_000_001..=100_000_002, next),
        edge("index_default", 599_999_999..=600_000_000, index),
        edge("index_next_default", 400_000_000..=400_000_001, index_next),
        edge("last_default", 0..=1, last),
    ]
}

/// 12 for A: the accruals to come, a unit for each name that is left, and two
/// for each step.
fn premium_ceilings() -> Vec<Edge> {
    let root = Trial {
        position: 0,
        ..MADE_UP
    };
    let [next, index, index_next, last] = made_up_nodes();
    vec![
        edge("own_premium", B + 5..=B + 6, MADE_UP),
        edge("own_premium", 1_250_000_009..=1_250_000_010, root),
        edge("own_next_premium", B + 4..=B + 5, next),
        edge("index_premium", B + 5..=B + 6, index),
        edge("index_next_premium", B + 4..=B + 5, index_next),
        edge("last_premium", B + 2..=B + 3, last),
    ]
}

/// 13 and 14.
fn operands() -> Vec<Edge> {
    let second = Trial {
        tranche: 1,
        ..MADE_UP
    };
    vec![
        edge("back", 0..=3, MADE_UP),
        edge("forward", 0..=1, WALKED),
        edge("forward", 3..=4, WALKED),
        edge("tranche", 2..=3, MADE_UP),
        edge("count", 2..=4, second),
    ]
}

/// A tranche whose jump is `own`, beside an index whose jump is `index`.
fn jumps(own: i64, index: i64) -> Trial {
    let moved = |from: u64, by: i64| from.checked_add_signed(by).unwrap();
    Trial {
        own_premium: moved(JUMPS.own_next_premium, own),
        index_premium: moved(JUMPS.index_next_premium, index),
        ..JUMPS
    }
}

/// 15 and 16, for jumps of either sign.
fn scales() -> Vec<Edge> {
    let own = |values, index| edge("own_premium", values, jumps(0, index));
    vec![
        edge("index_premium", 4_999_999..=5_000_001, jumps(999_999, 0)),
        own(5_999_999..=6_000_000, 1),
        own(5_999_999..=6_000_000, -1),
        own(4_000_000..=4_000_001, 1),
        own(4_000_000..=4_000_001, -1),
    ]
}

/// Halves of a millionth go away from zero.
fn halves() -> Vec<Edge> {
    let index = |values, own| edge("index_premium", values, jumps(own, 0));
    vec![
        index(7_000_000..=7_000_001, 1),
        index(7_000_000..=7_000_001, 3),
        index(7_000_000..=7_000_001, -1),
        index(7_000_000..=7_000_001, -3),
        index(2_999_999..=3_000_000, 1),
        index(2_999_999..=3_000_000, -1),
    ]
}

/// All lines.
pub fn listing() -> String {
    listing_by(&CALLS)
}

/// The same by other calls, such as the engine's. Those that no deck makes
/// stay the model's.
pub fn listing_by(calls: &Calls) -> String {
    let mut text = String::new();
    for edge in edges() {
        for value in edge.values.clone() {
            let answers = answers_by(calls, &edge.at(value));
            text.push_str(&format!("{}{answers}\n", edge.words(value)));
        }
    }
    text.push_str(&register_lines(calls));
    text.push_str(&cut_lines());
    text.push_str(&packed_lines(packed::read, packed::write));
    text.push_str(&book_lines(book::book));
    text.push_str(&turn_lines(turns::turns));
    text
}

/// A word with the number of a call, and its figures if that is 0.
fn field(word: &str, answer: Result<Vec<i128>, Refusal>) -> String {
    match answer {
        Ok(figures) => {
            let figures: String = figures.iter().map(|figure| format!(" {figure}")).collect();
            format!(" {word} 0{figures}")
        }
        Err(refusal) => format!(" {word} {}", refusal.number()),
    }
}

fn value_figures(value: Value) -> Vec<i128> {
    vec![value.default as i128, value.premium as i128, value.net]
}

/// Open unless the walk is made up, then back, value, ratio and forward, in
/// one line.
pub fn answers(trial: &Trial) -> String {
    answers_by(&CALLS, trial)
}

fn answers_by(calls: &Calls, trial: &Trial) -> String {
    let sheet = sheet(trial);
    let mut register = vec![WITHDRAWN; trial.register_lent as usize];
    register[usize::from(NUMBER)] = trial.byte as u8;
    let (mut d, mut a) = rows(trial, &sheet);
    let mut line = String::new();
    let mut walk = Walk::fresh();
    if trial.made_up == 1 {
        walk = Walk {
            open: trial.open == 1,
            number: trial.number as u8,
            position: trial.position as usize,
        };
    } else {
        let (opened, open) = (calls.open)(walk, &sheet, &register, &mut d, &mut a);
        walk = opened;
        line.push_str(&field("open", open.map(|()| vec![])));
    }
    let steps = trial.back as usize;
    let (walk, back) = (calls.back)(walk, &sheet, &register, steps, &mut d, &mut a);
    let (tranche, count) = (trial.tranche as usize, trial.count as usize);
    let (walk, value) = (calls.value)(walk, &sheet, &register, tranche, count, &d, &a);
    let (_, ratio) = (calls.hedge_ratio)(walk, &sheet, &register, tranche, count, &d, &a);
    line.push_str(&field("back", back.map(|position| vec![position as i128])));
    line.push_str(&field("value", value.map(value_figures)));
    line.push_str(&field("ratio", ratio.map(|ratio| vec![ratio])));
    line.push_str(&forward(calls, trial, &sheet, &register));
    line
}

/// Forward with Q(0), Q(1) and Q(n), on a row that is not zero.
fn forward(calls: &Calls, trial: &Trial, sheet: &Sheet, register: &[u8]) -> String {
    let mut row = vec![7; length(trial.row_lent, sheet.names + 1)];
    let answer = (calls.forward)(sheet, register, trial.forward as usize, &mut row);
    let figures = |()| {
        [0, 1, sheet.names]
            .map(|count| i128::from(row[count]))
            .to_vec()
    };
    field("forward", answer.map(figures))
}

/// A length as told, or the right one.
fn length(told: u64, right: usize) -> usize {
    if told == 0 {
        right
    } else {
        told as usize
    }
}

fn sheet(trial: &Trial) -> Sheet {
    let (names, steps) = (trial.names as usize, trial.steps as usize);
    let tranches = trial.tranches as usize;
    let mut attachments = vec![trial.lowest, trial.middle, trial.highest];
    attachments.extend(700_000_001..=700_000_009);
    attachments.truncate(length(trial.attachments_lent, tranches + 1));
    Sheet {
        number: NUMBER,
        names,
        steps,
        tranches,
        recovery: trial.recovery,
        attachments,
        starts: starts(trial),
        hazards: hazards(trial),
        discounts: list(
            trial.other_discounts,
            [Some(trial.discount), None, None],
            length(trial.discounts_lent, steps),
        ),
        accruals: list(
            trial.other_accruals,
            [Some(trial.accrual), Some(0), Some(trial.third_accrual)],
            length(trial.accruals_lent, steps),
        ),
        elapsed: elapsed_fractions(trial),
        coupons: list(
            trial.other_coupons,
            [Some(trial.coupon), None, Some(trial.third_coupon)],
            length(trial.coupons_lent, tranches + 1),
        ),
    }
}

fn starts(trial: &Trial) -> Vec<u64> {
    let mut starts = vec![trial.start, trial.second_start];
    starts.extend((0..15).map(|place| trial.other_starts + place));
    starts.truncate(trial.starts_lent as usize);
    starts
}

/// Those of the first period, and behind them those of the others.
fn hazards(trial: &Trial) -> Vec<u64> {
    let (names, periods) = (trial.names as usize, trial.starts_lent as usize);
    let first = [Some(trial.hazard), None, Some(trial.third_hazard)];
    let mut hazards = list(trial.other_hazards, first, names);
    hazards.push(trial.next_hazard);
    hazards.extend((0..ROOM as u64).map(|place| trial.later_hazards + 1_000_000 * place));
    hazards.truncate(length(trial.hazards_lent, names * periods));
    hazards
}

fn elapsed_fractions(trial: &Trial) -> Vec<u64> {
    let told = [trial.elapsed, trial.second_elapsed, trial.third_elapsed];
    let first = told.map(|fraction| Some(fraction).filter(|_| trial.has_elapsed == 1));
    let length = length(trial.elapsed_lent, trial.steps as usize);
    list(0, first, length)
}

/// One figure throughout, but for some of the first three places.
fn list(others: u64, first: [Option<u64>; 3], length: usize) -> Vec<u64> {
    let mut list = vec![others; ROOM];
    for (place, figure) in list.iter_mut().zip(first) {
        *place = figure.unwrap_or(others);
    }
    list.truncate(length);
    list
}

/// The lent rows; a made-up walk takes them as they are.
fn rows(trial: &Trial, sheet: &Sheet) -> (Vec<u64>, Vec<u64>) {
    let (f, g) = (trial.other_defaults, trial.other_premiums);
    let mut d = vec![0; ROOM];
    let mut a = vec![g; ROOM];
    d[..4].copy_from_slice(&[trial.own_default, trial.own_next_default, 0, 0]);
    d[4..8].fill(f);
    d[8..10].copy_from_slice(&[trial.index_default, trial.index_next_default]);
    d[11] = trial.last_default;
    a[..2].copy_from_slice(&[trial.own_premium, trial.own_next_premium]);
    a[8..10].copy_from_slice(&[trial.index_premium, trial.index_next_premium]);
    a[11] = trial.last_premium;
    d.truncate(length(trial.defaults_lent, row_length(sheet)));
    a.truncate(length(trial.premiums_lent, row_length(sheet)));
    (d, a)
}

/// 2, 9, 10 and 17: issue and withdraw, with the byte that each leaves.
fn register_lines(calls: &Calls) -> String {
    let mut text = String::new();
    let mut line = |word: &str, value: u64, length: usize, issued: u8, withdrawn: u8| {
        let mut register = vec![WITHDRAWN; length];
        register[usize::from(NUMBER)] = issued;
        let issue = (calls.issue)(&mut register, NUMBER);
        let after_issue = register[usize::from(NUMBER)];
        register[usize::from(NUMBER)] = withdrawn;
        let withdraw = (calls.withdraw)(&mut register, NUMBER);
        let after_withdraw = register[usize::from(NUMBER)];
        let number = |answer: Result<(), Refusal>| answer.err().map_or(0, Refusal::number);
        let (issue, withdraw) = (number(issue), number(withdraw));
        text.push_str(&format!(
            "{word:18} {value} issue {issue} {after_issue} withdraw {withdraw} {after_withdraw}\n"
        ));
    };
    for length in 255..=257 {
        line("register lent", length as u64, length, UNISSUED, LIVE);
    }
    for byte in [0x00, 0xA4, 0xA5, 0xA6, 0xFE, 0xFF] {
        line("byte", u64::from(byte), 256, byte, byte);
    }
    text
}

/// What a cut write may leave: 1 where it may.
fn cut_lines() -> String {
    let mut text = String::new();
    let mut line = |old: u8, new: u8, found: u8| {
        let may = u8::from(register::cut_write(old, new).contains(&found));
        text.push_str(&format!("left {old} {new} {found} {may}\n"));
    };
    for found in [0x84, LIVE, WITHDRAWN, UNISSUED, 0x02] {
        line(LIVE, WITHDRAWN, found);
    }
    for found in [0xAD, UNISSUED, LIVE, 0x21, WITHDRAWN] {
        line(UNISSUED, LIVE, found);
    }
    text
}

/// Images of four bytes: values at the ends and at the limit, then halves that
/// are no digit, at each place and beside a value over the limit.
const IMAGES: [[u8; 4]; 14] = [
    [0x00, 0x00, 0x00, 0x00],
    [0x01, 0x00, 0x00, 0x00],
    [0x01, 0x23, 0x45, 0x67],
    [0x09, 0x99, 0x99, 0x99],
    [0x10, 0x00, 0x00, 0x00],
    [0x10, 0x00, 0x00, 0x01],
    [0x99, 0x99, 0x99, 0x99],
    [0x10, 0x00, 0x00, 0x0A],
    [0x10, 0x00, 0x00, 0xA0],
    [0x9A, 0x00, 0x00, 0x00],
    [0xA0, 0x00, 0x00, 0x00],
    [0x09, 0x0A, 0x00, 0x00],
    [0x09, 0x00, 0xA0, 0x00],
    [0xFF, 0xFF, 0xFF, 0xFF],
];

/// Images of other lengths, the last two with no digit.
const ODD_IMAGES: [&[u8]; 5] = [
    &[0x01, 0x00, 0x00],
    &[0x01, 0x00, 0x00, 0x00, 0x00],
    &[],
    &[0xAA; 3],
    &[0xAA; 5],
];

/// Coupons, and the length of the buffer that each is to be written in.
const WRITINGS: [(u64, usize); 12] = [
    (0, 4),
    (1, 4),
    (1_234_567, 4),
    (9_999_999, 4),
    (10_000_000, 4),
    (10_000_001, 4),
    (u64::MAX, 4),
    (1, 3),
    (1, 5),
    (10_000_001, 3),
    (10_000_001, 5),
    (1, 0),
];

/// 2, 30 and 8: packed coupons read, and written with the bytes that each
/// leaves.
pub fn packed_lines(
    read: fn(&[u8]) -> Result<u64, Refusal>,
    write: fn(&mut [u8], u64) -> Result<(), Refusal>,
) -> String {
    let listed = |bytes: &[u8]| -> String {
        let bytes = bytes.iter().map(|byte| format!(" {byte}"));
        bytes.collect()
    };
    let mut text = String::new();
    let images = IMAGES.iter().map(|image| &image[..]);
    for image in images.chain(ODD_IMAGES) {
        let answer = field("read", read(image).map(|coupon| vec![coupon.into()]));
        text.push_str(&format!("packed{}{answer}\n", listed(image)));
    }
    for (coupon, length) in WRITINGS {
        let mut buffer = vec![0xFF; length];
        let answer = field("write", write(&mut buffer, coupon).map(|()| vec![]));
        let left = listed(&buffer);
        text.push_str(&format!("coupon {coupon} lent {length}{answer}{left}\n"));
    }
    text
}

/// A book that is tried: how many bytes are lent, how long the two lists are,
/// the first position of them, and all others. A position is a nominal and a W.
type Book = (usize, (usize, usize), (i64, i64), (i64, i64));

/// The most of a W.
const W: i64 = 200_000_000_000_000_000;

/// Signs and sums, each figure at its ends, lines of many lengths, and what is
/// refused at both sides of its limit.
const BOOKS: [Book; 54] = [
    (96, (0, 0), (0, 0), (0, 0)),
    (96, (1, 1), (1, 1), (0, 0)),
    (96, (1, 1), (-1, 1), (0, 0)),
    (96, (1, 1), (1, -1), (0, 0)),
    (96, (1, 1), (-1, -1), (0, 0)),
    (96, (2, 2), (1, 5), (-1, 5)),
    (96, (3, 3), (2, -3), (0, -5)),
    // 28 bytes.
    (96, (2, 2), (1_000_000, 1), (-1_000, 1)),
    // Carried and borrowed at thousands of millions and at their squares.
    (96, (2, 2), (1, 999_999_999), (1, 1)),
    (96, (2, 2), (1, 1_000_000_000), (0, 0)),
    (96, (2, 2), (1, 1_000_000_000), (-1, 1)),
    (96, (2, 2), (-1, 1_000_000_000), (1, 1)),
    (96, (2, 2), (1_000, 1_000_000_000_000_000), (-1, 1)),
    (96, (2, 2), (-1_000, 1_000_000_000_000_000), (1, 1)),
    (96, (2, 2), (1_000, 1_000_000_000_000_000), (0, 7)),
    (96, (2, 2), (1_000_000, 1_000_000_000_000), (1, 1)),
    (96, (2, 2), (999_999, 1_000_001_000_001), (0, 0)),
    (96, (2, 2), (999_999, 1_000_001_000_001), (1, 1)),
    (96, (6, 6), (1, W - 1), (1, W - 1)),
    (96, (1, 1), (1_000_000, 1_000_000_001_000), (0, 0)),
    (96, (2, 2), (1_000_000, 9_223_372_036_854), (1, 775_808)),
    (96, (2, 2), (-1_000_000, 9_223_372_036_854), (-1, 775_809)),
    (96, (2, 2), (1_000_000, 18_446_744_073_709), (1, 551_616)),
    (96, (2, 2), (1_000_000, W), (-1_000_000, W)),
    (96, (4_096, 4_096), (1_000_000, W), (1_000_000, W)),
    (96, (4_096, 4_096), (-1_000_000, W), (1_000_000, -W)),
    (96, (4_096, 4_096), (-1_000_000, -W), (1_000_000, -W)),
    (96, (4_096, 4_096), (-1_000_000, W), (1_000_000, W)),
    (96, (4_095, 4_095), (1, 1), (-1, -1)),
    // 28: more than there may be, and lists of unlike length.
    (96, (4_097, 4_097), (0, 0), (0, 0)),
    (96, (4_096, 4_095), (0, 0), (0, 0)),
    (96, (4_095, 4_096), (0, 0), (0, 0)),
    (96, (1, 2), (1, 1), (1, 1)),
    (96, (2, 1), (1, 1), (1, 1)),
    (96, (0, 1), (1, 1), (0, 0)),
    // 28: nominals and values beyond their limits.
    (96, (1, 1), (1_000_001, 1), (0, 0)),
    (96, (1, 1), (-1_000_001, 1), (0, 0)),
    (96, (1, 1), (1, W + 1), (0, 0)),
    (96, (1, 1), (1, -W - 1), (0, 0)),
    (96, (1, 1), (1_000_001, 0), (0, 0)),
    (96, (1, 1), (0, W + 1), (0, 0)),
    (96, (2, 2), (1, 1), (1_000_001, 0)),
    (96, (2, 2), (1, 1), (0, W + 1)),
    (96, (1, 1), (i64::MIN, 1), (0, 0)),
    (96, (1, 1), (1, i64::MIN), (0, 0)),
    (96, (1, 1), (i64::MAX, 1), (0, 0)),
    (96, (1, 1), (1, i64::MAX), (0, 0)),
    // 2, also beside 28.
    (95, (1, 1), (1, 1), (0, 0)),
    (97, (1, 1), (1, 1), (0, 0)),
    (0, (1, 1), (1, 1), (0, 0)),
    (0, (0, 0), (0, 0), (0, 0)),
    (95, (1, 2), (1_000_001, 1), (0, 0)),
    (97, (4_097, 4_097), (0, 0), (0, 0)),
    (97, (1, 1), (1, -W - 1), (0, 0)),
];

/// A call for a book: nominals, values, and the bytes for its line.
type BookCall = fn(&[i64], &[i64], &mut [u8]) -> Result<usize, Refusal>;

/// 2 and 28: books with their lines, and the sum of what is left of the lent
/// bytes, each times its place counted from 1.
pub fn book_lines(book: BookCall) -> String {
    let mut text = String::new();
    for (lent, (nominals, values), first, second) in BOOKS {
        let mut out = vec![0xFF; lent];
        text.push_str(&format!("book lent {lent} positions {nominals} {values}"));
        let nominals = list_of(nominals, first.0, second.0);
        let values = list_of(values, first.1, second.1);
        match book(&nominals, &values, &mut out) {
            Ok(length) => {
                let line = String::from_utf8_lossy(&out[..length]);
                text.push_str(&format!(" answer 0 bytes {length}\n{line}"));
            }
            Err(refusal) => text.push_str(&format!(" answer {}\n", refusal.number())),
        }
        let weighed = out
            .iter()
            .zip(1..)
            .map(|(&byte, place)| place * u64::from(byte));
        text.push_str(&format!("left {}\n", weighed.sum::<u64>()));
    }
    text
}

/// The first number, and another at every further place.
fn list_of(length: usize, first: i64, others: i64) -> Vec<i64> {
    let mut list = vec![others; length];
    list.iter_mut().take(1).for_each(|number| *number = first);
    list
}

/// A call for turns that is tried: the steps left, the place served last, and
/// how many bytes are lent.
type Turns<'a> = (&'a [u16], usize, usize);

/// The order: after the place, round the table, past walks that have none left;
/// and where it ends.
const TURN_ORDERS: [Turns; 15] = [
    (&[2, 2, 2], 0, 3),
    (&[2, 2, 2], 1, 3),
    (&[2, 2, 2], 2, 3),
    (&[2, 2, 2], 2, 1),
    (&[2, 2, 2], 1, 2),
    (&[2, 2, 2], 0, 4),
    (&[0, 3, 0], 1, 5),
    (&[3, 1, 0], 2, 9),
    (&[1, 0, 2, 1], 0, 9),
    (&[1, 0, 2, 1], 1, 2),
    (&[0, 0, 0, 5], 1, 2),
    (&[5, 0, 0, 0], 1, 2),
    (&[0, 0, 0], 1, 4),
    (&[2, 2, 2], 1, 0),
    // 29 places.
    (&[20, 20], 0, 29),
];

/// Calls on one table, in turn: of the fourth 29 is answered, and the second
/// and the last write nothing.
const TURN_CALLS: (&[u16], usize, [usize; 7]) = (&[9, 2, 1, 3], 3, [3, 0, 3, 65_536, 3, 9, 9]);

/// 29: each number at both sides of its limit, alone and beside others.
const TURN_LIMITS: [Turns; 21] = [
    (&[], 0, 3),
    (&[1], 0, 3),
    (&[1; 16], 15, 18),
    (&[1; 17], 0, 3),
    (&[1; 17], 16, 3),
    (&[1, 1, 1], 3, 4),
    (&[1, 1, 1], 4, 4),
    (&[1, 1, 1], usize::MAX, 4),
    (&[3_650, 1, 1], 2, 4),
    (&[3_651, 1, 1], 2, 4),
    (&[1, 3_650, 1], 2, 4),
    (&[1, 3_651, 1], 2, 4),
    (&[1, 1, 3_650], 2, 4),
    (&[1, 1, 3_651], 2, 4),
    (&[65_535; 3], 2, 4),
    (&[1, 1, 1], 2, 65_535),
    (&[1, 1, 1], 2, 65_536),
    (&[3_650; 16], 15, 58_400),
    (&[3_650; 16], 15, 65_535),
    (&[3_651; 17], 17, 65_536),
    (&[], 0, 0),
];

/// A call for turns: table, place served last, and list.
type TurnCall = fn(&mut [Turn], &mut usize, &mut [u8]) -> Result<usize, Refusal>;

/// 29: turns with the first 18 bytes of the list that they leave, the sum of all
/// its bytes, and the steps left.
pub fn turn_lines(turns: TurnCall) -> String {
    let table = |steps: &[u16]| -> Vec<Turn> {
        let walk = Walk::fresh();
        steps.iter().map(|&left| Turn { walk, left }).collect()
    };
    let once =
        |&(steps, mut place, lent): &Turns| turn_line(turns, &mut table(steps), &mut place, lent);
    let (steps, mut place, lists) = TURN_CALLS;
    let mut one_table = table(steps);
    let calls = lists.map(|lent| turn_line(turns, &mut one_table, &mut place, lent));
    let orders = TURN_ORDERS.iter().map(once);
    orders
        .chain(calls)
        .chain(TURN_LIMITS.iter().map(once))
        .collect()
}

fn turn_line(turns: TurnCall, table: &mut [Turn], place: &mut usize, lent: usize) -> String {
    let listed = |numbers: &mut dyn Iterator<Item = u16>| -> String {
        numbers.map(|number| format!(" {number}")).collect()
    };
    let steps = |table: &[Turn]| listed(&mut table.iter().map(|turn| turn.left));
    let before = format!("turns steps{} place {place} lent {lent}", steps(table));
    let mut list = vec![0xFF; lent];
    let answer = match turns(table, place, &mut list) {
        Ok(count) => format!("0 written {count} last {place}"),
        Err(refusal) => refusal.number().to_string(),
    };
    let first = listed(&mut list.iter().take(18).map(|&byte| byte.into()));
    let sum: u64 = list.iter().map(|&byte| u64::from(byte)).sum();
    let left = steps(table);
    format!("{before} answer {answer} list{first} sum {sum} left{left}\n")
}
