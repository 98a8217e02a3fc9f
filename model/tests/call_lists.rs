//! Random lists of issue, withdraw, open, back and value calls from a blank
//! register and a fresh walk, refused calls included (document 01, end of
//! "Walking back"): what must be found after every call of such a list.

mod common;

use common::{spanning_sheet, Random};
use lavroudem_model::exact;
use lavroudem_model::natural::Natural;
use lavroudem_model::refusal::Refusal;
use lavroudem_model::register::{blank, issue, withdraw};
use lavroudem_model::sheet::{check, Sheet};
use lavroudem_model::tree::{first_over_ceiling, place, Rows};
use lavroudem_model::walk::{self, row_length, Walk};

const LISTS: usize = 600;
const CALLS: usize = 60;

/// Two lent rows.
#[derive(Clone, Debug, PartialEq)]
struct Pair {
    default_row: Vec<u64>,
    premium_row: Vec<u64>,
}

impl Pair {
    fn zero(sheet: &Sheet) -> Pair {
        let row = vec![0; row_length(sheet)];
        Pair {
            default_row: row.clone(),
            premium_row: row,
        }
    }

    /// Any content, most often of the right length.
    fn any(random: &mut Random, sheet: &Sheet) -> Pair {
        let mut row = || {
            let length = match random.between(0, 9) {
                0 => random.between(0, 30) as usize,
                _ => row_length(sheet),
            };
            let bits = random.between(0, 64) as u32;
            let mut entry = || random.draw().checked_shr(bits).unwrap_or(0);
            (0..length).map(|_| entry()).collect()
        };
        Pair {
            default_row: row(),
            premium_row: row(),
        }
    }

    fn fits(&self, sheet: &Sheet) -> bool {
        let length = row_length(sheet);
        self.default_row.len() == length && self.premium_row.len() == length
    }

    fn is_over_ceiling(&self, sheet: &Sheet, position: usize) -> bool {
        let widened = |row: &[u64]| row.iter().map(|&entry| u128::from(entry)).collect();
        let rows = Rows {
            default_row: widened(&self.default_row),
            premium_row: widened(&self.premium_row),
        };
        first_over_ceiling(sheet, &rows, position).is_some()
    }
}

/// A sheet with the exact legs of all its nodes: by position, then by place
/// in the row.
struct Subject {
    sheet: Sheet,
    exact: Vec<Vec<(Natural, Natural)>>,
}

impl Subject {
    fn new(sheet: Sheet) -> Subject {
        assert_eq!(check(&sheet), Ok(()));
        let mut by_position = Vec::new();
        for position in 0..=sheet.steps {
            let mut nodes = Vec::new();
            for tranche in 0..=sheet.index() {
                for count in 0..=sheet.names {
                    nodes.push((
                        exact::default_leg(&sheet, position, tranche, count),
                        exact::premium_leg(&sheet, position, tranche, count),
                    ));
                }
            }
            by_position.push(nodes);
        }
        Subject {
            sheet,
            exact: by_position,
        }
    }
}

/// Sheets are named by their place among the subjects.
#[derive(Clone, Copy, Debug, PartialEq)]
enum Call {
    Issue(u8),
    Withdraw(u8),
    Open(usize),
    Back(usize, usize),
    Value(usize, usize, usize),
}

/// How often each thing happened, so that a trial cannot pass by idling.
#[derive(Default)]
struct Tally {
    accepted: [usize; 5],
    refused: [usize; 21],
    legs_off: usize,
    checked_when_withdrawn: usize,
}

/// A list of calls on its way. What is lent stands first; then what the
/// answers so far say must be so, kept apart from it.
struct Run<'a> {
    subjects: &'a [Subject],
    register: Vec<u8>,
    walk: Walk,
    rows: Pair,

    issued: [bool; 256],
    withdrawn: [bool; 256],
    /// Subject of the last accepted open, and h since then.
    opened: Option<(usize, usize)>,
    /// Whether all calls since that open were lent the rows it wrote.
    rows_kept: bool,
}

impl<'a> Run<'a> {
    fn new(subjects: &'a [Subject], random: &mut Random) -> Run<'a> {
        Run {
            subjects,
            register: blank(),
            walk: Walk::fresh(),
            rows: Pair::any(random, &subjects[0].sheet),
            issued: [false; 256],
            withdrawn: [false; 256],
            opened: None,
            rows_kept: false,
        }
    }

    /// The first refusal the call must meet, told from the list alone.
    fn expected(&self, call: Call, lent: &Pair) -> Result<(), Refusal> {
        match call {
            Call::Issue(number) => {
                let place = usize::from(number);
                if self.withdrawn[place] {
                    return Err(Refusal::Withdrawn);
                }
                if self.issued[place] {
                    return Err(Refusal::Live);
                }
                Ok(())
            }
            Call::Withdraw(number) => self.expected_live(number),
            Call::Open(subject) => self.expected_sheet(subject, lent),
            Call::Back(subject, steps) => {
                let position = self.expected_walk(subject, lent)?;
                if steps > position {
                    return Err(Refusal::OutOfSteps);
                }
                Ok(())
            }
            Call::Value(subject, tranche, count) => {
                self.expected_walk(subject, lent)?;
                let sheet = &self.subjects[subject].sheet;
                if tranche > sheet.tranches || count > sheet.names {
                    return Err(Refusal::OffTree);
                }
                Ok(())
            }
        }
    }

    fn expected_live(&self, number: u8) -> Result<(), Refusal> {
        let place = usize::from(number);
        if self.withdrawn[place] {
            return Err(Refusal::Withdrawn);
        }
        if !self.issued[place] {
            return Err(Refusal::Unissued);
        }
        Ok(())
    }

    fn expected_sheet(&self, subject: usize, lent: &Pair) -> Result<(), Refusal> {
        let sheet = &self.subjects[subject].sheet;
        if !lent.fits(sheet) {
            return Err(Refusal::Length);
        }
        self.expected_live(sheet.number)
    }

    /// Answers the position, m - h.
    fn expected_walk(&self, subject: usize, lent: &Pair) -> Result<usize, Refusal> {
        self.expected_sheet(subject, lent)?;
        let sheet = &self.subjects[subject].sheet;
        let position = match self.opened {
            Some((opened, steps)) if opened == subject => sheet.steps - steps,
            _ => return Err(Refusal::NoWalk),
        };
        // Rows that were kept are never over their ceilings.
        if !self.rows_kept && lent.is_over_ceiling(sheet, position) {
            return Err(Refusal::OverCeiling);
        }
        Ok(position)
    }

    /// Makes a call; `other` are rows lent in the place of the kept ones.
    /// Sees that it is accepted or refused as it must be, that a refusal
    /// changes nothing, and that everything owed is found afterwards.
    fn make(&mut self, call: Call, other: Option<Pair>, tally: &mut Tally) {
        // An open takes up the rows it is lent; other calls that are lent
        // other rows break the chain.
        let is_open = matches!(call, Call::Open(_));
        let is_lent_rows = !matches!(call, Call::Issue(_) | Call::Withdraw(_));
        if is_lent_rows && !is_open && other.is_some() {
            self.rows_kept = false;
        }
        let lent_other = other.is_some();
        let mut lent = other.unwrap_or_else(|| self.rows.clone());
        let expected = self.expected(call, &lent);
        let before = (self.register.clone(), self.walk, lent.clone());

        let answer = self.perform(call, &mut lent);
        assert_eq!(answer, expected, "{call:?}");
        match answer {
            Ok(()) => {
                tally.accepted[kind(call)] += 1;
                self.note_accepted(call);
                if is_open || !lent_other {
                    self.rows = lent;
                }
            }
            Err(refusal) => {
                tally.refused[usize::from(refusal.number())] += 1;
                assert_eq!((self.register.clone(), self.walk, lent), before);
            }
        }
        self.assert_found(tally);
    }

    fn note_accepted(&mut self, call: Call) {
        match call {
            Call::Issue(number) => self.issued[usize::from(number)] = true,
            Call::Withdraw(number) => self.withdrawn[usize::from(number)] = true,
            Call::Open(subject) => {
                self.opened = Some((subject, 0));
                self.rows_kept = true;
            }
            Call::Back(_, steps) => {
                let (subject, before) = self.opened.unwrap();
                self.opened = Some((subject, before + steps));
            }
            Call::Value(..) => {}
        }
    }

    /// The call itself, and what its answer must be in itself.
    fn perform(&mut self, call: Call, lent: &mut Pair) -> Result<(), Refusal> {
        let register = &mut self.register;
        let sheet = |subject: usize| &self.subjects[subject].sheet;
        let (d, a) = (&mut lent.default_row, &mut lent.premium_row);
        match call {
            Call::Issue(number) => issue(register, number),
            Call::Withdraw(number) => withdraw(register, number),
            Call::Open(subject) => {
                let (walk, answer) = walk::open(self.walk, sheet(subject), register, d, a);
                self.walk = walk;
                answer
            }
            Call::Back(subject, steps) => {
                let (walk, answer) = walk::back(self.walk, sheet(subject), register, steps, d, a);
                self.walk = walk;
                assert!(answer.is_err() || answer == Ok(walk.position));
                answer.map(|_| ())
            }
            Call::Value(subject, tranche, count) => {
                let sheet = sheet(subject);
                let (walk, answer) = walk::value(self.walk, sheet, register, tranche, count, d, a);
                assert_eq!(walk, self.walk);
                let value = answer?;
                let here = place(sheet, tranche, count);
                assert_eq!(
                    (value.default, value.premium),
                    (d[here].into(), a[here].into())
                );
                let gain = 10_000_000 * value.default as i128;
                let cost = i128::from(sheet.coupons[tranche]) * value.premium as i128;
                assert_eq!(value.net, gain - cost);
                Ok(())
            }
        }
    }

    /// The walk at m - h, and every leg within its distance: 2h and 2h + q + f
    /// when doubled.
    fn assert_found(&self, tally: &mut Tally) {
        let Some((subject, steps)) = self.opened else {
            assert_eq!(self.walk, Walk::fresh());
            return;
        };
        let Subject { sheet, exact } = &self.subjects[subject];
        let position = sheet.steps - steps;
        let expected = Walk {
            open: true,
            number: sheet.number,
            position,
        };
        assert_eq!(self.walk, expected);
        if !self.rows_kept {
            return;
        }
        let denominator = exact::leg_denominator(sheet, position);
        let limits = exact::doubled_distances(sheet, position);
        for (here, (default, premium)) in exact[position].iter().enumerate() {
            let legs = [self.rows.default_row[here], self.rows.premium_row[here]];
            for ((leg, exact), limit) in legs.into_iter().zip([default, premium]).zip(limits) {
                let scaled = Natural::new(u128::from(leg)).times(&denominator);
                let off = scaled.distance(exact).times(&Natural::new(2));
                assert!(off <= Natural::new(limit as u128).times(&denominator));
                tally.legs_off += usize::from(off >= denominator);
            }
        }
        let gone = self.withdrawn[usize::from(sheet.number)];
        tally.checked_when_withdrawn += usize::from(gone && steps > 0);
    }
}

fn kind(call: Call) -> usize {
    match call {
        Call::Issue(_) => 0,
        Call::Withdraw(_) => 1,
        Call::Open(_) => 2,
        Call::Back(..) => 3,
        Call::Value(..) => 4,
    }
}

/// Two sheets with numbers of their own, often alike in shape.
fn two_subjects(random: &mut Random) -> [Subject; 2] {
    let first = random.small_sheet();
    let mut second = random.small_sheet();
    if random.between(0, 1) == 0 {
        second = first.clone();
        second.hazards.reverse();
    }
    second.number = first.number ^ random.between(1, 255) as u8;
    [Subject::new(first), Subject::new(second)]
}

fn any_number(random: &mut Random, subjects: &[Subject]) -> u8 {
    match random.between(0, 9) {
        0 => random.between(0, 255) as u8,
        draw => subjects[draw as usize % subjects.len()].sheet.number,
    }
}

/// Withdrawals are rare: each ends a number for the rest of the list.
fn any_call(random: &mut Random, subjects: &[Subject]) -> Call {
    let subject = match random.between(0, 4) {
        0 => subjects.len() - 1,
        _ => 0,
    };
    let sheet = &subjects[subject].sheet;
    match random.between(0, 39) {
        0..=7 => Call::Issue(any_number(random, subjects)),
        8 => Call::Withdraw(any_number(random, subjects)),
        9..=13 => Call::Open(subject),
        14..=27 => Call::Back(subject, random.between(0, 3) as usize),
        28 => Call::Back(subject, random.draw() as usize),
        _ => {
            let tranche = random.between(0, sheet.tranches as u64 + 1) as usize;
            let count = random.between(0, sheet.names as u64 + 1) as usize;
            Call::Value(subject, tranche, count)
        }
    }
}

/// Makes a random call. While `loose`, back and value may be lent any rows;
/// an open may be at any time.
fn make_any_call(run: &mut Run, random: &mut Random, loose: bool, tally: &mut Tally) {
    let call = any_call(random, run.subjects);
    let other = match call {
        Call::Issue(_) | Call::Withdraw(_) => None,
        Call::Open(subject) => Some(Pair::any(random, &run.subjects[subject].sheet)),
        Call::Back(subject, _) | Call::Value(subject, ..) => {
            let lend_other = loose && random.between(0, 1) == 0;
            lend_other.then(|| Pair::any(random, &run.subjects[subject].sheet))
        }
    };
    run.make(call, other, tally);
}

/// A list on the spanning sheet that ends `steps` after its last accepted
/// open, with refused and idle calls on the way. Returns the rows.
fn walk_the_span(span: &Subject, steps: usize, random: &mut Random, tally: &mut Tally) -> Pair {
    let subjects = std::slice::from_ref(span);
    let number = span.sheet.number;
    let mut run = Run::new(subjects, random);
    for _ in 0..random.between(0, 10) {
        let call = any_call(random, subjects);
        if call != Call::Withdraw(number) {
            let other = Pair::any(random, &span.sheet);
            run.make(call, Some(other), tally);
        }
    }
    run.make(Call::Issue(number), None, tally);
    let zero = Pair::zero(&span.sheet);
    run.make(Call::Open(0), Some(zero), tally);
    let mut left = steps;
    while left > 0 {
        let part = random.between(0, left as u64) as usize;
        run.make(Call::Back(0, part), None, tally);
        left -= part;
        run.make(Call::Back(0, span.sheet.steps + 1), None, tally);
        run.make(Call::Value(0, part, part), None, tally);
    }
    if random.between(0, 1) == 0 {
        run.make(Call::Withdraw(number), None, tally);
    }
    assert_eq!(run.opened, Some((0, steps)));
    run.rows
}

/// At each count, the tranches against the one that spans them, within
/// (r + 1) distances. Says how many sums differ at all.
fn compare_with_span(sheet: &Sheet, rows: &Pair, span: &Subject, whole: &Pair, h: usize) -> usize {
    let parts = sheet.tranches as u64 + 1;
    let once = exact::doubled_distances(sheet, sheet.steps - h);
    let [default_limit, premium_limit] = once.map(|limit| parts * limit as u64);
    let mut differ = 0;
    for count in 0..=sheet.names {
        let sum = |row: &[u64]| -> u64 {
            let legs = (0..sheet.tranches).map(|tranche| row[place(sheet, tranche, count)]);
            legs.sum()
        };
        let one = place(&span.sheet, 0, count);
        let default = sum(&rows.default_row).abs_diff(whole.default_row[one]);
        assert!(2 * default <= default_limit);
        let premium = sum(&rows.premium_row).abs_diff(whole.premium_row[one]);
        assert!(2 * premium <= premium_limit);
        differ += usize::from(default > 0) + usize::from(premium > 0);
    }
    differ
}

/// The third demand as one statement about whole lists. Each prefix of a
/// list is a list too, so all is checked after each call.
#[test]
fn every_list_of_calls_finds_what_is_owed() {
    let mut random = Random::new(3);
    let mut tally = Tally::default();
    let mut compared = 0;
    let mut sums_differ = 0;
    for _ in 0..LISTS {
        let subjects = two_subjects(&mut random);
        let mut run = Run::new(&subjects, &mut random);
        let loose_calls = random.between(0, CALLS as u64 / 2) as usize;
        for done in 0..CALLS {
            let loose = done < loose_calls;
            make_any_call(&mut run, &mut random, loose, &mut tally);
        }
        if let (Some((subject, steps)), true) = (run.opened, run.rows_kept) {
            let sheet = &subjects[subject].sheet;
            let span = Subject::new(spanning_sheet(sheet));
            let whole = walk_the_span(&span, steps, &mut random, &mut tally);
            sums_differ += compare_with_span(sheet, &run.rows, &span, &whole, steps);
            compared += 1;
        }
    }
    for (kind, accepted) in tally.accepted.iter().enumerate() {
        assert!(*accepted > 200, "kind {kind}: {accepted}");
    }
    for number in [2, 9, 10, 11, 12, 13, 14, 17] {
        let refused = tally.refused[number];
        assert!(refused > 100, "refusal {number}: {refused}");
    }
    assert!(tally.legs_off > 1_000);
    assert!(tally.checked_when_withdrawn > 100);
    assert!(compared > LISTS / 2);
    assert!(sums_differ > 50);
}

/// Each list makes its number live, walks, withdraws it, and then tries
/// everything again.
#[test]
fn withdrawn_number_is_refused_by_every_later_call() {
    let mut random = Random::new(9);
    let mut tally = Tally::default();
    for _ in 0..100 {
        let subjects = two_subjects(&mut random);
        let number = subjects[0].sheet.number;
        let mut run = Run::new(&subjects, &mut random);
        let zero = Pair::zero(&subjects[0].sheet);
        run.make(Call::Issue(number), None, &mut tally);
        run.make(Call::Open(0), Some(zero.clone()), &mut tally);
        run.make(Call::Back(0, 1), None, &mut tally);
        run.make(Call::Withdraw(number), None, &mut tally);
        let walk = run.walk;
        let rows = run.rows.clone();
        let byte = run.register[usize::from(number)];
        assert_eq!(byte, 0x00);
        for _ in 0..10 {
            for call in [
                Call::Issue(number),
                Call::Withdraw(number),
                Call::Open(0),
                Call::Back(0, 0),
                Call::Value(0, 0, 0),
            ] {
                let answer = run.perform(call, &mut rows.clone());
                assert_eq!(answer, Err(Refusal::Withdrawn));
            }
            // Another number may come and go in between, but not its walk.
            run.make(
                Call::Issue(any_number(&mut random, &subjects)),
                None,
                &mut tally,
            );
        }
        assert_eq!(run.walk, walk);
        assert_eq!(run.rows, rows);
        assert_eq!(run.register[usize::from(number)], byte);
    }
}

/// Before any open there is no walk, and no rows make one.
#[test]
fn list_without_an_open_shows_no_value() {
    let mut random = Random::new(10);
    let mut tally = Tally::default();
    for _ in 0..100 {
        let subjects = two_subjects(&mut random);
        let mut run = Run::new(&subjects, &mut random);
        for _ in 0..CALLS {
            let call = any_call(&mut random, &subjects);
            if !matches!(call, Call::Open(_)) {
                let other = Pair::any(&mut random, &subjects[0].sheet);
                run.make(call, Some(other), &mut tally);
            }
        }
        assert_eq!(run.opened, None);
        assert_eq!(run.walk, Walk::fresh());
    }
    assert_eq!(tally.accepted[2..], [0, 0, 0]);
    assert!(tally.refused[11] > 100);
}
