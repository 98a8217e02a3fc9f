//! The engine judges what it is lent, and a refused call changes nothing.

use lavroudem::*;
use std::thread;

/// The small sheet of the paper.
fn sheet() -> Sheet {
    Sheet::new(POOL, LISTS)
}

const POOL: Pool = Pool {
    names: 2,
    steps: 2,
    tranches: 1,
    recovery: 400_000_000,
    number: 7,
};

const LISTS: Lists = Lists {
    attachments: &[0, 300_000_000],
    starts: &[1],
    hazards: &[100_000_000, 200_000_000],
    discounts: &[1_000_000_000, 900_000_000],
    accruals: &[0, 1_000_000_000],
    elapsed: &[0, 0],
    coupons: &[1_000_000, 500_000],
};

fn issued() -> [u8; REGISTER_LENGTH] {
    let mut register = BLANK_REGISTER;
    issue(&mut register, POOL.number).unwrap();
    register
}

/// Everything that the calls are lent.
#[derive(Clone, Debug, PartialEq)]
struct Lent {
    sheet: Sheet,
    register: Vec<u8>,
    walk: Walk,
    defaults: Vec<u64>,
    premiums: Vec<u64>,
    row: Vec<u64>,
}

/// One step from the root.
fn lent() -> Lent {
    let sheet = sheet();
    let mut lent = Lent {
        register: issued().to_vec(),
        walk: Walk::FRESH,
        defaults: vec![u64::MAX; sheet.row_length()],
        premiums: vec![u64::MAX; sheet.row_length()],
        row: vec![5; sheet.forward_row_length()],
        sheet,
    };
    assert_eq!(open(&mut lent), Ok(()));
    assert_eq!(back(&mut lent), Ok(()));
    lent
}

type Call = fn(&mut Lent) -> Result<(), Refusal>;

fn open(l: &mut Lent) -> Result<(), Refusal> {
    let (walk, answer) = lent::open(
        l.walk,
        &l.sheet,
        &l.register,
        &mut l.defaults,
        &mut l.premiums,
    );
    l.walk = walk;
    answer
}

fn back(l: &mut Lent) -> Result<(), Refusal> {
    let (walk, answer) = lent::back(
        l.walk,
        &l.sheet,
        &l.register,
        &mut l.defaults,
        &mut l.premiums,
        1,
    );
    l.walk = walk;
    answer.map(|position| assert_eq!(position, walk.position))
}

fn value(l: &mut Lent) -> Result<(), Refusal> {
    let (walk, answer) = lent::value(
        l.walk,
        &l.sheet,
        &l.register,
        &l.defaults,
        &l.premiums,
        0,
        0,
    );
    l.walk = walk;
    answer.map(|_| ())
}

fn hedge_ratio(l: &mut Lent) -> Result<(), Refusal> {
    let (walk, answer) = lent::hedge_ratio(
        l.walk,
        &l.sheet,
        &l.register,
        &l.defaults,
        &l.premiums,
        0,
        0,
    );
    l.walk = walk;
    answer.map(|_| ())
}

fn forward(l: &mut Lent) -> Result<(), Refusal> {
    lent::forward(&l.sheet, &l.register, &mut l.row, 2)
}

/// The calls that are lent both rows.
const WITH_ROWS: [Call; 4] = [open, back, value, hedge_ratio];

/// Spoils what is lent; then each call is refused, and all stays as it was.
fn refused(calls: &[Call], refusal: Refusal, spoil: impl Fn(&mut Lent)) {
    let mut spoilt = lent();
    spoil(&mut spoilt);
    for call in calls {
        let mut after = spoilt.clone();
        assert_eq!(call(&mut after), Err(refusal), "{spoilt:?}");
        assert_eq!(after, spoilt);
    }
}

#[test]
fn whole_lists_are_accepted() {
    for call in WITH_ROWS.into_iter().chain([forward as Call]) {
        assert_eq!(call(&mut lent()), Ok(()));
    }
}

#[test]
fn a_register_of_another_length() {
    for length in [0, 255, 257] {
        let spoil = |l: &mut Lent| l.register.resize(length, LIVE);
        refused(&WITH_ROWS, Refusal::Length, spoil);
        refused(&[forward], Refusal::Length, spoil);
        let mut register = vec![UNISSUED; length];
        assert_eq!(issue(&mut register, 7), Err(Refusal::Length));
        assert_eq!(withdraw(&mut register, 7), Err(Refusal::Length));
        assert_eq!(register, vec![UNISSUED; length]);
    }
}

#[test]
fn rows_of_another_length() {
    for length in [0, 5, 7] {
        refused(&WITH_ROWS, Refusal::Length, |l| {
            l.defaults.resize(length, 0)
        });
        refused(&WITH_ROWS, Refusal::Length, |l| {
            l.premiums.resize(length, 0)
        });
        refused(&[forward], Refusal::Length, |l| l.row.resize(length, 0));
    }
}

#[test]
fn lists_of_another_length() {
    let spoils: [fn(&mut Lists); 11] = [
        |lists| lists.attachments = &[],
        |lists| lists.starts = &[],
        |lists| (lists.starts, lists.hazards) = (&[], &[]),
        |lists| lists.starts = &[1, 2],
        |lists| lists.hazards = &[0],
        |lists| lists.discounts = &[1, 1, 1],
        |lists| lists.accruals = &[1],
        |lists| lists.elapsed = &[],
        |lists| lists.elapsed = &[0],
        |lists| lists.elapsed = &[0, 0, 0],
        |lists| lists.coupons = &[0, 0, 0],
    ];
    for spoil in spoils {
        let mut lists = LISTS;
        spoil(&mut lists);
        let spoil = |l: &mut Lent| l.sheet = Sheet::new(POOL, lists);
        refused(&WITH_ROWS, Refusal::Length, spoil);
        refused(&[forward], Refusal::Length, spoil);
    }
}

/// Of the small sheet, which has two steps.
#[test]
fn starts_that_make_no_periods() {
    let starts: [&[u64]; 7] = [&[0], &[2], &[u64::MAX], &[1, 1], &[2, 1], &[1, 3], &[0, 1]];
    for starts in starts {
        let hazards = &[0; 4][..2 * starts.len()];
        let lists = Lists {
            starts,
            hazards,
            ..LISTS
        };
        let spoil = |l: &mut Lent| l.sheet = Sheet::new(POOL, lists);
        refused(&WITH_ROWS, Refusal::Periods, spoil);
        refused(&[forward], Refusal::Periods, spoil);
    }
}

/// Attachment points are looked at before starts, and starts before hazards.
#[test]
fn starts_are_checked_in_their_turn() {
    let above: &[u64] = &[ONE + 1, 0];
    let spoils = [
        (Refusal::Attachments, above, &[2], above),
        (Refusal::Periods, LISTS.attachments, &[2], above),
        (Refusal::Hazard, LISTS.attachments, &[1], above),
    ];
    for (refusal, attachments, starts, hazards) in spoils {
        let lists = Lists {
            attachments,
            starts,
            hazards,
            ..LISTS
        };
        let spoil = |l: &mut Lent| l.sheet = Sheet::new(POOL, lists);
        refused(&WITH_ROWS, refusal, spoil);
        refused(&[forward], refusal, spoil);
    }
}

/// Of the small sheet: its one premium date, step 2, is the next for both.
#[test]
fn elapsed_fractions_above_their_accrual() {
    for elapsed in [[ONE + 1, 0], [0, ONE + 1], [u64::MAX, u64::MAX]] {
        let elapsed = &elapsed;
        let lists = Lists { elapsed, ..LISTS };
        let spoil = |l: &mut Lent| l.sheet = Sheet::new(POOL, lists);
        refused(&WITH_ROWS, Refusal::Elapsed, spoil);
        refused(&[forward], Refusal::Elapsed, spoil);
    }
    for call in WITH_ROWS.into_iter().chain([forward as Call]) {
        let mut lent = lent();
        let elapsed = &[ONE; 2];
        lent.sheet = Sheet::new(POOL, Lists { elapsed, ..LISTS });
        assert_eq!(call(&mut lent), Ok(()));
    }
}

/// Accruals are looked at before elapsed fractions, and these before coupons.
#[test]
fn elapsed_fractions_are_checked_in_their_turn() {
    let above: &[u64] = &[ONE + 1, ONE + 1];
    let spoils = [
        (Refusal::Accrual, above, above, above),
        (Refusal::Elapsed, LISTS.accruals, above, above),
        (Refusal::Coupon, LISTS.accruals, LISTS.elapsed, above),
    ];
    for (refusal, accruals, elapsed, coupons) in spoils {
        let lists = Lists {
            accruals,
            elapsed,
            coupons,
            ..LISTS
        };
        let spoil = |l: &mut Lent| l.sheet = Sheet::new(POOL, lists);
        refused(&WITH_ROWS, refusal, spoil);
        refused(&[forward], refusal, spoil);
    }
}

#[test]
fn a_withdrawn_number() {
    let spoil = |l: &mut Lent| withdraw(&mut l.register, 7).unwrap();
    refused(&WITH_ROWS, Refusal::Withdrawn, spoil);
    refused(&[forward], Refusal::Withdrawn, spoil);
    let mut register = issued();
    withdraw(&mut register, 7).unwrap();
    assert_eq!(register[7], WITHDRAWN);
    assert_eq!(issue(&mut register, 7), Err(Refusal::Withdrawn));
    assert_eq!(withdraw(&mut register, 7), Err(Refusal::Withdrawn));
}

#[test]
fn walks_and_rows_of_someone_else() {
    let later = &WITH_ROWS[1..];
    refused(later, Refusal::NoWalk, |l| l.walk = Walk::FRESH);
    refused(later, Refusal::NoWalk, |l| l.walk.position = 3);
    refused(later, Refusal::OverCeiling, |l| l.defaults[0] = 300_000_001);
    refused(later, Refusal::OverCeiling, |l| l.premiums[5] = u64::MAX);
}

/// One step from the root a year of accruals is to come. Above it are two
/// units, for the one step behind, and one for each name that is left.
#[test]
fn premiums_up_to_their_ceiling() {
    for place in 0..6 {
        let ceiling = ONE + 2 + [2, 1, 0][place % 3];
        let later = &WITH_ROWS[1..];
        refused(later, Refusal::OverCeiling, |l| {
            l.premiums[place] = ceiling + 1
        });
        for call in [back as Call, value] {
            let mut lent = lent();
            lent.premiums[place] = ceiling;
            assert_eq!(call(&mut lent), Ok(()), "{place}");
        }
    }
}

#[test]
fn an_open_walk_shows_its_rows() {
    let register = issued();
    let sheet = sheet();
    let mut walk = sheet.open(&register).unwrap();
    assert_eq!(walk.position(), 2);
    assert_eq!(walk.back(&register, 2), Ok(0));
    let index = walk.value(&register, 1, 0).unwrap();
    assert_eq!(index.default_leg, walk.defaults(&register).unwrap()[3]);
    assert_eq!(index.premium_leg, walk.premiums(&register).unwrap()[3]);
    assert_eq!(index.net_value, 194_250_000_000_000);
    assert_eq!((walk.sheet().pool(), walk.sheet().lists()), (&POOL, LISTS));
}

/// A walk of a withdrawn number gives no figure away, by whatever way.
#[test]
fn an_open_walk_of_a_withdrawn_number_shows_nothing() {
    let mut register = issued();
    let sheet = sheet();
    let mut walk = sheet.open(&register).unwrap();
    walk.back(&register, 2).unwrap();
    withdraw(&mut register, 7).unwrap();
    for register in [&register[..], &BLANK_REGISTER, &register[1..]] {
        let refusal = walk.value(register, 0, 0).unwrap_err();
        assert_eq!(walk.defaults(register), Err(refusal));
        assert_eq!(walk.premiums(register), Err(refusal));
        assert_eq!(walk.hedge_ratio(register, 0, 0), Err(refusal));
        assert_eq!(walk.back(register, 0), Err(refusal));
        assert_eq!(sheet.open(register), Err(refusal));
        assert_eq!(sheet.forward(register, 0), Err(refusal));
    }
}

#[test]
fn an_open_walk_is_printed_without_figures() {
    let register = issued();
    let sheet = sheet();
    let mut walk = sheet.open(&register).unwrap();
    walk.back(&register, 2).unwrap();
    assert_eq!(
        format!("{walk:?}"),
        "OpenWalk { number: 7, position: 0, .. }"
    );
}

/// Equality is that of sheet and step, from which the rows follow.
#[test]
fn open_walks_are_compared_by_sheet_and_step() {
    let register = issued();
    let sheet = sheet();
    let equal = Sheet::new(POOL, LISTS);
    let at_once = walked(&sheet, &register, &[2]);
    let by_steps = walked(&equal, &register, &[1, 0, 1]);
    assert_eq!(at_once, by_steps);
    let figures = |walk: &OpenWalk| {
        let defaults = walk.defaults(&register).unwrap().to_vec();
        (defaults, walk.premiums(&register).unwrap().to_vec())
    };
    assert_eq!(figures(&at_once), figures(&by_steps));
    assert_ne!(at_once, walked(&sheet, &register, &[1]));
    // The rows do not depend on a coupon; the sheet does.
    let coupons = &[1_000_000, 500_001];
    let other = Sheet::new(POOL, Lists { coupons, ..LISTS });
    assert_ne!(at_once, walked(&other, &register, &[2]));
}

fn walked<'a>(sheet: &'a Sheet, register: &[u8], steps: &[usize]) -> OpenWalk<'a> {
    let mut walk = sheet.open(register).unwrap();
    for &steps in steps {
        walk.back(register, steps).unwrap();
    }
    walk
}

#[test]
fn an_open_walk_stays_where_it_is_refused() {
    let register = issued();
    let sheet = sheet();
    let mut walk = sheet.open(&register).unwrap();
    walk.back(&register, 1).unwrap();
    let before = walk.clone();
    assert_eq!(walk.back(&register, 2), Err(Refusal::OutOfSteps));
    assert_eq!(walk.back(&BLANK_REGISTER, 1), Err(Refusal::Unissued));
    assert_eq!(walk, before);
    assert_eq!(walk.defaults(&register), before.defaults(&register));
    assert_eq!(walk.premiums(&register), before.premiums(&register));
    assert_eq!(walk.value(&register, 2, 0), Err(Refusal::OffTree));
    assert_eq!(walk.hedge_ratio(&register, 0, 2), Err(Refusal::OffTree));
}

/// No row is made for a sheet that is too large to have one.
#[test]
fn sheets_beyond_all_limits() {
    let register = issued();
    for (names, tranches) in [(usize::MAX, 1), (2, usize::MAX), (126, 8), (125, 9)] {
        let pool = Pool {
            names,
            tranches,
            ..POOL
        };
        let sheet = Sheet::new(pool, LISTS);
        assert_eq!(sheet.open(&register).unwrap_err(), Refusal::Pool);
        assert_eq!(sheet.forward(&register, 1), Err(Refusal::Pool));
    }
    assert_eq!(sheet().forward(&register, 3), Err(Refusal::OutOfSteps));
}

/// The lengths of a row and of a forward row, on both sides of the limits.
#[test]
fn rows_up_to_the_limits() {
    let lengths = [
        (MAX_NAMES, MAX_TRANCHES, (9 * 126, 126)),
        (MAX_NAMES + 1, MAX_TRANCHES, (0, 0)),
        (MAX_NAMES, MAX_TRANCHES + 1, (0, 126)),
        (MAX_NAMES + 1, MAX_TRANCHES + 1, (0, 0)),
        (usize::MAX, usize::MAX, (0, 0)),
        (1, 1, (4, 2)),
        (0, 0, (1, 1)),
    ];
    for (names, tranches, expected) in lengths {
        let pool = Pool {
            names,
            tranches,
            ..POOL
        };
        let sheet = Sheet::new(pool, LISTS);
        let found = (sheet.row_length(), sheet.forward_row_length());
        assert_eq!(found, expected, "{names} names, {tranches} tranches");
    }
}

const WORKED_DECK: &[u8] = include_bytes!("../../../crates/listing/stdin");
const WORKED_LISTING: &[u8] = include_bytes!("../../../crates/listing/stdout");

#[test]
fn the_worked_deck() {
    assert_eq!(run_deck(WORKED_DECK), WORKED_LISTING);
    assert_eq!(run_deck(&[0; MAX_DECK + 1]), b"deck 20 65536\n");
    assert_eq!(run_deck(&[]), b"");
}

#[test]
fn a_listing_without_room() {
    let room = lent::deck_room(WORKED_DECK.len());
    let mut out = vec![0xEE; room];
    let mut register = BLANK_REGISTER;
    assert_eq!(lent::run_deck(WORKED_DECK, &mut out[1..]), None);
    assert_eq!(
        lent::run_on(WORKED_DECK, &mut register, &mut out[1..]),
        None
    );
    assert!(out.iter().all(|&byte| byte == 0xEE));
    assert_eq!(register, BLANK_REGISTER);
    assert_eq!(lent::run_deck(WORKED_DECK, &mut out), Some(WORKED_LISTING));
}

/// The deck withdraws its own number, so a second run shows nothing.
#[test]
fn the_worked_deck_on_a_register() {
    let mut register = BLANK_REGISTER;
    assert_eq!(run_on(WORKED_DECK, &mut register), WORKED_LISTING);
    let mut left = BLANK_REGISTER;
    left[7] = WITHDRAWN;
    assert_eq!(register, left);
    let refused = "issue 9\nopen 9\nback 9\nvalue 9\nvalue 9\ndelta 9\nforward 9\n\
                   withdraw 9\nvalue 9\n";
    assert_eq!(run_on(WORKED_DECK, &mut register), refused.as_bytes());
    assert_eq!(register, left);
    // A register of another length is refused by every call of the deck.
    let refused = refused.replace('9', "2");
    assert_eq!(run_on(WORKED_DECK, &mut left[1..]), refused.as_bytes());
    assert_eq!(run_on(WORKED_DECK, &mut []), refused.as_bytes());
    assert_eq!(register, left);
}

/// The header promises that a call needs less than 256 kB of stack. A deck
/// keeps a whole sheet there, and a step back adds most to it.
#[test]
fn the_largest_deck_on_a_small_stack() {
    let mut deck = vec![0x01, 125, 0x42, 0x0E, 8, 0, 0, 0, 0, 7];
    for j in 0..9 {
        deck.extend([0x02, j, 0, 0, 0]);
        deck.extend([0x05, 0, 0, 0, 0]);
    }
    deck.extend([0x03, 1, 0, 0, 0].repeat(125));
    deck.extend([0x04, 1, 0, 0, 0, 1, 0, 0, 0].repeat(3_650));
    deck.extend([0x0D, 1, 0, 0, 0].repeat(3_650));
    deck.extend([0x06, 7, 0x08, 0x09, 0x42, 0x0E, 0x0B, 0, 0, 0x0C, 0, 0, 0]);
    let thread = thread::Builder::new().stack_size(256 * 1024);
    let listing = thread.spawn(move || run_deck(&deck)).unwrap().join();
    let text = String::from_utf8(listing.unwrap()).unwrap();
    let expected = "issue 0\nopen 0\nback 0 0\ndelta 0 0\nforward 0 1000000000\n";
    assert_eq!(text, expected);
}
