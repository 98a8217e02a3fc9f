//! Lavroudem values tranches of a pool of credits on a tree of default
//! counts: default leg, premium leg, net value, and the index nominal that
//! hedges a tranche against the next default. Every figure is computed by
//! the proved engine; this crate only hands things over.
//!
//! ```
//! use lavroudem::{Lists, Pool, Refusal, Sheet};
//!
//! let pool = Pool {
//!     names: 2,
//!     steps: 2,
//!     tranches: 1,
//!     recovery: 400_000_000,
//!     number: 7,
//! };
//! let lists = Lists {
//!     attachments: &[0, 300_000_000],
//!     starts: &[1],
//!     hazards: &[100_000_000, 200_000_000],
//!     discounts: &[1_000_000_000, 900_000_000],
//!     accruals: &[0, 1_000_000_000],
//!     elapsed: &[0, 0],
//!     coupons: &[1_000_000, 500_000],
//! };
//! let sheet = Sheet::new(pool, lists);
//! let mut register = lavroudem::BLANK_REGISTER;
//! lavroudem::issue(&mut register, pool.number)?;
//!
//! let mut walk = sheet.open(&register)?;
//! while walk.back(&register, 1)? > 0 {}
//! assert_eq!(walk.value(&register, 0, 0)?.default_leg, 54_300_000);
//! assert_eq!(walk.hedge_ratio(&register, 0, 0)?, 724_386);
//!
//! lavroudem::withdraw(&mut register, pool.number)?;
//! assert_eq!(walk.value(&register, 0, 0), Err(Refusal::Withdrawn));
//! # Ok::<(), Refusal>(())
//! ```
//!
//! Nothing needs to be checked before a call: the engine judges all that it
//! is lent and names the first fault, and a refused call changes nothing.
//!
//! A [`Sheet`] keeps its numbers. [`Sheet::open`] gives an [`OpenWalk`], which
//! keeps the sheet, the walk and its rows together. A [`KeptRegister`] keeps
//! the register in a file, over a power loss too. [`read_packed`] and
//! [`write_packed`] take coupons from a ledger and to it. [`book_totals`] adds
//! up the positions of a book, and [`book`] does so as a line of text. [`turns`]
//! names the walks of a terminal that go back next. The module [`lent`] has the
//! calls as the engine has them, for programs that keep their own rows.
//!
//! Units: money is in billionths of the pool; recovery, hazards and discounts
//! in billionths; accruals and elapsed fractions in billionths of a year;
//! coupons in thousandths of a basis point a year; hedge ratios in millionths;
//! nominals of a book in pools; net values and totals of a book in ten-millionths
//! of a unit.

mod archive;
mod kept;
mod open_walk;
mod refusal;
mod sheet;
mod totals;
mod walk;

pub use archive::{book, issue, read_packed, turns, withdraw, write_packed};
pub use kept::{KeptError, KeptRegister, RegisterFile, RegisterStore};
pub use open_walk::OpenWalk;
pub use refusal::Refusal;
pub use sheet::{Lists, Pool, Sheet};
pub use totals::{book_totals, BookTotals};
pub use walk::{Turn, Value, Walk};

/// The calls over lent lists, as the engine has them.
///
/// Each hands back the walk that it was given, moved if it was accepted. The
/// caller keeps walk and rows together: from an open on, the same sheet is
/// brought, and the rows as the last call left them. Rows are the caller's
/// own memory: no register is asked where they are read without a call.
pub mod lent {
    pub use crate::archive::{
        back, deck_room, forward, hedge_ratio, open, run_deck, run_on, value,
    };
}

/// The version of the archive that this crate is written for, and of its C
/// header. The first call panics on an archive of another one.
pub const VERSION: u64 = 7;

/// The whole pool in units; also the 1 of recovery, hazards and discounts.
pub const ONE: u64 = 1_000_000_000;

pub const MAX_NAMES: usize = 125;
pub const MAX_STEPS: usize = 3_650;
/// The index not counted.
pub const MAX_TRANCHES: usize = 8;
pub const MAX_PERIODS: usize = 16;
/// The most that all accruals of a sheet sum to: ten years.
pub const MAX_ACCRUALS: u64 = 10 * ONE;
/// 10,000 basis points.
pub const MAX_COUPON: u64 = 10_000_000;
/// In bytes.
pub const MAX_DECK: usize = 65_536;

/// The bytes of a packed coupon, two decimal digits each.
pub const PACKED_LENGTH: usize = 4;

/// The most positions of a book.
pub const MAX_POSITIONS: usize = 4_096;
/// Of a position, on either side of 0, in pools.
pub const MAX_NOMINAL: i64 = 1_000_000;
/// Of a position, on either side of 0. Those that a value call gives are
/// within it.
pub const MAX_NET_VALUE: i64 = 200_000_000_000_000_000;
/// The bytes that are lent for the line of a book.
pub const BOOK_LENGTH: usize = 96;

/// The most walks of a turn table, which has at least one.
pub const MAX_WALKS: usize = 16;
/// The most places of a list of turns.
pub const MAX_PLACES: usize = 65_535;

/// A register has one byte for each sheet number.
pub const REGISTER_LENGTH: usize = 256;
pub const UNISSUED: u8 = 0xFF;
pub const LIVE: u8 = 0xA5;
/// What a withdrawal leaves. All bytes but [`UNISSUED`] and [`LIVE`] mean the
/// same.
pub const WITHDRAWN: u8 = 0x00;

/// A register of which no number is issued. A real one is kept over a power
/// loss, as [`KeptRegister`] does; [`issue`] and [`withdraw`] write one byte of
/// it.
pub const BLANK_REGISTER: [u8; REGISTER_LENGTH] = [UNISSUED; REGISTER_LENGTH];

/// Runs a deck on a blank register of its own and gives its listing. A sheet
/// of a deck has one period, and elapsed fractions of 0 if it enters none.
///
/// ```
/// // An open before any pool is known.
/// assert_eq!(lavroudem::run_deck(&[0x08]), b"open 1\n");
/// ```
pub fn run_deck(deck: &[u8]) -> Vec<u8> {
    let mut out = vec![0; lent::deck_room(deck.len())];
    let listing = lent::run_deck(deck, &mut out);
    let length = listing.expect("the room that was asked for").len();
    out.truncate(length);
    out
}

/// Runs a deck on a register, of any length, and gives its listing. The
/// register is left as the deck leaves it, in memory alone;
/// [`KeptRegister::run_deck`] writes one that is kept.
///
/// ```
/// let mut register = lavroudem::BLANK_REGISTER;
/// assert_eq!(lavroudem::run_on(&[0x06, 7], &mut register), b"issue 0\n");
/// assert_eq!(lavroudem::run_on(&[0x06, 7], &mut register), b"issue 17\n");
/// ```
pub fn run_on(deck: &[u8], register: &mut [u8]) -> Vec<u8> {
    let mut out = vec![0; lent::deck_room(deck.len())];
    let listing = lent::run_on(deck, register, &mut out);
    let length = listing.expect("the room that was asked for").len();
    out.truncate(length);
    out
}
