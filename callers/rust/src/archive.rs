//! The functions of the archive, and all unsafe code of this crate.
//!
//! The archive takes a slice as a pointer and then a length, and structs by
//! value. It trusts nothing else of its caller, so a call here takes slices
//! apart and gives the answer the shape of a `Result`. Layout and parameters
//! are those of `callers/c/lavroudem.h`.

use crate::refusal::Refusal;
use crate::sheet::{Pool, Sheet};
use crate::walk::{Turn, Value, Walk};
use crate::VERSION;
use std::sync::Once;

/// Where a list stands among the numbers of a sheet. One that reaches past
/// their end is refused.
#[repr(C)]
#[derive(Clone, Copy, Debug, PartialEq, Eq, Hash)]
pub(crate) struct Span {
    pub(crate) at: usize,
    pub(crate) length: usize,
}

/// A sheet as the archive takes it; its numbers go beside it.
#[repr(C)]
#[derive(Clone, Copy, Debug, PartialEq, Eq, Hash)]
pub(crate) struct Layout {
    pub(crate) pool: Pool,
    pub(crate) attachments: Span,
    pub(crate) starts: Span,
    pub(crate) hazards: Span,
    pub(crate) discounts: Span,
    pub(crate) accruals: Span,
    pub(crate) elapsed: Span,
    pub(crate) coupons: Span,
}

// In each answer `refusal` is 0 or the number of a refusal, and after a
// refusal the figures are 0; walk and place are as they were given.

#[repr(C)]
struct Opened {
    refusal: u8,
    walk: Walk,
}

#[repr(C)]
struct Moved {
    refusal: u8,
    position: usize,
    walk: Walk,
}

#[repr(C)]
struct Valued {
    refusal: u8,
    default_leg: u64,
    premium_leg: u64,
    net_value: i64,
    walk: Walk,
}

#[repr(C)]
struct Hedged {
    refusal: u8,
    ratio: i64,
    walk: Walk,
}

#[repr(C)]
struct Unpacked {
    refusal: u8,
    coupon: u64,
}

#[repr(C)]
struct Booked {
    refusal: u8,
    length: usize,
}

#[repr(C)]
struct Allotted {
    refusal: u8,
    count: usize,
    place: usize,
}

extern "C" {
    fn lavroudem_version() -> u64;
    fn lavroudem_issue(register: *mut u8, register_length: usize, number: u8) -> u8;
    fn lavroudem_withdraw(register: *mut u8, register_length: usize, number: u8) -> u8;
    fn lavroudem_open(
        walk: Walk,
        sheet: Layout,
        numbers: *const u64,
        numbers_length: usize,
        register: *const u8,
        register_length: usize,
        defaults: *mut u64,
        defaults_length: usize,
        premiums: *mut u64,
        premiums_length: usize,
    ) -> Opened;
    fn lavroudem_back(
        walk: Walk,
        sheet: Layout,
        numbers: *const u64,
        numbers_length: usize,
        register: *const u8,
        register_length: usize,
        defaults: *mut u64,
        defaults_length: usize,
        premiums: *mut u64,
        premiums_length: usize,
        steps: usize,
    ) -> Moved;
    fn lavroudem_value(
        walk: Walk,
        sheet: Layout,
        numbers: *const u64,
        numbers_length: usize,
        register: *const u8,
        register_length: usize,
        defaults: *const u64,
        defaults_length: usize,
        premiums: *const u64,
        premiums_length: usize,
        tranche: usize,
        count: usize,
    ) -> Valued;
    fn lavroudem_hedge_ratio(
        walk: Walk,
        sheet: Layout,
        numbers: *const u64,
        numbers_length: usize,
        register: *const u8,
        register_length: usize,
        defaults: *const u64,
        defaults_length: usize,
        premiums: *const u64,
        premiums_length: usize,
        tranche: usize,
        count: usize,
    ) -> Hedged;
    fn lavroudem_forward(
        sheet: Layout,
        numbers: *const u64,
        numbers_length: usize,
        register: *const u8,
        register_length: usize,
        row: *mut u64,
        row_length: usize,
        steps: usize,
    ) -> u8;
    fn lavroudem_read_packed(image: *const u8, image_length: usize) -> Unpacked;
    fn lavroudem_write_packed(image: *mut u8, image_length: usize, coupon: u64) -> u8;
    fn lavroudem_book(
        nominals: *const i64,
        nominals_length: usize,
        values: *const i64,
        values_length: usize,
        out: *mut u8,
        out_length: usize,
    ) -> Booked;
    fn lavroudem_turns(
        table: *mut Turn,
        table_length: usize,
        place: usize,
        list: *mut u8,
        list_length: usize,
    ) -> Allotted;
    fn lavroudem_deck_room(deck_length: usize) -> usize;
    fn lavroudem_run_deck(
        deck: *const u8,
        deck_length: usize,
        out: *mut u8,
        out_length: usize,
    ) -> usize;
    fn lavroudem_run_on(
        deck: *const u8,
        deck_length: usize,
        register: *mut u8,
        register_length: usize,
        out: *mut u8,
        out_length: usize,
    ) -> usize;
}

/// Before the first call: an archive of another version might take its
/// arguments otherwise. One that has no version is not linked at all.
#[inline]
fn same_version() {
    static CHECKED: Once = Once::new();
    // SAFETY: it takes nothing and answers a constant.
    CHECKED.call_once(|| expect_version(unsafe { lavroudem_version() }));
}

fn expect_version(found: u64) {
    assert_eq!(
        found, VERSION,
        "the archive (left) and the crate lavroudem (right) are of different versions"
    );
}

/// The figures of an accepted call, or the refusal.
#[inline]
fn answer<T>(refusal: u8, figures: T) -> Result<T, Refusal> {
    match Refusal::from_number(refusal) {
        None => Ok(figures),
        Some(refusal) => Err(refusal),
    }
}

/// Makes an unissued number live: writes its byte of the register. Refusals
/// 2, 9 and 17.
#[inline]
pub fn issue(register: &mut [u8], number: u8) -> Result<(), Refusal> {
    same_version();
    // SAFETY: pointer and length are those of one slice, lent to be written.
    let refusal = unsafe { lavroudem_issue(register.as_mut_ptr(), register.len(), number) };
    answer(refusal, ())
}

/// Ends a live number for good: writes its byte of the register. Refusals 2,
/// 9 and 10.
#[inline]
pub fn withdraw(register: &mut [u8], number: u8) -> Result<(), Refusal> {
    same_version();
    // SAFETY: pointer and length are those of one slice, lent to be written.
    let refusal = unsafe { lavroudem_withdraw(register.as_mut_ptr(), register.len(), number) };
    answer(refusal, ())
}

/// Starts a walk at the last step, whatever walk is given, and fills both
/// rows with zeros; they may hold anything before. Refusals 1 to 10, 21 and
/// 25.
#[inline]
pub fn open(
    walk: Walk,
    sheet: &Sheet,
    register: &[u8],
    defaults: &mut [u64],
    premiums: &mut [u64],
) -> (Walk, Result<(), Refusal>) {
    same_version();
    // SAFETY: each pointer and length are those of one slice, and only the
    // two rows are written, which are lent for that and so overlap nothing.
    let opened = unsafe {
        lavroudem_open(
            walk,
            sheet.layout,
            sheet.numbers.as_ptr(),
            sheet.numbers.len(),
            register.as_ptr(),
            register.len(),
            defaults.as_mut_ptr(),
            defaults.len(),
            premiums.as_mut_ptr(),
            premiums.len(),
        )
    };
    (opened.walk, answer(opened.refusal, ()))
}

/// Takes both rows so many steps back, 0 included, and gives the new
/// position. Refusals 1 to 13, 21 and 25.
#[inline]
pub fn back(
    walk: Walk,
    sheet: &Sheet,
    register: &[u8],
    defaults: &mut [u64],
    premiums: &mut [u64],
    steps: usize,
) -> (Walk, Result<usize, Refusal>) {
    same_version();
    // SAFETY: as in `open`.
    let moved = unsafe {
        lavroudem_back(
            walk,
            sheet.layout,
            sheet.numbers.as_ptr(),
            sheet.numbers.len(),
            register.as_ptr(),
            register.len(),
            defaults.as_mut_ptr(),
            defaults.len(),
            premiums.as_mut_ptr(),
            premiums.len(),
            steps,
        )
    };
    (moved.walk, answer(moved.refusal, moved.position))
}

/// What a tranche, 0 to tranches (the index), is worth at a default count, 0
/// to names. Refusals 1 to 12, 14, 21 and 25.
#[inline]
pub fn value(
    walk: Walk,
    sheet: &Sheet,
    register: &[u8],
    defaults: &[u64],
    premiums: &[u64],
    tranche: usize,
    count: usize,
) -> (Walk, Result<Value, Refusal>) {
    same_version();
    // SAFETY: each pointer and length are those of one slice; all are read.
    let valued = unsafe {
        lavroudem_value(
            walk,
            sheet.layout,
            sheet.numbers.as_ptr(),
            sheet.numbers.len(),
            register.as_ptr(),
            register.len(),
            defaults.as_ptr(),
            defaults.len(),
            premiums.as_ptr(),
            premiums.len(),
            tranche,
            count,
        )
    };
    let value = Value {
        default_leg: valued.default_leg,
        premium_leg: valued.premium_leg,
        net_value: valued.net_value,
    };
    (valued.walk, answer(valued.refusal, value))
}

/// How much of the index, in millionths of the whole pool's, hedges the whole
/// tranche against the next default, at a default count below names. On rows
/// as a walk leaves them it is negative only where an elapsed fraction is not
/// 0. Refusals 1 to 12, 14 to 16, 21 and 25.
#[inline]
pub fn hedge_ratio(
    walk: Walk,
    sheet: &Sheet,
    register: &[u8],
    defaults: &[u64],
    premiums: &[u64],
    tranche: usize,
    count: usize,
) -> (Walk, Result<i64, Refusal>) {
    same_version();
    // SAFETY: as in `value`.
    let hedged = unsafe {
        lavroudem_hedge_ratio(
            walk,
            sheet.layout,
            sheet.numbers.as_ptr(),
            sheet.numbers.len(),
            register.as_ptr(),
            register.len(),
            defaults.as_ptr(),
            defaults.len(),
            premiums.as_ptr(),
            premiums.len(),
            tranche,
            count,
        )
    };
    (hedged.walk, answer(hedged.refusal, hedged.ratio))
}

/// Fills a row with the chance of each default count, 0 to names, after so
/// many steps from no default, in billionths. Refusals 1 to 10, 13, 21 and 25.
#[inline]
pub fn forward(
    sheet: &Sheet,
    register: &[u8],
    row: &mut [u64],
    steps: usize,
) -> Result<(), Refusal> {
    same_version();
    // SAFETY: as in `open`; only the row is written.
    let refusal = unsafe {
        lavroudem_forward(
            sheet.layout,
            sheet.numbers.as_ptr(),
            sheet.numbers.len(),
            register.as_ptr(),
            register.len(),
            row.as_mut_ptr(),
            row.len(),
            steps,
        )
    };
    answer(refusal, ())
}

/// The coupon of a packed image, in thousandths of a basis point. An image is
/// [`PACKED_LENGTH`](crate::PACKED_LENGTH) bytes of two decimal digits each,
/// the high half byte first, and the most significant byte first. Refusals 2,
/// 30 and 8.
///
/// ```
/// use lavroudem::{read_packed, Refusal};
///
/// assert_eq!(read_packed(&[0x01, 0x00, 0x00, 0x00]), Ok(1_000_000));
/// assert_eq!(read_packed(&[0x01, 0x00, 0x0A, 0x00]), Err(Refusal::Digit));
/// // 10,000,001
/// assert_eq!(read_packed(&[0x10, 0x00, 0x00, 0x01]), Err(Refusal::Coupon));
/// ```
#[inline]
pub fn read_packed(image: &[u8]) -> Result<u64, Refusal> {
    same_version();
    // SAFETY: pointer and length are those of one slice, which is read.
    let unpacked = unsafe { lavroudem_read_packed(image.as_ptr(), image.len()) };
    answer(unpacked.refusal, unpacked.coupon)
}

/// Writes the image that [`read_packed`] reads as this coupon, which has no
/// other. Refusals 2 and 8; then the image stays as it was.
///
/// ```
/// use lavroudem::{write_packed, Refusal};
///
/// let mut image = [0; lavroudem::PACKED_LENGTH];
/// write_packed(&mut image, 1_000_000)?;
/// assert_eq!(image, [0x01, 0x00, 0x00, 0x00]);
/// assert_eq!(write_packed(&mut image, 10_000_001), Err(Refusal::Coupon));
/// assert_eq!(image, [0x01, 0x00, 0x00, 0x00]);
/// # Ok::<(), Refusal>(())
/// ```
#[inline]
pub fn write_packed(image: &mut [u8], coupon: u64) -> Result<(), Refusal> {
    same_version();
    // SAFETY: pointer and length are those of one slice, lent to be written.
    let refusal = unsafe { lavroudem_write_packed(image.as_mut_ptr(), image.len(), coupon) };
    answer(refusal, ())
}

/// Adds up a book: writes its line to the start of `out`, which has
/// [`BOOK_LENGTH`](crate::BOOK_LENGTH) bytes, and gives the length of the line.
/// The bytes after it stay as they were.
///
/// Position k is entry k of both lists, a nominal in pools and a net value. It
/// is worth their product, exactly. The line has what all positions are worth,
/// what those above 0 are, and what those below 0 are, in ten-millionths of a
/// unit; [`book_totals`](crate::book_totals) gives these as numbers.
///
/// Refusals 2, where `out` has another length, and 28, where one list is longer
/// than the other, both are longer than [`MAX_POSITIONS`](crate::MAX_POSITIONS),
/// or an entry is further from 0 than [`MAX_NOMINAL`](crate::MAX_NOMINAL) or
/// [`MAX_NET_VALUE`](crate::MAX_NET_VALUE); then all of `out` stays as it was.
///
/// ```
/// use lavroudem::{book, Refusal};
///
/// let mut out = [0; lavroudem::BOOK_LENGTH];
/// let length = book(&[1_000_000, -2], &[100_000_000_000_000_000, 7], &mut out)?;
/// let line = b"book 0 99999999999999999999986 100000000000000000000000 -14\n";
/// assert_eq!(out[..length], *line);
///
/// let refused = book(&[1_000_001], &[0], &mut out);
/// assert_eq!(refused, Err(Refusal::Book));
/// assert_eq!(out[..length], *line);
/// # Ok::<(), Refusal>(())
/// ```
#[inline]
pub fn book(nominals: &[i64], values: &[i64], out: &mut [u8]) -> Result<usize, Refusal> {
    same_version();
    // SAFETY: each pointer and length are those of one slice, and only `out`
    // is written, which is lent for that and so overlaps nothing.
    let booked = unsafe {
        lavroudem_book(
            nominals.as_ptr(),
            nominals.len(),
            values.as_ptr(),
            values.len(),
            out.as_mut_ptr(),
            out.len(),
        )
    };
    answer(booked.refusal, booked.length)
}

/// Whose turn it is among the open walks of a terminal, so that a long one keeps
/// none of the others waiting. A turn goes to the next place of the table after
/// the one served last, round the table, that has steps left: it is written to
/// `list`, from the start on, and one of its steps left is taken off. The call
/// ends where the list is full or no steps are left, and gives how many places
/// it wrote.
///
/// Places are counted from 0. `place` is the one served last, before the call
/// and after it; it stays where none is written. So do the list beyond the
/// places and all of the table but the steps left. Whether a walk is open, and
/// where it stands, is not looked at.
///
/// The caller then takes each walk of the list back by 1, and puts the walk that
/// comes back into its record. If only these calls write steps left and place,
/// then whenever a walk has another turn, all other walks that still have steps
/// left have had just one since its last turn.
///
/// Refusal 29, as [`Refusal::Turns`] says; then table, place and list stay. A
/// list of no bytes is accepted.
///
/// ```
/// use lavroudem::{turns, Refusal, Turn};
///
/// let mut table = [Turn::default(); 3];
/// table[0].left = 1_000;
/// table[2].left = 2;
/// let mut place = 2;
/// let mut list = [9; 6];
/// assert_eq!(turns(&mut table, &mut place, &mut list[..5]), Ok(5));
/// assert_eq!(list, [0, 2, 0, 2, 0, 9]);
/// assert_eq!(table.map(|turn| turn.left), [997, 0, 0]);
/// assert_eq!(place, 0);
///
/// place = 3;
/// assert_eq!(turns(&mut table, &mut place, &mut list), Err(Refusal::Turns));
/// assert_eq!(place, 3);
/// ```
#[inline]
pub fn turns(table: &mut [Turn], place: &mut usize, list: &mut [u8]) -> Result<usize, Refusal> {
    same_version();
    // SAFETY: each pointer and length are those of one slice; both are lent to
    // be written and so overlap nothing.
    let allotted = unsafe {
        lavroudem_turns(
            table.as_mut_ptr(),
            table.len(),
            *place,
            list.as_mut_ptr(),
            list.len(),
        )
    };
    // After a refusal too, when it is the one that was given.
    *place = allotted.place;
    answer(allotted.refusal, allotted.count)
}

/// The bytes that must be lent for the listing of a deck of so many bytes.
#[inline]
pub fn deck_room(deck_length: usize) -> usize {
    same_version();
    // SAFETY: it takes a number and reads nothing else.
    unsafe { lavroudem_deck_room(deck_length) }
}

/// Runs a deck on a blank register of its own and writes its listing to the
/// start of `out`; gives what was written. Nothing is written, and none
/// given, where `out` is shorter than the room of the deck.
#[inline]
pub fn run_deck<'a>(deck: &[u8], out: &'a mut [u8]) -> Option<&'a [u8]> {
    same_version();
    // SAFETY: each pointer and length are those of one slice, and only `out`
    // is written, which is lent for that and so overlaps nothing.
    let printed =
        unsafe { lavroudem_run_deck(deck.as_ptr(), deck.len(), out.as_mut_ptr(), out.len()) };
    // No room is the largest number, beyond any slice.
    out.get(..printed)
}

/// Runs a deck on a register of any length, writes its listing to the start
/// of `out` and the register that the deck leaves in place of the one given;
/// gives the listing. Nothing is written, and none given, where `out` is
/// shorter than the room of the deck.
#[inline]
pub fn run_on<'a>(deck: &[u8], register: &mut [u8], out: &'a mut [u8]) -> Option<&'a [u8]> {
    same_version();
    // SAFETY: each pointer and length are those of one slice, and only the
    // register and `out` are written, which are lent for that and so overlap
    // nothing.
    let printed = unsafe {
        lavroudem_run_on(
            deck.as_ptr(),
            deck.len(),
            register.as_mut_ptr(),
            register.len(),
            out.as_mut_ptr(),
            out.len(),
        )
    };
    // As in `run_deck`.
    out.get(..printed)
}

#[cfg(test)]
mod tests;
