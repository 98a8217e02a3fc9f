//! What a caller in C sees and a `Result` or a `Sheet` hides: the layout, the
//! figures of a refused call, and the spans of the lists.

mod spans;

use super::*;
use crate::sheet::Lists;
use crate::{BOOK_LENGTH, MAX_NOMINAL, MAX_PLACES, MAX_STEPS};
use std::mem::{offset_of, size_of};

const HEADER: &str = include_str!("../../../c/lavroudem.h");

/// The layout of a struct, as the header asserts it.
macro_rules! layout {
    ($type:ident $in_c:ident: $($field:ident)*) => {{
        let name = stringify!($in_c);
        let mut lines = vec![format!("LAVROUDEM_SIZE({name}, {});", size_of::<$type>())];
        $({
            let field = stringify!($field);
            let bytes = offset_of!($type, $field);
            lines.push(format!("LAVROUDEM_OFFSET({name}, {field}, {bytes});"));
        })*
        lines
    }};
}

#[test]
fn the_header_has_the_same_layout() {
    let lines = [
        layout!(Pool lavroudem_pool: names steps tranches recovery number),
        layout!(Span lavroudem_span: at length),
        layout!(Layout lavroudem_sheet:
            pool attachments starts hazards discounts accruals elapsed coupons),
        layout!(Walk lavroudem_walk: open number position),
        layout!(Turn lavroudem_turn: walk left),
        layout!(Opened lavroudem_opened: refusal walk),
        layout!(Moved lavroudem_moved: refusal position walk),
        layout!(Valued lavroudem_valued: refusal default_leg premium_leg net_value walk),
        layout!(Hedged lavroudem_hedged: refusal ratio walk),
        layout!(Unpacked lavroudem_unpacked: refusal coupon),
        layout!(Booked lavroudem_booked: refusal length),
        layout!(Allotted lavroudem_allotted: refusal count place),
    ]
    .concat();
    let asserts =
        |line: &&str| line.starts_with("LAVROUDEM_SIZE(") || line.starts_with("LAVROUDEM_OFFSET(");
    let found: Vec<&str> = HEADER.lines().filter(asserts).collect();
    assert_eq!(found, lines);
}

/// A sheet of nothing is refused with 1.
#[test]
fn the_figures_of_a_refused_call_are_0() {
    let pool = Pool {
        names: 0,
        steps: 0,
        tranches: 0,
        recovery: 0,
        number: 7,
    };
    let sheet = Sheet::new(pool, Lists::default()).layout;
    let walk = Walk {
        open: true,
        number: 7,
        position: 9,
    };
    let (none, row): (&[u8], &mut [u64]) = (&[], &mut []);
    let (bytes, at) = (none.as_ptr(), row.as_mut_ptr());
    // SAFETY: each list is an empty one, of which nothing is read or written.
    let (moved, valued, hedged) = unsafe {
        (
            lavroudem_back(walk, sheet, at, 0, bytes, 0, at, 0, at, 0, 1),
            lavroudem_value(walk, sheet, at, 0, bytes, 0, at, 0, at, 0, 0, 0),
            lavroudem_hedge_ratio(walk, sheet, at, 0, bytes, 0, at, 0, at, 0, 0, 0),
        )
    };
    assert_eq!((moved.refusal, moved.position, moved.walk), (1, 0, walk));
    assert_eq!((valued.refusal, valued.walk), (1, walk));
    let figures = (valued.default_leg, valued.premium_leg, valued.net_value);
    assert_eq!(figures, (0, 0, 0));
    assert_eq!((hedged.refusal, hedged.ratio, hedged.walk), (1, 0, walk));
}

/// One byte short, a digit of 10, and 10,000,001.
#[test]
fn the_coupon_of_a_refused_image_is_0() {
    let refused: [(u8, &[u8]); 3] = [
        (2, &[0x01, 0x23, 0x45]),
        (30, &[0x01, 0x23, 0x45, 0x6A]),
        (8, &[0x10, 0x00, 0x00, 0x01]),
    ];
    for (refusal, image) in refused {
        // SAFETY: pointer and length are those of one slice, which is read.
        let unpacked = unsafe { lavroudem_read_packed(image.as_ptr(), image.len()) };
        assert_eq!((unpacked.refusal, unpacked.coupon), (refusal, 0));
    }
}

/// A buffer one byte short, with a fault of the lists or without; lists of
/// unlike length, and a nominal out of range.
#[test]
fn the_length_of_a_refused_book_is_0() {
    let refused: [(u8, &[i64], &[i64], usize); 4] = [
        (2, &[1], &[1], BOOK_LENGTH - 1),
        (2, &[1, 2], &[1], BOOK_LENGTH - 1),
        (28, &[1, 2], &[1], BOOK_LENGTH),
        (28, &[MAX_NOMINAL + 1], &[1], BOOK_LENGTH),
    ];
    for (refusal, nominals, values, length) in refused {
        let mut out = vec![0; length];
        // SAFETY: each pointer and length are those of one slice, and only
        // `out` is lent to be written.
        let booked = unsafe {
            lavroudem_book(
                nominals.as_ptr(),
                nominals.len(),
                values.as_ptr(),
                values.len(),
                out.as_mut_ptr(),
                out.len(),
            )
        };
        assert_eq!((booked.refusal, booked.length), (refusal, 0));
    }
}

/// An empty table, a place outside of it, one step too many and one byte too
/// many: no place is counted, and the one served last comes back.
#[test]
fn the_count_of_refused_turns_is_0() {
    let refused = [
        (0, 0, 5, 4),
        (2, 2, 5, 4),
        (2, usize::MAX, 5, 4),
        (2, 1, MAX_STEPS as u16 + 1, 4),
        (2, 1, 5, MAX_PLACES + 1),
    ];
    for (walks, place, left, length) in refused {
        let turn = Turn {
            walk: Walk::FRESH,
            left,
        };
        let mut table = vec![turn; walks];
        let mut list = vec![0; length];
        // SAFETY: each pointer and length are those of one list, which is lent
        // to be written.
        let allotted =
            unsafe { lavroudem_turns(table.as_mut_ptr(), walks, place, list.as_mut_ptr(), length) };
        let told = (allotted.refusal, allotted.count, allotted.place);
        assert_eq!(told, (29, 0, place));
    }
}

#[test]
fn an_archive_of_this_version_is_taken() {
    expect_version(VERSION);
    same_version();
}

#[test]
#[should_panic(expected = "of different versions")]
fn an_archive_of_another_version_is_not_taken() {
    expect_version(VERSION + 1);
}

/// Each function that calls the archive looks at its version first.
#[test]
fn every_call_looks_at_the_version() {
    let source = include_str!("../archive.rs");
    let calls: Vec<&str> = source.split("\npub fn ").skip(1).collect();
    for call in &calls {
        let (_, body) = call.split_once("{\n").unwrap();
        let name = call.split(['(', '<']).next().unwrap();
        assert!(body.starts_with("    same_version();\n"), "{name}");
    }
    assert_eq!(calls.len(), 14);
}
