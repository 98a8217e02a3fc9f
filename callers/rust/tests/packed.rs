//! Coupons as a ledger packs them.

use lavroudem::*;

/// Two of them have each of their digits once, so that none is taken for
/// another.
const KNOWN: [(u64, [u8; PACKED_LENGTH]); 12] = [
    (0, [0x00, 0x00, 0x00, 0x00]),
    (1, [0x00, 0x00, 0x00, 0x01]),
    (9, [0x00, 0x00, 0x00, 0x09]),
    (10, [0x00, 0x00, 0x00, 0x10]),
    (99, [0x00, 0x00, 0x00, 0x99]),
    (100, [0x00, 0x00, 0x01, 0x00]),
    (500_000, [0x00, 0x50, 0x00, 0x00]),
    (1_000_000, [0x01, 0x00, 0x00, 0x00]),
    (1_234_567, [0x01, 0x23, 0x45, 0x67]),
    (9_876_543, [0x09, 0x87, 0x65, 0x43]),
    (9_999_999, [0x09, 0x99, 0x99, 0x99]),
    (MAX_COUPON, [0x10, 0x00, 0x00, 0x00]),
];

/// What a buffer holds before it is written; no coupon has it in its image.
const BEFORE: u8 = 0xEE;

fn written(coupon: u64) -> Result<[u8; PACKED_LENGTH], Refusal> {
    let mut image = [BEFORE; PACKED_LENGTH];
    write_packed(&mut image, coupon)?;
    Ok(image)
}

#[test]
fn known_images_are_read() {
    for (coupon, image) in KNOWN {
        assert_eq!(read_packed(&image), Ok(coupon), "{image:02X?}");
    }
}

#[test]
fn known_images_are_written() {
    for (coupon, image) in KNOWN {
        assert_eq!(written(coupon), Ok(image), "{coupon}");
    }
}

/// An image shows in hexadecimal what its coupon is in decimal.
#[test]
fn every_coupon_has_its_image() {
    for coupon in 0..=MAX_COUPON {
        let digits = u32::from_str_radix(&coupon.to_string(), 16).unwrap();
        let image = digits.to_be_bytes();
        assert_eq!(written(coupon), Ok(image), "{coupon}");
        assert_eq!(read_packed(&image), Ok(coupon), "{image:02X?}");
    }
}

/// With a half byte in the place of one of its digits.
fn with_half(image: [u8; PACKED_LENGTH], place: u32, half: u32) -> [u8; PACKED_LENGTH] {
    let low = 4 * place;
    let others = u32::from_be_bytes(image) & !(0xF << low);
    (others | half << low).to_be_bytes()
}

/// In each place, beside zeros and beside nines.
#[test]
fn half_bytes_above_9_are_no_digits() {
    for place in 0..8 {
        for half in 0xA..=0xF {
            for digit in [0x00, 0x99] {
                let image = with_half([digit; PACKED_LENGTH], place, half);
                assert_eq!(read_packed(&image), Err(Refusal::Digit), "{image:02X?}");
            }
        }
    }
}

#[test]
fn coupons_above_the_limit() {
    let images = [
        [0x10, 0x00, 0x00, 0x01],
        [0x11, 0x00, 0x00, 0x00],
        [0x99; PACKED_LENGTH],
    ];
    for image in images {
        assert_eq!(read_packed(&image), Err(Refusal::Coupon), "{image:02X?}");
    }
    // Of eight digits, of more, and of more bits than 32.
    for coupon in [MAX_COUPON + 1, 99_999_999, 100_000_000, 1 << 32, u64::MAX] {
        assert_eq!(written(coupon), Err(Refusal::Coupon), "{coupon}");
    }
}

/// Looked at first: the bytes may hold zeros, too high a coupon or no digits,
/// and the coupon to be written may be too high.
#[test]
fn buffers_of_another_length() {
    for length in [0, 1, 3, 5, 8] {
        for byte in [0x00, 0x99, 0xFF] {
            let image = vec![byte; length];
            assert_eq!(read_packed(&image), Err(Refusal::Length), "{image:02X?}");
        }
        for coupon in [0, 1_234_567, MAX_COUPON + 1] {
            let mut image = vec![BEFORE; length];
            assert_eq!(write_packed(&mut image, coupon), Err(Refusal::Length));
        }
    }
}

/// Each of these is above the limit too, by its other digits or by its own.
#[test]
fn digits_are_checked_before_the_limit() {
    let both = [
        [0x10, 0x00, 0x00, 0x0A],
        [0x20, 0x00, 0xB0, 0x00],
        [0xA0, 0x00, 0x00, 0x00],
        [0xFF; PACKED_LENGTH],
    ];
    for image in both {
        assert_eq!(read_packed(&image), Err(Refusal::Digit), "{image:02X?}");
    }
}

#[test]
fn a_refused_write_leaves_the_buffer() {
    let refused = [
        (PACKED_LENGTH, MAX_COUPON + 1, Refusal::Coupon),
        (PACKED_LENGTH, u64::MAX, Refusal::Coupon),
        (PACKED_LENGTH - 1, 1_234_567, Refusal::Length),
        (PACKED_LENGTH + 1, 1_234_567, Refusal::Length),
        (PACKED_LENGTH + 1, MAX_COUPON + 1, Refusal::Length),
    ];
    for (length, coupon, refusal) in refused {
        let mut image = vec![BEFORE; length];
        assert_eq!(write_packed(&mut image, coupon), Err(refusal), "{coupon}");
        assert_eq!(image, vec![BEFORE; length], "{coupon}");
    }
}

/// As where a ledger's row holds more than the coupon.
#[test]
fn the_bytes_beside_an_image_stay() {
    let mut row = [BEFORE; PACKED_LENGTH + 2];
    write_packed(&mut row[1..=PACKED_LENGTH], 1_234_567).unwrap();
    assert_eq!(row, [BEFORE, 0x01, 0x23, 0x45, 0x67, BEFORE]);
}
