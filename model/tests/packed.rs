//! Coupons in packed decimal: known images, every coupon there and back, every
//! byte at every place, and the order of the refusals.

mod common;

use common::Random;
use lavroudem_model::packed::{read, write};
use lavroudem_model::refusal::Refusal;

const MOST: u64 = 10_000_000;

/// Document 01's number; 0 for an accepted call.
fn number<T>(answer: Result<T, Refusal>) -> u8 {
    answer.err().map_or(0, Refusal::number)
}

/// The image of a coupon that is accepted, over bytes that are no image.
fn written(coupon: u64) -> [u8; 4] {
    let mut image = [0xEE; 4];
    assert_eq!(write(&mut image, coupon), Ok(()), "{coupon}");
    image
}

#[test]
fn known_images() {
    for (coupon, image) in [
        (0, [0x00, 0x00, 0x00, 0x00]),
        (1, [0x00, 0x00, 0x00, 0x01]),
        (9, [0x00, 0x00, 0x00, 0x09]),
        (10, [0x00, 0x00, 0x00, 0x10]),
        (99, [0x00, 0x00, 0x00, 0x99]),
        (100, [0x00, 0x00, 0x01, 0x00]),
        (25_000, [0x00, 0x02, 0x50, 0x00]),
        (500_000, [0x00, 0x50, 0x00, 0x00]),
        (1_000_000, [0x01, 0x00, 0x00, 0x00]),
        (1_234_567, [0x01, 0x23, 0x45, 0x67]),
        (9_876_543, [0x09, 0x87, 0x65, 0x43]),
        (9_999_999, [0x09, 0x99, 0x99, 0x99]),
        (10_000_000, [0x10, 0x00, 0x00, 0x00]),
    ] {
        assert_eq!(written(coupon), image, "{coupon}");
        assert_eq!(read(&image), Ok(coupon), "{image:02X?}");
    }
}

/// Eight wheels, the last of which turns fastest.
fn turn(wheels: &mut [u8; 8]) {
    for wheel in wheels.iter_mut().rev() {
        *wheel = (*wheel + 1) % 10;
        if *wheel != 0 {
            break;
        }
    }
}

/// No image is shared, since they rise as the coupons do.
#[test]
fn every_coupon_has_its_own_image() {
    let mut wheels = [0; 8];
    let mut last: Option<[u8; 4]> = None;
    for coupon in 0..=MOST {
        let image = written(coupon);
        assert_eq!(read(&image), Ok(coupon));
        assert!(last < Some(image), "{coupon}");
        let shown = image.iter().flat_map(|byte| [byte / 16, byte % 16]);
        assert!(shown.eq(wheels), "{coupon}: {image:02X?}");
        last = Some(image);
        turn(&mut wheels);
    }
    assert_eq!(last, Some([0x10, 0x00, 0x00, 0x00]));
}

/// What the ledger's reading should say, by place values.
fn expected(image: [u8; 4]) -> Result<u64, Refusal> {
    let halves = image.iter().flat_map(|byte| [byte / 16, byte % 16]);
    if halves.clone().any(|half| half > 9) {
        return Err(Refusal::Digit);
    }
    let coupon = halves.fold(0, |sum, half| 10 * sum + u64::from(half));
    if coupon > MOST {
        return Err(Refusal::Coupon);
    }
    Ok(coupon)
}

/// Reads an image, and what is accepted has no other image.
fn read_as_expected(image: [u8; 4]) -> Result<u64, Refusal> {
    let answer = read(&image);
    assert_eq!(answer, expected(image), "{image:02X?}");
    if let Ok(coupon) = answer {
        assert_eq!(written(coupon), image);
    }
    answer
}

/// Beside zeros, nines, and halves that are no digit.
#[test]
fn every_byte_at_every_place() {
    let mut accepted = Vec::new();
    for others in [0x00, 0x99, 0x0A, 0xA0, 0xFF] {
        for place in 0..4 {
            for byte in 0..=255 {
                let mut image = [others; 4];
                image[place] = byte;
                accepted.extend(read_as_expected(image));
            }
        }
    }
    // Alone: the first place has 00 to 10, the others 00 to 99. Before nines: 00 to 09.
    assert_eq!(accepted.len(), 11 + 3 * 100 + 10);
}

#[test]
fn every_two_bytes_at_the_ends() {
    for first in 0..=255 {
        for last in 0..=255 {
            read_as_expected([first, 0, 0, last]).ok();
            read_as_expected([0, first, last, 0]).ok();
        }
    }
}

#[test]
fn random_images() {
    let mut random = Random::new(0x9AC4_0001);
    let mut met = [0; 3];
    for _ in 0..300_000 {
        let most = [10, 10, 10, 16][random.below(4)];
        let mut image = [0; 4];
        image.fill_with(|| (16 * random.below(most) + random.below(most)) as u8);
        if random.one_in(2) {
            image[0] %= 16;
        }
        match read_as_expected(image) {
            Ok(_) => met[0] += 1,
            Err(Refusal::Digit) => met[1] += 1,
            Err(_) => met[2] += 1,
        }
    }
    assert!(met.iter().all(|&times| times > 50_000), "{met:?}");
}

/// 2 before 30, and 30 before 8.
#[test]
fn reading_refuses_in_order() {
    for (image, refusal) in [
        (&[0x10, 0x00, 0x00, 0x01][..], 8),
        (&[0x11, 0x00, 0x00, 0x00], 8),
        (&[0x20, 0x00, 0x00, 0x00], 8),
        (&[0x99, 0x99, 0x99, 0x99], 8),
        (&[0x99, 0x99, 0x99, 0x9A], 30),
        (&[0x99, 0x99, 0x99, 0xA9], 30),
        (&[0x9A, 0x99, 0x99, 0x99], 30),
        (&[0xA0, 0x00, 0x00, 0x00], 30),
        (&[0x10, 0x00, 0x00, 0x0A], 30),
        (&[0x00, 0x0F, 0x00, 0x00], 30),
        (&[0xFF, 0xFF, 0xFF, 0xFF], 30),
        (&[0x99, 0x99, 0x99, 0x99, 0x9A], 2),
        (&[0x01, 0x00, 0x00, 0x00, 0xAA], 2),
        (&[0xAA, 0xAA, 0xAA], 2),
        (&[0x99, 0x99, 0x99, 0x99, 0x99], 2),
        (&[0x01, 0x00, 0x00], 2),
        (&[], 2),
    ] {
        assert_eq!(number(read(image)), refusal, "{image:02X?}");
    }
}

#[test]
fn only_four_bytes_are_read() {
    for length in 0..=9 {
        for (byte, of_four) in [(0x00, 0), (0x99, 8), (0xAA, 30)] {
            let right = if length == 4 { of_four } else { 2 };
            assert_eq!(number(read(&vec![byte; length])), right, "{length} {byte}");
        }
    }
}

/// 2 before 8, and a refused write leaves what it was lent.
#[test]
fn refused_writes_leave_every_byte() {
    let over = [MOST + 1, 99_999_999, 100_000_000, 1 << 32, (1 << 32) + 1];
    for length in 0..=9 {
        for coupon in [0, 1, MOST].into_iter().chain(over).chain([u64::MAX]) {
            for step in [0, 1, 85] {
                let mut image: Vec<u8> = (0..length)
                    .map(|place| (0xC9 + step * place) as u8)
                    .collect();
                let before = image.clone();
                let right = match (length, coupon) {
                    (4, 0..=MOST) => 0,
                    (4, _) => 8,
                    _ => 2,
                };
                let found = number(write(&mut image, coupon));
                assert_eq!(found, right, "{length} {coupon}");
                assert_eq!(image == before, right != 0, "{length} {coupon}");
            }
        }
    }
}

/// The last coupon that is taken, and the first that is not, both ways.
#[test]
fn the_limit_is_the_same_both_ways() {
    let mut image = [0x55; 4];
    assert_eq!(write(&mut image, 10_000_001), Err(Refusal::Coupon));
    assert_eq!(image, [0x55; 4]);
    assert_eq!(read(&[0x10, 0x00, 0x00, 0x01]), Err(Refusal::Coupon));
    assert_eq!(write(&mut image, 10_000_000), Ok(()));
    assert_eq!(read(&image), Ok(10_000_000));
}
