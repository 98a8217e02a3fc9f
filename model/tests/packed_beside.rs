//! The proved engine beside the model, on coupons in packed decimal: the same
//! images and coupons, and buffers of up to nine bytes. Number, coupon and every
//! byte of the buffer must be equal after every call.
#![cfg(feature = "engine")]

use lavroudem_model::engine::refusal;
use lavroudem_model::packed;
use lavroudem_model::random::Random;
use lavroudem_model::refusal::Refusal;
use lavroudem_model::trials;
use std::collections::BTreeMap;

const MOST: u64 = lavroudem::MAX_COUPON;

/// Document 01's number, and the coupon; after a refusal there is none.
type Reading = (u8, Option<u64>);

/// Reads on both sides.
fn read(image: &[u8]) -> Reading {
    let engine = match lavroudem::read_packed(image) {
        Ok(coupon) => (0, Some(coupon)),
        Err(refusal) => (refusal.number(), None),
    };
    let model = match packed::read(image) {
        Ok(coupon) => (0, Some(coupon)),
        Err(refusal) => (refusal.number(), None),
    };
    assert_eq!(engine, model, "{image:02X?}");
    engine
}

/// Writes on both sides, over the same bytes; what is left comes in `buffer`.
fn write(buffer: &mut [u8], coupon: u64) -> u8 {
    let mut other = buffer.to_vec();
    let engine =
        lavroudem::write_packed(buffer, coupon).map_or_else(|refusal| refusal.number(), |()| 0);
    let model = packed::write(&mut other, coupon).map_or_else(Refusal::number, |()| 0);
    assert_eq!(engine, model, "{coupon} in {} bytes", other.len());
    assert_eq!(buffer, other, "{coupon}");
    engine
}

/// Over bytes that are no image, and then over the image before.
#[test]
fn every_coupon_is_written_and_read_alike() {
    let mut image = [0xEE; 4];
    for coupon in 0..=MOST {
        assert_eq!(write(&mut image, coupon), 0);
        assert_eq!(read(&image), (0, Some(coupon)));
    }
    let last = image;
    assert_eq!(write(&mut image, MOST + 1), 8);
    assert_eq!(image, last);
    assert_eq!(read(&[0x10, 0x00, 0x00, 0x01]), (8, None));
}

/// Digits for the most part, and a small first byte in half of them, so that
/// each answer is met often.
fn random_image(random: &mut Random) -> [u8; 4] {
    let mut draw = random.draw();
    let any_half = draw % 4 == 0;
    let small = draw / 4 % 2 == 0;
    draw /= 8;
    let mut half = || {
        let most = if any_half { 16 } else { 10 };
        let half = draw % most;
        draw /= most;
        half as u8
    };
    let mut image = [0; 4];
    image.fill_with(|| 16 * half() + half());
    if small {
        image[0] %= 17;
    }
    image
}

#[test]
fn random_images_are_read_alike() {
    let mut random = Random::new(0x9AC4_0002);
    let mut met = BTreeMap::new();
    for _ in 0..4_000_000 {
        let mut image = random_image(&mut random);
        let (number, coupon) = read(&image);
        *met.entry(number).or_insert(0) += 1;
        if let Some(coupon) = coupon {
            let before = image;
            assert_eq!(write(&mut image, coupon), 0);
            assert_eq!(image, before);
        }
    }
    let answers: Vec<u8> = met.keys().copied().collect();
    assert_eq!(answers, [0, 8, 30]);
    assert!(met.values().all(|&times| times > 400_000), "{met:?}");
}

/// Beside zeros, nines, and halves that are no digit.
#[test]
fn every_byte_at_every_place_is_read_alike() {
    let mut met = BTreeMap::new();
    for others in [0x00, 0x99, 0x0A, 0xA0, 0xFF] {
        for place in 0..4 {
            for byte in 0..=255 {
                let mut image = [others; 4];
                image[place] = byte;
                *met.entry(read(&image).0).or_insert(0) += 1;
            }
        }
    }
    // Alone 00 to 10, or 00 to 99; before nines 00 to 09.
    assert_eq!(met[&0], 11 + 3 * 100 + 10);
}

fn random_bytes(random: &mut Random, length: usize) -> Vec<u8> {
    (0..length).map(|_| random.draw() as u8).collect()
}

#[test]
fn other_lengths_are_read_alike() {
    let mut random = Random::new(0x9AC4_0003);
    for length in 0..=9 {
        for byte in [0x00, 0x01, 0x99, 0x9A, 0xFF] {
            let (number, _) = read(&vec![byte; length]);
            assert_eq!(number == 2, length != 4, "{length} {byte}");
        }
        for _ in 0..1_000 {
            let (number, _) = read(&random_bytes(&mut random, length));
            assert_eq!(number == 2, length != 4, "{length}");
        }
    }
}

/// Coupons that are taken, those beside the limit, and those of which a
/// narrower number would be one that is taken.
fn coupons(random: &mut Random) -> Vec<u64> {
    let mut coupons = vec![0, 1, MOST - 1, MOST, MOST + 1, MOST + 2];
    coupons.extend([99_999_999, 100_000_000, 100_000_001, 1 << 63, u64::MAX]);
    for bits in [8, 16, 24, 32, 33, 40, 48, 56, 63] {
        coupons.extend((0..=3).map(|more| (1 << bits) - 1 + more));
        coupons.push((1 << bits) + MOST);
    }
    coupons.extend((0..=3).map(|less| u64::MAX - less));
    coupons.extend((0..20).map(|_| random.between(0, MOST)));
    coupons.extend((0..20).map(|_| random.draw()));
    coupons
}

/// What is refused leaves its buffer, and no other length is written.
#[test]
fn odd_coupons_and_lengths_are_written_alike() {
    let mut random = Random::new(0x9AC4_0004);
    let mut met = BTreeMap::new();
    for _ in 0..20 {
        for coupon in coupons(&mut random) {
            for length in 0..=9 {
                let mut buffer = random_bytes(&mut random, length);
                let before = buffer.clone();
                let number = write(&mut buffer, coupon);
                assert_eq!(number == 2, length != 4, "{length}");
                assert_eq!(number == 8, length == 4 && coupon > MOST, "{coupon}");
                assert!(number == 0 || buffer == before, "{coupon} in {length}");
                *met.entry(number).or_insert(0) += 1;
            }
        }
    }
    let answers: Vec<u8> = met.keys().copied().collect();
    assert_eq!(answers, [0, 2, 8]);
}

/// The lines of the trials, through the archive that callers link; and the
/// crate has the words too.
#[test]
fn trials_are_answered_alike() {
    let engine = trials::packed_lines(
        |image| lavroudem::read_packed(image).map_err(refusal),
        |image, coupon| lavroudem::write_packed(image, coupon).map_err(refusal),
    );
    assert_eq!(engine, trials::packed_lines(packed::read, packed::write));
}
