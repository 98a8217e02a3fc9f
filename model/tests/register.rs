//! The register: both calls over every byte, wrong lengths, cut writes.

mod common;

use common::Random;
use lavroudem_model::refusal::Refusal;
use lavroudem_model::register::{
    blank, cut_issue, cut_withdrawal, cut_write, issue, status, withdraw, Status,
};

type RegisterCall = fn(&mut [u8], u8) -> Result<(), Refusal>;

/// Makes the call on a register with `byte` at `number` and other bytes of
/// every status, sees that only that byte may change, and returns it.
fn byte_after(call: RegisterCall, number: u8, byte: u8) -> (u8, Result<(), Refusal>) {
    let place = usize::from(number);
    let mut register: Vec<u8> = (0..=255).map(|other: u8| other.wrapping_mul(85)).collect();
    register[place] = byte;
    let before = register.clone();
    let answer = call(&mut register, number);
    let found = register[place];
    register[place] = byte;
    assert_eq!(register, before);
    (found, answer)
}

#[test]
fn blank_register_is_256_bytes_of_ff() {
    assert_eq!(blank(), [0xFF; 256]);
}

#[test]
fn status_of_every_byte() {
    for byte in 0..=255 {
        let expected = match byte {
            0xFF => Status::Unissued,
            0xA5 => Status::Live,
            _ => Status::Withdrawn,
        };
        assert_eq!(status(byte), expected);
    }
}

#[test]
fn issue_over_every_byte_of_every_number() {
    for number in 0..=255 {
        for byte in 0..=255 {
            let expected = match byte {
                0xFF => (0xA5, Ok(())),
                0xA5 => (0xA5, Err(Refusal::Live)),
                _ => (byte, Err(Refusal::Withdrawn)),
            };
            assert_eq!(byte_after(issue, number, byte), expected);
        }
    }
}

#[test]
fn withdraw_over_every_byte_of_every_number() {
    for number in 0..=255 {
        for byte in 0..=255 {
            let expected = match byte {
                0xFF => (0xFF, Err(Refusal::Unissued)),
                0xA5 => (0x00, Ok(())),
                _ => (byte, Err(Refusal::Withdrawn)),
            };
            assert_eq!(byte_after(withdraw, number, byte), expected);
        }
    }
}

/// Length is named before any status, and nothing is written, not even
/// where the byte of the number is there.
#[test]
fn register_of_another_length_is_refused_first() {
    for length in [0, 1, 7, 255, 257, 512] {
        for byte in [0xFF, 0xA5, 0x00, 0x24] {
            for number in [0, 6, 7, 254, 255] {
                for call in [issue as RegisterCall, withdraw] {
                    let mut register = vec![byte; length];
                    assert_eq!(call(&mut register, number), Err(Refusal::Length));
                    assert_eq!(register, vec![byte; length]);
                }
            }
        }
    }
}

#[test]
fn cut_issue_leaves_one_of_sixteen_bytes() {
    let left = cut_issue();
    let expected = [
        0xA5, 0xA7, 0xAD, 0xAF, 0xB5, 0xB7, 0xBD, 0xBF, //
        0xE5, 0xE7, 0xED, 0xEF, 0xF5, 0xF7, 0xFD, 0xFF,
    ];
    assert_eq!(left, expected);
    let with = |wanted: Status| left.iter().filter(|&&byte| status(byte) == wanted).count();
    assert_eq!(with(Status::Unissued), 1);
    assert_eq!(with(Status::Live), 1);
    assert_eq!(with(Status::Withdrawn), 14);
}

#[test]
fn cut_withdrawal_leaves_one_of_sixteen_bytes_and_never_an_unissued_one() {
    let left = cut_withdrawal();
    let expected = [
        0x00, 0x01, 0x04, 0x05, 0x20, 0x21, 0x24, 0x25, //
        0x80, 0x81, 0x84, 0x85, 0xA0, 0xA1, 0xA4, 0xA5,
    ];
    assert_eq!(left, expected);
    let with = |wanted: Status| left.iter().filter(|&&byte| status(byte) == wanted).count();
    assert_eq!(with(Status::Unissued), 0);
    assert_eq!(with(Status::Live), 1);
    assert_eq!(with(Status::Withdrawn), 15);
}

/// Bit by bit: a bit the write should clear may be either, any other stays.
#[test]
fn cut_write_changes_only_bits_it_should_clear() {
    for old in 0..=255_u8 {
        for new in 0..=255_u8 {
            let left = cut_write(old, new);
            assert!(left.contains(&old) && left.contains(&(old & new)));
            assert_eq!(left.len(), 1 << (old & !new).count_ones());
            for bit in 0..8 {
                let at = |byte: u8| byte >> bit & 1;
                for &byte in &left {
                    let free = at(old) == 1 && at(new) == 0;
                    assert!(free || at(byte) == at(old));
                }
            }
        }
    }
}

/// After a power loss the desk may ask again; what was found withdrawn
/// stays so, and only a live number can still be withdrawn.
#[test]
fn calls_after_a_cut_write_follow_what_is_found() {
    for byte in cut_withdrawal() {
        let issued = byte_after(issue, 9, byte);
        let withdrawn = byte_after(withdraw, 9, byte);
        if byte == 0xA5 {
            assert_eq!(issued, (0xA5, Err(Refusal::Live)));
            assert_eq!(withdrawn, (0x00, Ok(())));
        } else {
            assert_eq!(issued, (byte, Err(Refusal::Withdrawn)));
            assert_eq!(withdrawn, (byte, Err(Refusal::Withdrawn)));
        }
    }
    for byte in cut_issue() {
        let issued = byte_after(issue, 9, byte);
        match byte {
            0xFF => assert_eq!(issued, (0xA5, Ok(()))),
            0xA5 => assert_eq!(issued, (0xA5, Err(Refusal::Live))),
            _ => assert_eq!(issued, (byte, Err(Refusal::Withdrawn))),
        }
    }
}

/// Random calls, each of which power may cut: the write of an accepted call
/// may stop anywhere between the old byte and the new one.
#[test]
fn accepted_withdrawal_outlasts_every_later_call_and_power_loss() {
    let mut random = Random::new(9);
    let mut cut_calls = 0;
    let mut refused_after_withdrawal = 0;
    for _ in 0..200 {
        let mut register = blank();
        let mut withdrawn = [false; 256];
        for _ in 0..200 {
            let number = random.between(0, 15) as u8;
            let place = usize::from(number);
            let old = register.clone();
            let withdrawing = random.between(0, 1) == 0;
            let call = if withdrawing { withdraw } else { issue };
            let answer = call(&mut register, number);
            if withdrawn[place] {
                assert_eq!(answer, Err(Refusal::Withdrawn));
                refused_after_withdrawal += 1;
            }
            if register != old && random.between(0, 3) == 0 {
                let left = cut_write(old[place], register[place]);
                register[place] = left[random.between(0, left.len() as u64 - 1) as usize];
                cut_calls += 1;
            } else if withdrawing && answer.is_ok() {
                withdrawn[place] = true;
            }
            for (place, &gone) in withdrawn.iter().enumerate() {
                assert!(!gone || status(register[place]) == Status::Withdrawn);
            }
        }
    }
    assert!(cut_calls > 500);
    assert!(refused_after_withdrawal > 5_000);
}
