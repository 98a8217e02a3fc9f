//! The register of sheet numbers (document 01, "Register").
//!
//! A register comes as lent bytes, so its length is checked by each call.

use crate::refusal::{refuse_if, Refusal};

/// One byte for each sheet number, 0 to 255.
pub const REGISTER_LENGTH: usize = 256;

pub const UNISSUED: u8 = 0xFF;
pub const LIVE: u8 = 0xA5;

/// What a finished withdrawal leaves. A cut write may leave other bytes that
/// mean the same.
pub const WITHDRAWN: u8 = 0x00;

/// What a byte of the register says of its number.
#[derive(Clone, Copy, Debug, PartialEq, Eq)]
pub enum Status {
    Unissued,
    Live,
    Withdrawn,
}

/// A register that has seen no call.
pub fn blank() -> Vec<u8> {
    vec![UNISSUED; REGISTER_LENGTH]
}

pub fn status(byte: u8) -> Status {
    match byte {
        UNISSUED => Status::Unissued,
        LIVE => Status::Live,
        _ => Status::Withdrawn,
    }
}

/// Makes an unissued number live. Checks 2, 9 and 17: document 01 spares
/// issue check 10.
pub fn issue(register: &mut [u8], number: u8) -> Result<(), Refusal> {
    refuse_if(length_fault(register), Refusal::Length)?;
    let found = status(register[usize::from(number)]);
    refuse_if(found == Status::Withdrawn, Refusal::Withdrawn)?;
    refuse_if(found == Status::Live, Refusal::Live)?;
    write(register, number, LIVE);
    Ok(())
}

/// Ends a live number for good. Checks 2, 9 and 10; 17 is only for issue.
pub fn withdraw(register: &mut [u8], number: u8) -> Result<(), Refusal> {
    refuse_if(length_fault(register), Refusal::Length)?;
    check_live(register, number)?;
    write(register, number, WITHDRAWN);
    Ok(())
}

/// The part of check 2 that concerns the register.
pub fn length_fault(register: &[u8]) -> bool {
    register.len() != REGISTER_LENGTH
}

/// Checks 9 and 10, on a register of the right length.
pub fn check_live(register: &[u8], number: u8) -> Result<(), Refusal> {
    let found = status(register[usize::from(number)]);
    refuse_if(found == Status::Withdrawn, Refusal::Withdrawn)?;
    refuse_if(found == Status::Unissued, Refusal::Unissued)
}

/// The memory can lose bits but not gain them, so a write is an "and".
fn write(register: &mut [u8], number: u8, new: u8) {
    register[usize::from(number)] &= new;
}

/// Every byte that may be found after power failed in a write of `new` over
/// `old`: each bit that was to go may be gone or still there, and the rest
/// are as before. `old` itself and the finished byte are among them.
pub fn cut_write(old: u8, new: u8) -> Vec<u8> {
    let should_clear = old & !new;
    let mut left = Vec::new();
    for byte in 0..=u8::MAX {
        let cleared = old & !byte;
        let set = byte & !old;
        if set == 0 && cleared & !should_clear == 0 {
            left.push(byte);
        }
    }
    left
}

/// What a cut issue may leave of its byte.
pub fn cut_issue() -> Vec<u8> {
    cut_write(UNISSUED, LIVE)
}

/// What a cut withdrawal may leave of its byte.
pub fn cut_withdrawal() -> Vec<u8> {
    cut_write(LIVE, WITHDRAWN)
}
