//! What a deck writes to its register, read off its listing.

use super::Call;

/// An accepted issue or withdraw.
pub(super) struct Told {
    pub(super) call: Call,
    pub(super) number: u8,
    /// Where its line starts in the listing.
    pub(super) line: usize,
}

const ISSUE: u8 = 0x06;
const WITHDRAW: u8 = 0x07;
const FORWARD: u8 = 0x0C;

/// The bytes of a command with its operands, by its first byte.
fn length(command: u8) -> Option<usize> {
    // 00 is no command.
    const LENGTHS: [usize; 14] = [0, 10, 5, 5, 9, 5, 2, 2, 1, 3, 3, 3, 4, 5];
    let length = LENGTHS.get(usize::from(command)).copied()?;
    (length > 0).then_some(length)
}

/// The writes of a deck in their order. None if the listing has not a line
/// for each call of the deck, up to the one that stops it.
pub(super) fn told(deck: &[u8], listing: &[u8]) -> Option<Vec<Told>> {
    let mut writes = Vec::new();
    let mut rest = deck;
    let mut line = 0;
    for text in listing.split_inclusive(|&byte| byte == b'\n') {
        let last = line + text.len() == listing.len();
        if text.starts_with(b"deck ") {
            return last.then_some(writes);
        }
        let order = next_call(&mut rest)?;
        if let Some(call) = accepted(order[0], text) {
            let number = order[1];
            writes.push(Told { call, number, line });
        }
        line += text.len();
    }
    next_call(&mut rest).is_none().then_some(writes)
}

/// The next command that has a line; the entries of a sheet have none.
fn next_call<'a>(rest: &mut &'a [u8]) -> Option<&'a [u8]> {
    loop {
        let length = length(*rest.first()?)?;
        let (command, behind) = rest.split_at_checked(length)?;
        *rest = behind;
        // 0D, an elapsed fraction, is an entry behind the calls.
        if (ISSUE..=FORWARD).contains(&command[0]) {
            return Some(command);
        }
    }
}

fn accepted(command: u8, line: &[u8]) -> Option<Call> {
    match (command, line) {
        (ISSUE, b"issue 0\n") => Some(crate::issue),
        (WITHDRAW, b"withdraw 0\n") => Some(crate::withdraw),
        _ => None,
    }
}
