//! What a deck writes to its register, read off its listing.

use lavroudem_model::commands::decode;
use lavroudem_model::register::{LIVE, UNISSUED, WITHDRAWN};

/// A byte of the register before and after an accepted issue or withdraw.
#[derive(Clone, Copy, Debug, PartialEq, Eq)]
pub struct Write {
    pub number: usize,
    pub old: u8,
    pub new: u8,
    /// The bytes of the listing up to the start of its line.
    pub before: usize,
    /// And up to its end.
    pub shown: usize,
}

/// In the order of the deck. A deck that is stopped has no line after that.
pub fn told(deck: &[u8], listing: &str) -> Vec<Write> {
    let mut writes = Vec::new();
    let mut lines = listing.split_inclusive('\n');
    let (mut at, mut shown) = (0, 0);
    while at < deck.len() {
        let Ok(read) = decode(&deck[at..]) else { break };
        at += read.length;
        if read.command.is_entry() {
            continue;
        }
        let Some(line) = lines.next() else { break };
        let before = shown;
        shown += line.len();
        let (old, new) = match line {
            "issue 0\n" => (UNISSUED, LIVE),
            "withdraw 0\n" => (LIVE, WITHDRAWN),
            _ => continue,
        };
        let number = read.operands()[0] as usize;
        writes.push(Write {
            number,
            old,
            new,
            before,
            shown,
        });
    }
    writes
}
