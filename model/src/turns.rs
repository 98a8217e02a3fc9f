//! Turns at a terminal (T-11): which of its walks goes back by 1 next, so that
//! a long one does not hold up the others.

use crate::refusal::{refuse_if, Refusal};
use crate::walk::Walk;
use std::collections::VecDeque;

/// Of a table, which has at least one.
pub const MAX_WALKS: usize = 16;

/// Of each walk.
pub const MAX_LEFT: u16 = 3_650;

/// Of the list that a call fills.
pub const MAX_PLACES: usize = 65_535;

/// One walk of a table. Only the steps left play a part, not even whether the
/// walk is open.
#[derive(Clone, Copy, Debug, PartialEq, Eq)]
pub struct Turn {
    pub walk: Walk,
    pub left: u16,
}

/// Writes the places of the walks whose turn it is at the start of `list`, and
/// gives how many. `place` is the one served last, before and after. Checks 29
/// and nothing else, before anything is written.
pub fn turns(table: &mut [Turn], place: &mut usize, list: &mut [u8]) -> Result<usize, Refusal> {
    refuse_if(fault(table, *place, list), Refusal::Turns)?;
    // Whoever was served last waits behind all others.
    let once_round = (0..table.len()).cycle().skip(*place + 1);
    let mut waiting: VecDeque<usize> = once_round.take(table.len()).collect();
    waiting.retain(|&walk| table[walk].left > 0);
    let mut written = 0;
    for entry in list {
        let Some(next) = waiting.pop_front() else {
            break;
        };
        *entry = u8::try_from(next).expect("a table of more than 256 walks");
        table[next].left -= 1;
        if table[next].left > 0 {
            waiting.push_back(next);
        }
        *place = next;
        written += 1;
    }
    Ok(written)
}

fn fault(table: &[Turn], place: usize, list: &[u8]) -> bool {
    table.is_empty()
        || table.len() > MAX_WALKS
        || place >= table.len()
        || table.iter().any(|turn| turn.left > MAX_LEFT)
        || list.len() > MAX_PLACES
}
