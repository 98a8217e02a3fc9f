//! Turns: the calls on the page, its limits, and the calls that follow one
//! another.

use super::{cells, ensure, named, same, says, section, table, whole, Found};
use crate::arithmetic::commas;
use crate::common::turns::{left, Lent, Played};
use lavroudem_model::refusal::Refusal;
use lavroudem_model::turns::{turns, Turn, MAX_LEFT, MAX_PLACES, MAX_WALKS};
use lavroudem_model::walk::Walk;

/// The steps left, place and entries of the page's table. A page with others
/// might be right too, but most changes of a refused call leave it refused.
const LENT: [(&[u16], usize, usize); 11] = [
    (&[2, 2, 2], 0, 3),
    (&[2, 2, 2], 2, 4),
    (&[2, 2, 2], 1, 2),
    (&[1, 0, 2, 1], 0, 9),
    (&[0, 3, 0], 1, 2),
    (&[0, 0], 1, 4),
    (&[2, 2], 1, 0),
    (&[MAX_LEFT], 0, 1),
    (&[MAX_LEFT + 1], 0, 1),
    (&[1, 1], 2, 1),
    (&[], 0, 1),
];

fn lent(steps: &[u16], place: usize, entries: usize) -> Lent {
    let walk = Walk::fresh();
    Lent {
        table: steps.iter().map(|&left| Turn { walk, left }).collect(),
        place,
        list: vec![0xFF; entries],
    }
}

fn list<T: Copy + Into<i128>>(numbers: &[T]) -> String {
    if numbers.is_empty() {
        return "none".to_string();
    }
    let numbers: Vec<String> = numbers.iter().map(|&n| commas(n.into())).collect();
    numbers.join(", ")
}

/// The cells that tell of a call: what was written, and what is left.
fn told(after: &Lent, answer: Result<usize, Refusal>) -> [String; 3] {
    let written = match answer {
        Ok(count) => list(&after.list[..count]),
        Err(refusal) => format!("`{} {}`", refusal.number(), refusal.word()),
    };
    [written, list(&left(&after.table)), after.place.to_string()]
}

pub fn turns_are_the_models(page: &str) -> Found {
    let rows = table(page, "| Steps left | Place | Entries |")?;
    same(rows.len(), LENT.len(), "calls for turns")?;
    for (row, (steps, place, entries)) in rows.iter().zip(LENT) {
        let (after, answer) = lent(steps, place, entries).after(turns);
        let [written, left, then] = told(&after, answer);
        let right = [
            &list(steps),
            &place.to_string(),
            &entries.to_string(),
            &written,
            &left,
            &then,
        ];
        same(
            row.join(" | "),
            right.map(String::as_str).join(" | "),
            "turns",
        )?;
    }
    Ok(())
}

/// What prose says with numbers.
const PHRASES: &[&str] = &[
    "takes them back by 1 in turns,",
    "is that of its record, counted from 0.",
    "from the last place on to place 0, and its first stop is the place behind the one given,",
    "the steps left in a turn table any number of 16 bits,",
    "| each call for turns begun at place 0 |",
];

pub fn turns_are_described(page: &str) -> Found {
    let steps = [MAX_LEFT; MAX_WALKS];
    let (_, answer) = lent(&steps, 0, MAX_PLACES).after(turns);
    let all = answer.map_err(|refusal| format!("{refusal:?}"))?;
    same(all, MAX_WALKS * usize::from(MAX_LEFT), "all steps")?;
    let of_a_refusal = usize::from(Refusal::Turns.number());
    let (_, answer) = lent(&[20, 20], 0, of_a_refusal).after(turns);
    same(answer, Ok(of_a_refusal), "as many as the refusal's number")?;
    let counted = [
        format!("since there may well be {of_a_refusal} of them."),
        format!("of any table, which are {} at most.", commas(all as i128)),
    ];
    let counted = counted.iter().map(String::as_str);
    for phrase in PHRASES.iter().copied().chain(counted) {
        says(page, phrase)?;
    }
    let turn = lent(&[1], 0, 0).table[0];
    same(
        8 * std::mem::size_of_val(&turn.left),
        16,
        "bits of the steps left",
    )
}

/// What a call is answered: 0 or the number of a refusal.
fn answer(steps: &[u16], place: usize, entries: usize) -> u8 {
    let (_, answer) = lent(steps, place, entries).after(turns);
    answer.map_or_else(Refusal::number, |_| 0)
}

pub fn limits_of_turns_are_the_models(page: &str) -> Found {
    let limits: [(&str, &dyn Fn(usize) -> u8); 4] = [
        ("walks of the table", &|walks| answer(&vec![1; walks], 0, 3)),
        ("place given, of so many walks", &|place| {
            answer(&[1; 5], place, 3)
        }),
        ("steps left of a walk", &|steps| {
            answer(&[1, steps as u16, 1], 0, 3)
        }),
        ("entries of the list", &|entries| {
            answer(&[1, 1], 0, entries)
        }),
    ];
    let rows = table(page, "| For turns | Least |")?;
    same(rows.len(), limits.len(), "limits of turns")?;
    for (row, (limit, answer)) in rows.iter().zip(limits) {
        let [name, least, most, refusal] = cells(row)?;
        same(name, limit, "a limit")?;
        let refusal = named(refusal.trim_matches('`'))?.number();
        let least = whole(least)? as usize;
        let most = match most {
            "walks - 1" => 5 - 1,
            most => whole(most)? as usize,
        };
        for (value, right) in [(least, 0), (most, 0), (most + 1, refusal)] {
            same(answer(value), right, &format!("{name} {value}"))?;
        }
        // Nothing else is below 0.
        match least.checked_sub(1) {
            Some(below) => same(answer(below), refusal, name)?,
            None => ensure(limit != "walks of the table", || "no walk".into())?,
        }
    }
    Ok(())
}

/// The steps left and the place before the calls, and the entries of each.
const CALLS: (&[u16], usize, [usize; 7]) = (&[9, 2, 1, 3], 3, [3, 0, 3, 65_536, 3, 9, 9]);

/// Calls that follow one another, and what is read off them.
pub fn worked_turns_are_right(page: &str) -> Found {
    let part = section(page, "### Turns: four walks, call by call")?;
    let (start, place, entries) = CALLS;
    let said = format!(
        "Four walks have {} steps left, and place {place} had the last turn.",
        list(start)
    );
    says(part, &said)?;
    let rows = table(part, "| Call | Entries |")?;
    same(rows.len(), entries.len(), "worked turns")?;
    let mut now = lent(start, place, 0);
    let mut calls: Vec<Vec<usize>> = Vec::new();
    for ((row, entries), call) in rows.iter().zip(entries).zip(1..) {
        now.list = vec![0xFF; entries];
        let (after, answer) = now.after(turns);
        let [written, left, then] = told(&after, answer);
        let entries = commas(entries as i128);
        let right = format!("{call} | {entries} | {written} | {left} | {then}");
        same(row.join(" | "), right, "worked turns")?;
        let count = answer.unwrap_or(0);
        calls.push(after.list[..count].iter().map(|&at| at.into()).collect());
        now = after;
    }
    is_read_off(part, start, &calls)
}

/// What is said below the table: of the first two turns of a walk, of those in
/// between, and of the last call with a turn.
fn is_read_off(part: &str, start: &[u16], calls: &[Vec<usize>]) -> Found {
    let played = Played {
        start: start.to_vec(),
        turns: calls.concat(),
        stands: vec![],
        refused: 0,
    };
    played.fair()?;
    let of_walk_0 = |call: &&Vec<usize>| call.contains(&0);
    let number = |call: &Vec<usize>| calls.iter().position(|other| other == call).unwrap() + 1;
    let with_it: Vec<usize> = calls.iter().filter(of_walk_0).map(number).collect();
    let second = played.turns.iter().skip(1).position(|&walk| walk == 0);
    let in_between = &played.turns[1..=second.ok_or("one turn alone")?];
    same(in_between, &[1, 2, 3], "turns in between")?;
    let last_of_1 = calls.iter().rposition(|call| call.last() == Some(&1));
    let in_a_row = with_it[3];
    same(&calls[in_a_row - 1], &vec![0; 6], "turns in a row")?;
    let said = [
        format!(
            "of walk 0 are of call {} and call {}.",
            with_it[0], with_it[1]
        ),
        "In between, walk 1 had one turn and kept a step, and so did walk 3;".to_string(),
        "walk 2 had its last. Walk 1 has its own at the end of call ".to_string(),
        format!("at the end of call {}.", last_of_1.map_or(0, |at| at + 1)),
        "From then on walk 0 meets walk 3 alone,".to_string(),
        format!("it has the six turns of call {in_a_row} in a row."),
    ];
    said.iter().try_for_each(|said| says(part, said))
}

/// What the call answers with these faults.
pub fn refused_turns(numbers: &[u8]) -> Option<u8> {
    let beyond = u16::from(numbers.contains(&29));
    let (_, answer) = lent(&[MAX_LEFT + beyond], 0, 1).after(turns);
    answer.err().map(Refusal::number)
}
