//! Turns: calls by hand, each reason of 29 at its limit and one past it, and
//! fairness over lists of calls, which finds wrong ones.

mod common;

use common::turns::{call, left, play, Lent, Met, Played, Serve};
use common::Random;
use lavroudem_model::refusal::{refuse_if, Refusal};
use lavroudem_model::turns::{turns, Turn};
use lavroudem_model::walk::Walk;

/// Fresh walks with these steps left, and a list of bytes EE.
fn lent(left: &[u16], place: usize, room: usize) -> Lent {
    let turn = |&left: &u16| Turn {
        walk: Walk::fresh(),
        left,
    };
    Lent {
        table: left.iter().map(turn).collect(),
        place,
        list: vec![0xEE; room],
    }
}

/// Steps left, place served last and room; then the places that are written,
/// the steps left after them and the place served last then.
type Case<'a> = (&'a [u16], usize, usize, &'a [u8], &'a [u16], usize);

const CASES: [Case; 20] = [
    // After the place and not from it; the place itself comes last.
    (&[2, 2, 2], 0, 3, &[1, 2, 0], &[1, 1, 1], 0),
    (&[2, 2, 2], 1, 3, &[2, 0, 1], &[1, 1, 1], 1),
    (&[2, 2, 2], 2, 3, &[0, 1, 2], &[1, 1, 1], 2),
    (&[2, 2, 2], 2, 1, &[0], &[1, 2, 2], 0),
    (&[2, 2, 2], 1, 2, &[2, 0], &[1, 2, 1], 0),
    (&[2, 2, 2], 0, 4, &[1, 2, 0, 1], &[1, 0, 1], 1),
    // Walks without steps are passed over, at the place too.
    (&[1, 0, 2, 1], 0, 9, &[2, 3, 0, 2], &[0, 0, 0, 0], 2),
    (&[1, 0, 2, 1], 1, 2, &[2, 3], &[1, 0, 1, 0], 3),
    (&[0, 0, 0, 5], 1, 2, &[3, 3], &[0, 0, 0, 3], 3),
    (&[5, 0, 0, 0], 1, 2, &[0, 0], &[3, 0, 0, 0], 0),
    // One walk alone has every turn, also behind the others' last.
    (&[3], 0, 2, &[0, 0], &[1], 0),
    (&[0, 3, 0], 1, 5, &[1, 1, 1], &[0, 0, 0], 1),
    (&[3, 1], 0, 9, &[1, 0, 0, 0], &[0, 0], 0),
    (&[1, 3], 0, 9, &[1, 0, 1, 1], &[0, 0], 1),
    // None is left, or there is no room: the place stays.
    (&[0, 0], 1, 4, &[], &[0, 0], 1),
    (&[0, 0], 0, 0, &[], &[0, 0], 0),
    (&[2, 2, 2], 1, 0, &[], &[2, 2, 2], 1),
    // As many as there is room for, and as there are steps.
    (&[1, 2], 1, 3, &[0, 1, 1], &[0, 0], 1),
    (&[1, 2], 1, 2, &[0, 1], &[0, 1], 1),
    (&[1, 2], 1, 4, &[0, 1, 1], &[0, 0], 1),
];

#[test]
fn worked_calls() {
    for (steps, place, room, places, after, served_last) in CASES {
        let (lent, answer) = lent(steps, place, room).after(turns);
        assert_eq!(answer, Ok(places.len()), "{steps:?} {place} {room}");
        let (written, rest) = lent.list.split_at(places.len());
        assert_eq!(written, places, "{steps:?} {place} {room}");
        assert_eq!(rest, vec![0xEE; room - places.len()]);
        assert_eq!(left(&lent.table), after, "{steps:?} {place} {room}");
        assert_eq!(lent.place, served_last, "{steps:?} {place} {room}");
    }
}

/// The place of each call is the one that the call before handed back.
#[test]
fn a_long_walk_holds_up_nobody() {
    let mut table = lent(&[3_650, 2, 1, 3], 0, 0).table;
    let mut place = 3;
    let rounds: [&[u8]; 5] = [&[0, 1, 2], &[3, 0, 1], &[3, 0, 3], &[0, 0, 0], &[0, 0, 0]];
    for round in rounds {
        let mut list = [0xEE; 3];
        assert_eq!(turns(&mut table, &mut place, &mut list), Ok(3));
        assert_eq!(list, round);
        assert_eq!(place, usize::from(round[2]));
    }
    assert_eq!(left(&table), [3_641, 0, 0, 0]);
}

/// As many places as the refusal has for its number.
#[test]
fn places_29_are_no_refusal() {
    let (after, answer) = lent(&[20, 20], 0, 29).after(turns);
    assert_eq!(answer, Ok(29));
    assert_eq!((left(&after.table), after.place), (vec![6, 5], 1));
}

/// All steps of the largest table go into the longest list; the rest of it
/// keeps.
#[test]
fn the_largest_table_is_served_to_its_end() {
    let (after, answer) = lent(&[3_650; 16], 15, 65_535).after(turns);
    assert_eq!(answer, Ok(58_400));
    let (written, rest) = after.list.split_at(58_400);
    for round in written.chunks(16) {
        assert!(round.iter().copied().eq(0..16), "{round:?}");
    }
    assert_eq!(rest, vec![0xEE; 65_535 - 58_400]);
    assert_eq!((left(&after.table), after.place), (vec![0; 16], 15));
}

/// Each reason by itself: what is just taken, and one past it.
#[test]
fn limits() {
    let asked = |lent: &Lent| {
        let (after, answer) = lent.after(turns);
        match answer {
            Ok(count) => assert_eq!(after.list[count..], lent.list[count..]),
            Err(_) => assert_eq!(&after, lent),
        }
        answer.err().map(Refusal::number)
    };
    // Table.
    for (walks, right) in [(0, Some(29)), (1, None), (16, None), (17, Some(29))] {
        assert_eq!(asked(&lent(&vec![1; walks], 0, 3)), right, "{walks}");
    }
    for walks in [18, 255, 256, 257, 272, 65_536, 65_552] {
        assert_eq!(asked(&lent(&vec![1; walks], 0, 3)), Some(29), "{walks}");
    }
    // Place.
    for walks in 1..=16 {
        for place in 0..walks {
            assert_eq!(asked(&lent(&vec![1; walks], place, 3)), None);
        }
        for place in [walks, walks + 1, 16, 256, 65_536, 1 << 32, usize::MAX] {
            let answer = asked(&lent(&vec![1; walks], place, 3));
            assert_eq!(answer, Some(29), "{walks} {place}");
        }
    }
    // Steps left, at every place.
    for walks in 1..=16 {
        for at in 0..walks {
            let mut steps = vec![1; walks];
            for (left, right) in [(3_650, None), (3_651, Some(29)), (u16::MAX, Some(29))] {
                steps[at] = left;
                assert_eq!(asked(&lent(&steps, 0, 3)), right, "{steps:?}");
            }
        }
    }
    // List.
    for (room, right) in [(0, None), (65_535, None), (65_536, Some(29))] {
        assert_eq!(asked(&lent(&[1], 0, room)), right, "{room}");
    }
    assert_eq!(asked(&lent(&[0; 3], 0, 65_537)), Some(29));
    assert_eq!(asked(&lent(&[0; 3], 0, 131_072)), Some(29));
    // Several at once, and none is served where no list could tell.
    assert_eq!(asked(&lent(&[], 0, 0)), Some(29));
    assert_eq!(asked(&lent(&[], 0, 65_536)), Some(29));
    assert_eq!(asked(&lent(&[3_651], 1, 0)), Some(29));
}

/// What a walk holds plays no part, and is left alone.
#[test]
fn walks_that_are_not_open_are_served() {
    let mut random = Random::new(0x7A12_0001);
    for _ in 0..20_000 {
        let before = call(&mut random);
        let mut other = before.clone();
        for turn in &mut other.table {
            turn.walk = Walk::fresh();
        }
        let ((after, answer), (other, other_answer)) = (before.after(turns), other.after(turns));
        assert_eq!(other_answer, answer);
        assert_eq!((other.place, &other.list), (after.place, &after.list));
        assert_eq!(left(&other.table), left(&after.table));
        let walks = |lent: &Lent| lent.table.iter().map(|turn| turn.walk).collect::<Vec<_>>();
        assert_eq!(walks(&after), walks(&before));
        assert!(other.table.iter().all(|turn| turn.walk == Walk::fresh()));
    }
}

/// Turn by turn: each goes to a walk with steps left, no other with steps left
/// lies between the place served before and it, and it ends only where there
/// is no more room or no step.
#[test]
fn random_calls_go_in_cyclic_order() {
    let mut random = Random::new(0x7A12_0002);
    let mut met = Met::default();
    for _ in 0..60_000 {
        let before = call(&mut random);
        let (after, answer) = before.after(turns);
        met.add(&before, answer, &after);
        let Ok(count) = answer else { continue };
        let (walks, mut place) = (before.table.len(), before.place);
        let mut steps = left(&before.table);
        for &next in &after.list[..count] {
            let next = usize::from(next);
            let passed = (1..=walks).map(|on| (place + on) % walks);
            let mut passed = passed.take_while(|&walk| walk != next);
            assert!(passed.all(|walk| steps[walk] == 0), "{before:?}");
            assert!(steps[next] > 0, "{before:?}");
            steps[next] -= 1;
            place = next;
        }
        assert_eq!((left(&after.table), after.place), (steps.clone(), place));
        assert_eq!(after.list[count..], before.list[count..]);
        let over = steps.iter().all(|&left| left == 0);
        assert!(count == before.list.len() || over, "{before:?}");
    }
    met.assert_all(300);
}

/// Two calls give what one call gives on a list as long as both.
#[test]
fn calls_go_on_where_the_last_one_ended() {
    let mut random = Random::new(0x7A12_0003);
    let mut met = [0; 2];
    for _ in 0..40_000 {
        let before = call(&mut random);
        let (whole, answer) = before.after(turns);
        let Ok(count) = answer else { continue };
        let mut parts = before.clone();
        let (first, second) = parts.list.split_at_mut(random.below(before.list.len() + 1));
        let room = first.len();
        let counts = [first, second]
            .map(|list| turns(&mut parts.table, &mut parts.place, list).expect("a refusal"));
        assert_eq!(counts[0] + counts[1], count, "{before:?}");
        assert_eq!(counts[0], count.min(room), "{before:?}");
        assert_eq!(parts, whole);
        met[usize::from(counts[0] > 0 && counts[1] > 0)] += 1;
    }
    assert!(met.iter().all(|&times| times > 8_000), "{met:?}");
}

/// How many walks were looked at between two turns of another, and how many
/// calls were refused; or why the turns were not fair.
fn judged(serve: Serve) -> Result<(usize, usize), String> {
    let mut random = Random::new(0x7A12_0004);
    let (mut looked_at, mut refused) = (0, 0);
    for _ in 0..6_000 {
        let played = play(&mut random, serve);
        looked_at += played.fair()?;
        refused += played.refused;
    }
    Ok((looked_at, refused))
}

#[test]
fn turns_are_fair_over_lists_of_calls() {
    let (looked_at, refused) = judged(turns).unwrap();
    assert!(looked_at > 800_000, "{looked_at}");
    assert!(refused > 3_000, "{refused}");
}

/// Each goes wrong in one point, and keeps the steps.
const UNFAIR: [(&str, Serve); 9] = [
    ("every call starts at place 0", |table, place, list| {
        let last = table.len() - 1;
        after(last, table, place, list)
    }),
    ("from the place and not after it", |table, place, list| {
        let before = (*place + table.len() - 1) % table.len();
        after(before, table, place, list)
    }),
    ("the longest first", |table, place, list| {
        one_by_one(table, place, list, |table, _| {
            (0..table.len()).max_by_key(|&walk| table[walk].left)
        })
    }),
    ("each walk to its end", |table, place, list| {
        one_by_one(table, place, list, |table, _| {
            (0..table.len()).find(|&walk| table[walk].left > 0)
        })
    }),
    ("one place is skipped", |table, place, list| {
        one_by_one(table, place, list, |table, place| {
            let mut round = (0..table.len()).map(|on| (place + 2 + on) % table.len());
            round.find(|&walk| table[walk].left > 0)
        })
    }),
    ("every call skips one place", |table, place, list| {
        let next = (*place + 1) % table.len();
        after(next, table, place, list)
    }),
    ("the last place waits for the end", |table, place, list| {
        let last = table.len() - 1;
        let kept = std::mem::take(&mut table[last].left);
        let answer = turns(table, place, list);
        table[last].left = kept;
        match answer {
            Ok(0) => turns(table, place, list),
            answer => answer,
        }
    }),
    ("a refused call moves the place", |table, place, list| {
        let answer = turns(table, place, list);
        if answer.is_err() {
            *place = 0;
        }
        answer
    }),
    (
        "a list of no length moves the place",
        |table, place, list| {
            let answer = turns(table, place, list);
            if list.is_empty() {
                *place = 0;
            }
            answer
        },
    ),
];

/// A call that goes on after another place than the one served last.
fn after(
    start: usize,
    table: &mut [Turn],
    place: &mut usize,
    list: &mut [u8],
) -> Result<usize, Refusal> {
    let mut last = start;
    let count = turns(table, &mut last, list)?;
    if count > 0 {
        *place = last;
    }
    Ok(count)
}

/// A call that picks a walk for each turn, whichever it is.
fn one_by_one(
    table: &mut [Turn],
    place: &mut usize,
    list: &mut [u8],
    pick: fn(&[Turn], usize) -> Option<usize>,
) -> Result<usize, Refusal> {
    refuse_if(list.len() > 65_535, Refusal::Turns)?;
    let mut count = 0;
    for entry in list {
        match pick(table, *place).filter(|&walk| table[walk].left > 0) {
            None => break,
            Some(walk) => {
                table[walk].left -= 1;
                *entry = walk as u8;
                *place = walk;
                count += 1;
            }
        }
    }
    Ok(count)
}

#[test]
fn unfair_calls_are_found() {
    for (name, serve) in UNFAIR {
        assert!(judged(serve).is_err(), "{name}");
    }
}

/// The words alone, on turns written out.
#[test]
fn fairness_is_what_the_words_say() {
    let is_fair = |start: &[u16], turns: &[usize]| {
        let played = Played {
            start: start.to_vec(),
            turns: turns.to_vec(),
            stands: vec![],
            refused: 0,
        };
        played.fair().is_ok()
    };
    assert!(is_fair(&[5, 5, 5], &[0, 1, 2, 0, 1, 2]));
    assert!(is_fair(&[5, 5, 5], &[0, 2, 1, 0, 2, 1]));
    assert!(is_fair(&[5, 5, 5], &[1, 2]));
    assert!(!is_fair(&[5, 5, 5], &[0, 1, 2, 0, 2]));
    assert!(!is_fair(&[5, 5, 5], &[0, 1, 0]));
    assert!(!is_fair(&[5, 5, 5], &[0, 0]));
    assert!(!is_fair(&[5, 5, 5], &[0, 1, 1, 2, 0]));
    // Walks without steps wait for nothing.
    assert!(is_fair(&[5, 5, 0], &[0, 1, 0, 1]));
    assert!(is_fair(&[5, 0, 0], &[0, 0, 0]));
    // The last step of one lies in between, or never comes.
    assert!(is_fair(&[5, 5, 1], &[0, 1, 2, 0, 1, 0]));
    assert!(!is_fair(&[5, 1, 2], &[0, 2, 2, 1, 0]));
    assert!(!is_fair(&[5, 1, 5], &[0, 2, 0]));
}
