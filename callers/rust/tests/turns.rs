//! Turns among the walks of a terminal.

use lavroudem::*;

/// What a list holds before it is written; no table has such a place.
const BEFORE: u8 = 0xEE;

const MOST: u16 = MAX_STEPS as u16;

/// Open or not, each of a number and a position of its own.
fn any_walk(place: usize) -> Walk {
    Walk {
        open: place.is_multiple_of(3),
        number: 255 - place as u8,
        position: usize::MAX - place,
    }
}

fn table_of(left: &[u16]) -> Vec<Turn> {
    let turn = |(place, &left)| Turn {
        walk: any_walk(place),
        left,
    };
    left.iter().enumerate().map(turn).collect()
}

#[derive(Clone, Debug, PartialEq)]
struct Terminal {
    table: Vec<Turn>,
    place: usize,
}

impl Terminal {
    fn new(left: &[u16], place: usize) -> Terminal {
        let table = table_of(left);
        Terminal { table, place }
    }

    fn left(&self) -> Vec<u16> {
        self.table.iter().map(|turn| turn.left).collect()
    }

    /// The places that a call writes to a list of this length, held to what it
    /// must leave of list, table and place.
    fn call(&mut self, length: usize) -> Result<Vec<u8>, Refusal> {
        let before = self.clone();
        let mut list = vec![BEFORE; length];
        let answer = turns(&mut self.table, &mut self.place, &mut list);
        let Ok(count) = answer else {
            assert_eq!(*self, before);
            assert_eq!(list, vec![BEFORE; length]);
            return answer.map(|_| list);
        };
        let rest = list.split_off(count);
        assert!(rest.iter().all(|&byte| byte == BEFORE), "{rest:02X?}");
        let mut left = before.left();
        for &place in &list {
            left[usize::from(place)] -= 1;
        }
        assert_eq!(self.table, table_of(&left));
        let last = list.last().map_or(before.place, |&last| last.into());
        assert_eq!(self.place, last);
        Ok(list)
    }

    fn refuses(&mut self, length: usize) {
        assert_eq!(self.call(length), Err(Refusal::Turns));
    }
}

/// By rounds: in round k come all walks that had more than k steps left, in
/// cyclic order after the place served last.
fn expected(left: &[u16], place: usize, length: usize) -> Vec<u8> {
    let walks = left.len();
    let mut all = Vec::new();
    for (walk, &steps) in left.iter().enumerate() {
        let behind = (walk + walks - place - 1) % walks;
        all.extend((0..steps).map(|round| (round, behind, walk as u8)));
    }
    all.sort();
    all.truncate(length);
    all.into_iter().map(|(_, _, walk)| walk).collect()
}

fn holds(left: &[u16], place: usize, length: usize) {
    let places = Terminal::new(left, place).call(length);
    assert_eq!(places, Ok(expected(left, place, length)));
}

#[test]
fn known_turns() {
    type Known<'a> = (&'a [u16], usize, usize, &'a [u8]);
    let known: [Known; 11] = [
        (&[1], 0, 4, &[0]),
        (&[4], 0, 3, &[0, 0, 0]),
        (&[2, 2], 1, 3, &[0, 1, 0]),
        (&[3, 3, 3], 0, 4, &[1, 2, 0, 1]),
        (&[3, 3, 3], 2, 4, &[0, 1, 2, 0]),
        // Whoever has none left is passed over.
        (&[2, 0, 1], 2, 5, &[0, 2, 0]),
        (&[0, 4, 0], 1, 3, &[1, 1, 1]),
        (&[9, 1, 2, 1], 3, 8, &[0, 1, 2, 3, 0, 2, 0, 0]),
        // Whoever was served last may have none left, and is last otherwise.
        (&[1, 0, 1], 1, 3, &[2, 0]),
        (&[1, 1, 1], 1, 3, &[2, 0, 1]),
        (&[0, 0, 0], 1, 3, &[]),
    ];
    for (left, place, length, places) in known {
        let found = Terminal::new(left, place).call(length);
        assert_eq!(found.as_deref(), Ok(places), "{left:?} after {place}");
        holds(left, place, length);
    }
}

/// With no room, and with no steps left.
#[test]
fn the_place_stays_where_none_is_written() {
    for place in 0..MAX_WALKS {
        for (left, length) in [(MOST, 0), (0, 0), (0, 1), (0, MAX_PLACES)] {
            let mut terminal = Terminal::new(&[left; MAX_WALKS], place);
            let before = terminal.clone();
            assert_eq!(terminal.call(length), Ok(vec![]));
            assert_eq!(terminal, before);
        }
    }
}

/// The others, of three steps each, are at their roots after nine turns.
#[test]
fn a_long_walk_keeps_none_waiting() {
    let mut terminal = Terminal::new(&[MOST, 3, 3], 2);
    assert_eq!(terminal.call(9), Ok([0, 1, 2].repeat(3)));
    assert_eq!(terminal.left(), [MOST - 3, 0, 0]);
    assert_eq!(terminal.call(4_000), Ok(vec![0; MAX_STEPS - 3]));
    assert_eq!(terminal.call(1), Ok(vec![]));
}

/// Every step of it fits in the longest list.
#[test]
fn the_largest_table_in_one_list() {
    let mut terminal = Terminal::new(&[MOST; MAX_WALKS], MAX_WALKS - 1);
    let round: Vec<u8> = (0..MAX_WALKS as u8).collect();
    assert_eq!(terminal.call(MAX_PLACES), Ok(round.repeat(MAX_STEPS)));
    assert_eq!(terminal.left(), [0; MAX_WALKS]);
}

#[test]
fn both_sides_of_each_limit() {
    for walks in 1..=MAX_WALKS {
        for place in 0..walks {
            holds(&vec![2; walks], place, 5);
        }
        for place in [walks, walks + 1, 1 << 32, usize::MAX] {
            Terminal::new(&vec![2; walks], place).refuses(5);
        }
    }
    for walks in [0, MAX_WALKS + 1, MAX_WALKS + 2, 256] {
        for place in [0, 1, walks, usize::MAX] {
            Terminal::new(&vec![2; walks], place).refuses(5);
        }
    }
    for walks in [1, 2, MAX_WALKS] {
        for long in 0..walks {
            let mut left = vec![0; walks];
            left[long] = MOST;
            holds(&left, 0, 5);
            for steps in [MOST + 1, u16::MAX] {
                left[long] = steps;
                Terminal::new(&left, 0).refuses(5);
            }
        }
    }
    holds(&[2, 2], 0, MAX_PLACES);
    for length in [MAX_PLACES + 1, 2 * MAX_PLACES] {
        Terminal::new(&[2, 2], 0).refuses(length);
    }
}

/// Also where no place would be written.
#[test]
fn faults_without_a_turn() {
    Terminal::new(&[], 0).refuses(0);
    Terminal::new(&[0; MAX_WALKS + 1], 0).refuses(0);
    Terminal::new(&[0, 0], 2).refuses(0);
    Terminal::new(&[0, MOST + 1], 0).refuses(0);
    Terminal::new(&[0, 0], 0).refuses(MAX_PLACES + 1);
}

#[test]
fn several_faults_at_once() {
    for left in [&[][..], &[MOST + 1; 2], &[MOST + 1; MAX_WALKS + 1]] {
        for length in [0, 5, MAX_PLACES + 1] {
            Terminal::new(left, usize::MAX).refuses(length);
        }
    }
}

/// A count may be the number of a refusal, and is no refusal then.
#[test]
fn a_count_of_29_is_accepted() {
    let mut terminal = Terminal::new(&[40, 1], 0);
    let count = turns(&mut terminal.table, &mut terminal.place, &mut [BEFORE; 29]);
    assert_eq!(count, Ok(29));
}

#[test]
fn walks_are_not_looked_at() {
    let mut known = table_of(&[7, 0, 2]);
    let mut fresh = known.clone();
    for turn in &mut fresh {
        turn.walk = Walk::FRESH;
    }
    let called = |table: &mut [Turn]| {
        let (mut place, mut list) = (1, [BEFORE; 6]);
        let count = turns(table, &mut place, &mut list);
        (count, place, list)
    };
    assert_eq!(called(&mut known), called(&mut fresh));
    assert!(fresh.iter().all(|turn| turn.walk == Walk::FRESH));
}

/// As where a terminal keeps more than it brings.
#[test]
fn what_lies_beside_table_and_list_stays() {
    let mut table = table_of(&[5; 4]);
    let mut list = [BEFORE; 5];
    let mut place = 0;
    let count = turns(&mut table[1..3], &mut place, &mut list[1..4]);
    assert_eq!((count, place), (Ok(3), 1));
    assert_eq!(list, [BEFORE, 1, 0, 1, BEFORE]);
    assert_eq!(table, table_of(&[5, 4, 3, 5]));
}

/// Numbers that look like any, the same each time.
struct Numbers(u64);

impl Numbers {
    fn below(&mut self, count: usize) -> usize {
        self.0 ^= self.0 << 13;
        self.0 ^= self.0 >> 7;
        self.0 ^= self.0 << 17;
        (self.0 % count as u64) as usize
    }

    /// Walks without steps left, with few and with many stand beside each other.
    fn terminal(&mut self) -> Terminal {
        let walks = 1 + self.below(MAX_WALKS);
        let most = [1, 4, 60][self.below(3)];
        let mut steps = |_| match self.below(8) {
            0 => 0,
            1 => self.below(MAX_STEPS + 1) as u16,
            _ => self.below(most + 1) as u16,
        };
        let left: Vec<u16> = (0..walks).map(&mut steps).collect();
        Terminal::new(&left, self.below(walks))
    }
}

#[test]
fn random_tables() {
    let mut numbers = Numbers(29);
    for _ in 0..2_000 {
        let mut terminal = numbers.terminal();
        let most = [2, 40, 9_000][numbers.below(3)];
        let length = numbers.below(most);
        let places = expected(&terminal.left(), terminal.place, length);
        assert_eq!(terminal.call(length), Ok(places));
    }
}

/// Calls one after the other, until no step is left, name the walks as one call
/// with a list for all of them does. Refused calls in between change nothing.
#[test]
fn many_calls_are_as_one() {
    let mut numbers = Numbers(92);
    for _ in 0..200 {
        let mut terminal = numbers.terminal();
        let at_once = terminal.clone().call(MAX_PLACES).unwrap();
        let most = [3, 20, 700][numbers.below(3)];
        let mut places = Vec::new();
        while places.len() < at_once.len() {
            let length = numbers.below(most);
            let more = terminal.call(length).unwrap();
            assert_eq!(more.is_empty(), length == 0);
            places.extend(more);
            if numbers.below(8) == 0 {
                terminal.refuses(MAX_PLACES + 1);
            }
        }
        assert_eq!(places, at_once);
        assert_eq!(terminal.call(most), Ok(vec![]));
        served_fairly(&terminal, &places);
    }
}

/// Whenever a walk has another turn, all others that still have steps left have
/// had just one since its last; the table is what these turns left.
fn served_fairly(terminal: &Terminal, places: &[u8]) {
    let walks = terminal.table.len();
    let mut left = terminal.left();
    for &place in places {
        left[usize::from(place)] += 1;
    }
    // For each walk, the turns of all walks since its last one.
    let mut since: Vec<Option<Vec<usize>>> = vec![None; walks];
    for &place in places {
        let place = usize::from(place);
        if let Some(counts) = &since[place] {
            for (other, &count) in counts.iter().enumerate() {
                let fair = left[other] == 0 || count == usize::from(other != place);
                assert!(fair, "{counts:?}");
            }
        }
        for counts in since.iter_mut().flatten() {
            counts[place] += 1;
        }
        since[place] = Some(vec![0; walks]);
        left[place] -= 1;
    }
    assert_eq!(left, terminal.left());
}
