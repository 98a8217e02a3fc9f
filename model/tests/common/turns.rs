//! Random calls for turns and what they must have met; whole lists of calls on
//! one table, and whether the turns that they gave were fair.

use lavroudem_model::random::Random;
use lavroudem_model::refusal::Refusal;
use lavroudem_model::turns::{Turn, MAX_LEFT, MAX_PLACES, MAX_WALKS};
use lavroudem_model::walk::Walk;
use std::collections::BTreeMap;

/// A call for turns: table, place served last, and list.
pub type Serve = fn(&mut [Turn], &mut usize, &mut [u8]) -> Result<usize, Refusal>;

/// Everything that a call is lent.
#[derive(Clone, Debug, PartialEq)]
pub struct Lent {
    pub table: Vec<Turn>,
    pub place: usize,
    pub list: Vec<u8>,
}

impl Lent {
    /// The same after a call, and what it answered.
    pub fn after(&self, serve: Serve) -> (Lent, Result<usize, Refusal>) {
        let mut lent = self.clone();
        let answer = serve(&mut lent.table, &mut lent.place, &mut lent.list);
        (lent, answer)
    }

    /// All that speaks for 29, each in a word.
    fn faults(&self) -> Vec<&'static str> {
        let walks = self.table.len();
        // No place is in an empty table.
        let faults = [
            ("no walk", walks == 0),
            ("too many walks", walks > MAX_WALKS),
            ("a place outside", self.place >= walks && walks > 0),
            (
                "too many steps",
                left(&self.table).iter().any(|&n| n > MAX_LEFT),
            ),
            ("too long a list", self.list.len() > MAX_PLACES),
        ];
        let met = faults.iter().filter(|fault| fault.1);
        met.map(|fault| fault.0).collect()
    }
}

pub fn left(table: &[Turn]) -> Vec<u16> {
    table.iter().map(|turn| turn.left).collect()
}

/// Anything: what a walk holds plays no part.
pub fn any_walk(random: &mut Random) -> Walk {
    Walk {
        open: random.one_in(2),
        number: random.draw() as u8,
        position: random.draw() as usize,
    }
}

/// Steps left that are taken, of walks that are all alike or not.
pub fn steps(random: &mut Random, walks: usize) -> Vec<u16> {
    let most = match random.below(5) {
        0 => 0,
        1 => 1,
        2 => MAX_LEFT,
        _ => 4,
    };
    let one = random.with_edges(0, most.into());
    let mut each = |_| match random.below(4) {
        0 => one,
        1 => 0,
        _ => random.with_edges(0, most.into()),
    };
    (0..walks).map(|walk| each(walk) as u16).collect()
}

pub fn table(random: &mut Random, left: &[u16]) -> Vec<Turn> {
    let mut turn = |&left: &u16| Turn {
        walk: any_walk(random),
        left,
    };
    left.iter().map(&mut turn).collect()
}

/// A call that is taken, or has one fault or more.
pub fn call(random: &mut Random) -> Lent {
    let walks = match random.below(24) {
        0 => 0,
        1 => MAX_WALKS + 1,
        2 => random.between(17, 300) as usize,
        3..=6 => MAX_WALKS,
        7 | 8 => 1,
        _ => random.between(1, MAX_WALKS as u64) as usize,
    };
    let mut left = steps(random, walks);
    if walks > 0 && random.one_in(16) {
        let beyond = [MAX_LEFT + 1, u16::MAX, random.between(3_651, 65_535) as u16];
        left[random.below(walks)] = beyond[random.below(3)];
    }
    let place = match random.below(32) {
        0 => walks,
        1 => [256, 65_536, usize::MAX, walks + 1][random.below(4)],
        _ => random.below(walks.max(1)),
    };
    let length = match random.below(400) {
        0 => MAX_PLACES + 1,
        1 => random.between(MAX_PLACES as u64 - 1, MAX_PLACES as u64 + 2) as usize,
        2..=9 => random.between(0, 2_000) as usize,
        10..=59 => 0,
        60..=119 => 29,
        _ => random.between(0, 40) as usize,
    };
    let (start, step) = (random.draw() as u8, random.draw() as u8);
    let fill = |at: usize| start.wrapping_add(step.wrapping_mul(at as u8));
    Lent {
        table: table(random, &left),
        place,
        list: (0..length).map(fill).collect(),
    }
}

/// What calls have met, each in a word.
#[derive(Default)]
pub struct Met(BTreeMap<&'static str, usize>);

impl Met {
    fn note(&mut self, word: &'static str, holds: bool) {
        *self.0.entry(word).or_default() += usize::from(holds);
    }

    pub fn add(&mut self, lent: &Lent, answer: Result<usize, Refusal>, after: &Lent) {
        let faults = lent.faults();
        assert_eq!(answer.is_err(), !faults.is_empty(), "{lent:?}");
        match answer {
            Err(refusal) => {
                assert_eq!(refusal.number(), 29);
                assert_eq!(lent, after);
                match faults[..] {
                    [fault] => self.note(fault, true),
                    _ => self.note("several faults", true),
                }
            }
            Ok(count) => {
                let (room, past) = (lent.list.len(), after.place <= lent.place);
                self.note("taken", true);
                self.note("no room", room == 0);
                self.note("room and none left", room > 0 && count == 0);
                self.note("list full", room > 0 && count == room);
                self.note("list not full", count > 0 && count < room);
                self.note("29 written", count == 29);
                self.note(
                    "past the end",
                    count > 0 && count < lent.table.len() && past,
                );
                self.note("the same place", count > 0 && after.place == lent.place);
                self.note("full table", lent.table.len() == MAX_WALKS && count > 0);
                self.note(
                    "steps still left",
                    left(&after.table).iter().any(|&n| n > 0),
                );
                self.note("the longest list", room == MAX_PLACES);
            }
        }
    }

    /// Each so often, the longest lists less often.
    pub fn assert_all(&self, least: usize) {
        assert_eq!(self.0.len(), 17, "{:?}", self.0);
        for (&word, &count) in &self.0 {
            let rare = ["too long a list", "the longest list"].contains(&word);
            let least = if rare { least / 20 } else { least };
            assert!(count >= least, "{word} {count}");
        }
    }
}

/// What the calls of a list gave, and what stood in the table then.
pub struct Played {
    /// The steps left before the first call.
    pub start: Vec<u16>,
    /// The places of all turns, call behind call.
    pub turns: Vec<usize>,
    /// The steps left after each call, and how many turns were over by then.
    pub stands: Vec<(usize, Vec<u16>)>,
    pub refused: usize,
}

/// A list of calls on one table. Their lists are short and long, some have no
/// length at all, some calls are refused, and the walks are written over.
pub fn play(random: &mut Random, serve: Serve) -> Played {
    let walks = random.between(1, MAX_WALKS as u64) as usize;
    let start = match random.below(3) {
        0 => steps(random, walks),
        _ => (0..walks).map(|_| random.between(0, 12) as u16).collect(),
    };
    let mut table = table(random, &start);
    let mut place = random.below(walks);
    let mut played = Played {
        start,
        turns: vec![],
        stands: vec![],
        refused: 0,
    };
    for _ in 0..random.between(2, 24) {
        let room = match random.below(16) {
            0 => MAX_PLACES + 1,
            1 | 2 => 0,
            3 | 4 => random.below(60),
            _ => random.between(1, walks as u64 + 1) as usize,
        };
        let mut list = vec![0xFF; room];
        match serve(&mut table, &mut place, &mut list) {
            Ok(count) => played
                .turns
                .extend(list[..count].iter().map(|&place| usize::from(place))),
            Err(_) => played.refused += 1,
        }
        played.stands.push((played.turns.len(), left(&table)));
        for turn in &mut table {
            turn.walk = any_walk(random);
        }
    }
    played
}

impl Played {
    /// The steps left before each turn, and after the last: each took one off.
    fn left(&self) -> Vec<Vec<u16>> {
        let mut now = self.start.clone();
        let mut all = vec![now.clone()];
        for &walk in &self.turns {
            now[walk] = now[walk].checked_sub(1).expect("a turn without a step");
            all.push(now.clone());
        }
        for (turns, left) in &self.stands {
            assert_eq!(&all[*turns], left, "steps left after {turns} turns");
        }
        all
    }

    /// Takes each turn of a walk with its next, and every other walk that never
    /// ran out of steps from the one to the other: it must have had one turn in
    /// between, no more and no less. Gives how many such walks there were. Of a
    /// walk that ran out in between nothing is asked.
    pub fn fair(&self) -> Result<usize, String> {
        let left = self.left();
        let mut looked_at = 0;
        for (first, &walk) in self.turns.iter().enumerate() {
            let behind = &self.turns[first + 1..];
            let Some(between) = behind.iter().position(|&other| other == walk) else {
                continue;
            };
            // From the end of the first turn to the start of the second.
            let while_between = &left[first + 1..=first + 1 + between];
            let waited = |other: usize| while_between.iter().all(|left| left[other] > 0);
            let others = (0..self.start.len()).filter(|&other| other != walk);
            for other in others.filter(|&other| waited(other)) {
                let turns = behind[..between].iter().filter(|&&at| at == other).count();
                if turns != 1 {
                    let when = format!("turn {first} and the next one of {walk}");
                    return Err(format!("{turns} turns of {other} between {when}"));
                }
                looked_at += 1;
            }
        }
        Ok(looked_at)
    }
}
