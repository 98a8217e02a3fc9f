//! Random calls for a book, and what they must have met.

use lavroudem_model::book::{MAX_NOMINAL, MAX_POSITIONS, MAX_VALUE};
use lavroudem_model::random::Random;
use lavroudem_model::refusal::Refusal;
use std::collections::BTreeMap;

/// A nominal and a W.
pub type Position = (i64, i64);

/// Everything that a call is lent.
#[derive(Clone, Debug)]
pub struct Lent {
    pub nominals: Vec<i64>,
    pub values: Vec<i64>,
    pub out: Vec<u8>,
}

impl Lent {
    /// All that speaks for 28, each in a word.
    fn faults(&self) -> Vec<&'static str> {
        let beyond = |list: &[i64], most: i64| list.iter().any(|&n| n > most || n < -most);
        let (nominals, values) = (&self.nominals, &self.values);
        let faults = [
            ("lists of unlike length", nominals.len() != values.len()),
            ("too many positions", nominals.len() > MAX_POSITIONS),
            ("a nominal", beyond(nominals, MAX_NOMINAL)),
            ("a W", beyond(values, MAX_VALUE)),
        ];
        let met = faults.iter().filter(|fault| fault.1);
        met.map(|fault| fault.0).collect()
    }
}

/// The same positions sold.
pub fn sold(positions: &[Position]) -> Vec<Position> {
    let sell = |&(nominal, value): &Position| (-nominal, value);
    positions.iter().map(sell).collect()
}

/// Few positions that are worth so much together: by millions, and then what is
/// left.
pub fn adding_to(worth: i128) -> Vec<Position> {
    let (mut millions, units) = (worth / 1_000_000, worth % 1_000_000);
    let mut positions = vec![(1, units as i64)];
    while millions != 0 {
        let value = millions.clamp(-i128::from(MAX_VALUE), MAX_VALUE.into());
        positions.push((MAX_NOMINAL, value as i64));
        millions -= value;
    }
    positions
}

fn worth(positions: &[Position]) -> i128 {
    let each = |&(nominal, value): &Position| i128::from(nominal) * i128::from(value);
    positions.iter().map(each).sum()
}

pub fn shuffled<T: Clone>(random: &mut Random, list: &[T]) -> Vec<T> {
    let mut list = list.to_vec();
    for place in (1..list.len()).rev() {
        list.swap(place, random.below(place + 1));
    }
    list
}

/// Up to a limit of either sign: anywhere, at its end, or beside a power of ten.
fn number(random: &mut Random, most: i64) -> i64 {
    let size = match random.below(6) {
        0 => most,
        1 => random.between(0, 9) as i64,
        2 => most - random.between(0, 9) as i64,
        3 => {
            let power = 10_i64.pow(random.below(18) as u32);
            (power + random.between(0, 2) as i64 - 1).min(most)
        }
        _ => random.between(0, most as u64) as i64,
    };
    if random.one_in(2) {
        -size
    } else {
        size
    }
}

pub fn positions(random: &mut Random, count: usize) -> Vec<Position> {
    let mut position = || (number(random, MAX_NOMINAL), number(random, MAX_VALUE));
    (0..count).map(|_| position()).collect()
}

/// A total beside a multiple of a thousand million or of its square, of either
/// sign.
fn round_total(random: &mut Random) -> i128 {
    let multiple = random.between(0, 999_999) as i128;
    let power = [9, 18][random.below(2)];
    let beside = random.between(0, 2) as i128 - 1;
    let sign = random.between(0, 1) as i128 * 2 - 1;
    sign * multiple * 10_i128.pow(power) + beside
}

/// Few positions that are taken: any, of one sign, flat together, or with a
/// round total.
pub fn small_book(random: &mut Random) -> Vec<Position> {
    let count = random.below(9);
    let mut book = positions(random, count);
    match random.below(8) {
        0 => book.extend(sold(&book)),
        1 => {
            let missing = round_total(random) - worth(&book);
            book.extend(adding_to(missing));
        }
        2 => book.iter_mut().for_each(|each| each.1 = each.1.abs()),
        3 => {
            let gain = random.one_in(2);
            for (nominal, value) in &mut book {
                *value = value.abs();
                *nominal = if gain { nominal.abs() } else { -nominal.abs() };
            }
        }
        _ => {}
    }
    book
}

/// About as many positions as there may be.
fn large_book(random: &mut Random) -> Vec<Position> {
    let count = random.between(MAX_POSITIONS as u64 - 1, MAX_POSITIONS as u64 + 1);
    let alike = positions(random, 1)[0];
    if random.one_in(4) {
        vec![alike; count as usize]
    } else {
        positions(random, count as usize)
    }
}

/// Beyond a limit: by one, by a bit, or as far as can be.
fn beyond(random: &mut Random, most: i64) -> i64 {
    let size = match random.below(4) {
        0 => most + 1,
        1 => (1 << random.between(u64::from(most.ilog2()) + 1, 62)) + random.between(0, 2) as i64,
        2 => i64::MAX,
        _ => return [i64::MIN, -most - 1][random.below(2)],
    };
    if random.one_in(2) {
        -size
    } else {
        size
    }
}

/// Every answer and every reason for it, each of them often. One in a hundred
/// is a large book.
pub fn call(random: &mut Random) -> Lent {
    let book = match random.below(100) {
        0 => large_book(random),
        _ => small_book(random),
    };
    let (mut nominals, mut values): (Vec<i64>, Vec<i64>) = book.into_iter().unzip();
    for _ in 0..[0, 0, 1, 1, 2][random.below(5)] {
        let lists = [&mut nominals, &mut values];
        let which = random.below(2);
        let list = &mut *lists.into_iter().nth(which).unwrap();
        match random.below(4) {
            0 => list.push(0),
            1 => drop(list.pop()),
            _ if list.is_empty() => {}
            _ => {
                let place = random.below(list.len());
                list[place] = beyond(random, [MAX_NOMINAL, MAX_VALUE][which]);
            }
        }
    }
    let length = match random.below(12) {
        0 => random.below(200),
        1 => [95, 97][random.below(2)],
        _ => 96,
    };
    let out = (0..length).map(|_| random.draw() as u8).collect();
    Lent {
        nominals,
        values,
        out,
    }
}

/// How often each answer was met, each reason for it, and each sign.
#[derive(Default)]
pub struct Met(BTreeMap<&'static str, usize>);

impl Met {
    /// What a call was lent, its answer, and what it left.
    pub fn add(&mut self, lent: &Lent, answer: Result<usize, Refusal>, out: &[u8]) {
        match (answer, &lent.faults()[..]) {
            (Ok(length), []) => self.add_line(lent, &out[..length]),
            (Err(Refusal::Length), []) => self.count("2 alone"),
            (Err(Refusal::Length), _) => self.count("2 beside 28"),
            (Err(Refusal::Book), [fault]) => self.count(fault),
            (Err(Refusal::Book), [_, _, ..]) => self.count("several"),
            other => panic!("{other:?}"),
        }
    }

    fn add_line(&mut self, lent: &Lent, line: &[u8]) {
        let line = std::str::from_utf8(line).unwrap().trim_end();
        let figures: Vec<i128> = line
            .split(' ')
            .skip(2)
            .map(|figure| figure.parse().unwrap())
            .collect();
        let [total, gains, losses] = figures[..] else {
            panic!("{line}");
        };
        self.count(match total.signum() {
            -1 => "a total below 0",
            0 => "a total of 0",
            _ => "a total above 0",
        });
        self.count(match (gains > 0, losses < 0) {
            (true, true) => "gains and losses",
            (true, false) => "gains alone",
            (false, true) => "losses alone",
            (false, false) => "neither",
        });
        let size = total.unsigned_abs();
        self.count(match size.checked_ilog10() {
            None | Some(0..=8) => "up to 9 digits",
            Some(9..=17) => "up to 18 digits",
            Some(_) => "more digits",
        });
        if size > 1 && (size + 1) % 1_000_000_000 <= 2 {
            self.count("a round total");
        }
        if lent.nominals.len() == MAX_POSITIONS {
            self.count("a full book");
        }
    }

    fn count(&mut self, name: &'static str) {
        *self.0.entry(name).or_insert(0) += 1;
    }

    /// Each was met so often, full books a tenth of that.
    pub fn assert_all(&self, least: usize) {
        let names = [
            "2 alone",
            "2 beside 28",
            "lists of unlike length",
            "a nominal",
            "a W",
            "several",
            "a total below 0",
            "a total of 0",
            "a total above 0",
            "gains and losses",
            "gains alone",
            "losses alone",
            "neither",
            "up to 9 digits",
            "up to 18 digits",
            "more digits",
            "a round total",
        ];
        let times = |name: &str| self.0.get(name).copied().unwrap_or(0);
        let often = names.iter().all(|name| times(name) >= least);
        let large = ["too many positions", "a full book"];
        let sometimes = large.iter().all(|name| 10 * times(name) >= least);
        assert!(often && sometimes, "{:#?}", self.0);
    }
}
