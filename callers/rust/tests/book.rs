//! A whole book, added up.

use lavroudem::*;

/// What a buffer holds before it is written; no line has it.
const BEFORE: u8 = 0xEE;

/// The line of a book, held to what its call must leave in the buffer.
fn line(nominals: &[i64], values: &[i64]) -> Result<String, Refusal> {
    let mut out = [BEFORE; BOOK_LENGTH];
    match book(nominals, values, &mut out) {
        Ok(length) => {
            let (line, rest) = out.split_at(length);
            assert!(rest.iter().all(|&byte| byte == BEFORE), "{rest:02X?}");
            Ok(String::from_utf8(line.to_vec()).unwrap())
        }
        Err(refusal) => {
            assert_eq!(out, [BEFORE; BOOK_LENGTH]);
            Err(refusal)
        }
    }
}

/// The line of one position.
fn line_of(nominal: i64, value: i64) -> Result<String, Refusal> {
    line(&[nominal], &[value])
}

/// By sums of 128 bits, which are wide enough for any book.
fn expected(nominals: &[i64], values: &[i64]) -> BookTotals {
    let mut sums = BookTotals {
        total: 0,
        gains: 0,
        losses: 0,
    };
    for (&nominal, &value) in nominals.iter().zip(values) {
        let worth = i128::from(nominal) * i128::from(value);
        sums.total += worth;
        sums.gains += worth.max(0);
        sums.losses += worth.min(0);
    }
    sums
}

/// Line and numbers are those of the sums.
fn holds(nominals: &[i64], values: &[i64]) {
    let sums = expected(nominals, values);
    let BookTotals {
        total,
        gains,
        losses,
    } = sums;
    assert_eq!(gains + losses, total);
    let text = format!("book 0 {total} {gains} {losses}\n");
    assert_eq!(line(nominals, values), Ok(text));
    assert_eq!(book_totals(nominals, values), Ok(sums));
}

#[test]
fn known_lines() {
    type Known<'a> = (&'a [i64], &'a [i64], &'a str);
    let known: [Known; 10] = [
        (&[], &[], "book 0 0 0 0\n"),
        (&[0], &[0], "book 0 0 0 0\n"),
        (&[1], &[1], "book 0 1 1 0\n"),
        (&[-1], &[1], "book 0 -1 0 -1\n"),
        (&[1], &[-1], "book 0 -1 0 -1\n"),
        (&[-1], &[-1], "book 0 1 1 0\n"),
        (&[-5, 0], &[0, -5], "book 0 0 0 0\n"),
        // Gains and losses that cancel out are still told.
        (&[7, -3], &[6, 14], "book 0 0 42 -42\n"),
        (&[2, 3, -4], &[10, -5, 1], "book 0 1 20 -19\n"),
        (
            &[100, -100],
            &[100_000_000_000_000_000, 1],
            "book 0 9999999999999999900 10000000000000000000 -100\n",
        ),
    ];
    for (nominals, values, text) in known {
        assert_eq!(line(nominals, values).as_deref(), Ok(text));
        holds(nominals, values);
    }
}

/// As many positions as a book may have, each at its most.
#[test]
fn the_largest_books() {
    let most = "819200000000000000000000000";
    let nominals = [MAX_NOMINAL; MAX_POSITIONS];
    let sold = [-MAX_NOMINAL; MAX_POSITIONS];
    let values = [MAX_NET_VALUE; MAX_POSITIONS];
    let lost = [-MAX_NET_VALUE; MAX_POSITIONS];
    for (nominals, values) in [(nominals, values), (sold, lost)] {
        let text = format!("book 0 {most} {most} 0\n");
        assert_eq!(line(&nominals, &values), Ok(text));
    }
    for (nominals, values) in [(nominals, lost), (sold, values)] {
        let text = format!("book 0 -{most} 0 -{most}\n");
        assert_eq!(line(&nominals, &values), Ok(text));
    }
    let mut mixed = nominals;
    for nominal in mixed.iter_mut().step_by(2) {
        *nominal = -MAX_NOMINAL;
    }
    let half = "409600000000000000000000000";
    let text = format!("book 0 0 {half} -{half}\n");
    assert_eq!(line(&mixed, &values), Ok(text));
}

/// A total of 27 digits below 0, beside gains and losses of 27.
#[test]
fn the_longest_line_has_room() {
    let mut nominals = [-MAX_NOMINAL; MAX_POSITIONS];
    nominals[..1_000].fill(MAX_NOMINAL);
    let values = [MAX_NET_VALUE; MAX_POSITIONS];
    let text = line(&nominals, &values).unwrap();
    let totals = "-419200000000000000000000000 200000000000000000000000000 \
                  -619200000000000000000000000";
    assert_eq!(text, format!("book 0 {totals}\n"));
    assert_eq!(text.len(), 93);
}

/// Where a bit or a digit more is needed, on both sides of 0.
#[test]
fn one_more_or_less_of_a_round_total() {
    let edges = [31, 32, 62, 63, 64].map(|bits| 1_i128 << bits);
    let tens = (0..=23).map(|digits| 10_i128.pow(digits));
    for edge in edges.into_iter().chain(tens) {
        for off in [-1, 0, 1] {
            for sign in [-1, 1] {
                // What 1,000,000 pools leave of it comes by single ones.
                let total = sign * (edge + off);
                let nominals = [MAX_NOMINAL, 1];
                let most = i128::from(MAX_NOMINAL);
                let values = [total / most, total % most];
                let values = values.map(|value| i64::try_from(value).unwrap());
                holds(&nominals, &values);
                holds(&nominals.map(|nominal| -nominal), &values);
            }
        }
    }
}

/// A length may be the number of a refusal, and is no refusal then.
#[test]
fn a_line_of_28_bytes_is_accepted() {
    let mut out = [BEFORE; BOOK_LENGTH];
    let length = book(&[1, 1], &[10_000_001, -1], &mut out);
    assert_eq!(length, Ok(28));
    assert_eq!(out[..28], *b"book 0 10000000 10000001 -1\n");
}

/// Numbers that look like any, the same each time.
struct Numbers(u64);

impl Numbers {
    fn next(&mut self) -> u64 {
        self.0 ^= self.0 << 13;
        self.0 ^= self.0 >> 7;
        self.0 ^= self.0 << 17;
        self.0
    }

    fn below(&mut self, count: usize) -> usize {
        (self.next() % count as u64) as usize
    }

    /// At most so far from 0; small ones as often as large ones.
    fn within(&mut self, most: i64) -> i64 {
        let limit = most >> self.below(most.ilog2() as usize + 1);
        let width = 2 * limit.unsigned_abs() + 1;
        (self.next() % width) as i64 - limit
    }

    fn list(&mut self, length: usize, most: i64) -> Vec<i64> {
        (0..length).map(|_| self.within(most)).collect()
    }
}

/// Each in two orders.
#[test]
fn random_books() {
    let mut numbers = Numbers(28);
    for round in 0..400 {
        let most = MAX_POSITIONS >> numbers.below(13);
        let length = match round {
            0 => MAX_POSITIONS,
            _ => numbers.below(most + 1),
        };
        let mut nominals = numbers.list(length, MAX_NOMINAL);
        let mut values = numbers.list(length, MAX_NET_VALUE);
        holds(&nominals, &values);
        let before = line(&nominals, &values);
        for at in (1..length).rev() {
            let other = numbers.below(at + 1);
            nominals.swap(at, other);
            values.swap(at, other);
        }
        assert_eq!(line(&nominals, &values), before);
    }
}

#[test]
fn the_ends_of_both_ranges() {
    for nominal in [-MAX_NOMINAL, MAX_NOMINAL] {
        for value in [-MAX_NET_VALUE, MAX_NET_VALUE] {
            holds(&[nominal], &[value]);
        }
    }
    for sign in [-1, 1] {
        let nominals = [sign * (MAX_NOMINAL + 1), sign * i64::MAX, i64::MIN];
        for nominal in nominals {
            assert_eq!(line_of(nominal, 0), Err(Refusal::Book), "{nominal}");
        }
        let values = [sign * (MAX_NET_VALUE + 1), sign * i64::MAX, i64::MIN];
        for value in values {
            assert_eq!(line_of(0, value), Err(Refusal::Book), "{value}");
        }
    }
}

/// Wherever it stands, the rest being as it should.
#[test]
fn one_entry_out_of_range_is_enough() {
    for at in [0, 1, 2_047, MAX_POSITIONS - 2, MAX_POSITIONS - 1] {
        for (nominal, value) in [
            (MAX_NOMINAL + 1, 1),
            (-MAX_NOMINAL - 1, 1),
            (1, MAX_NET_VALUE + 1),
            (1, -MAX_NET_VALUE - 1),
        ] {
            let mut nominals = [1; MAX_POSITIONS];
            let mut values = [1; MAX_POSITIONS];
            nominals[at] = nominal;
            values[at] = value;
            assert_eq!(line(&nominals, &values), Err(Refusal::Book), "{at}");
        }
    }
}

#[test]
fn lists_of_unlike_length_or_too_long() {
    let ones = [1; 2 * MAX_POSITIONS];
    let most = MAX_POSITIONS;
    for (nominals, values) in [
        (0, 1),
        (1, 0),
        (3, 2),
        (2, 3),
        (most - 1, most),
        (most, most - 1),
        (most, most + 1),
        (most + 1, most),
        (most + 1, most + 1),
        (2 * most, 2 * most),
    ] {
        let refused = line(&ones[..nominals], &ones[..values]);
        assert_eq!(refused, Err(Refusal::Book), "{nominals} and {values}");
        let refused = book_totals(&ones[..nominals], &ones[..values]);
        assert_eq!(refused, Err(Refusal::Book), "{nominals} and {values}");
    }
    holds(&ones[..most], &ones[..most]);
}

/// Looked at first: the lists may be good, or have each of their faults.
#[test]
fn buffers_of_another_length() {
    let ones = [1; MAX_POSITIONS + 1];
    let books: [(&[i64], &[i64]); 6] = [
        (&[], &[]),
        (&[1], &[1]),
        (&[1, 2], &[1]),
        (&[MAX_NOMINAL + 1], &[1]),
        (&[1], &[MAX_NET_VALUE + 1]),
        (&ones, &ones),
    ];
    for (nominals, values) in books {
        for length in [0, 1, 13, 28, BOOK_LENGTH - 1, BOOK_LENGTH + 1, 192] {
            let mut out = vec![BEFORE; length];
            let refused = book(nominals, values, &mut out);
            assert_eq!(refused, Err(Refusal::Length), "{length}");
            assert_eq!(out, vec![BEFORE; length]);
        }
    }
}

/// As where a page holds more than the line.
#[test]
fn the_bytes_beside_a_buffer_stay() {
    let mut page = [BEFORE; BOOK_LENGTH + 2];
    let length = book(&[1], &[-1], &mut page[1..=BOOK_LENGTH]).unwrap();
    assert_eq!(page[1..=length], *b"book 0 -1 0 -1\n");
    assert_eq!(page[0], BEFORE);
    assert!(page[1 + length..].iter().all(|&byte| byte == BEFORE));
}

/// The lists are only read, so they may be one.
#[test]
fn one_list_as_both() {
    let list = [3, -4, 0, 5];
    assert_eq!(line(&list, &list).as_deref(), Ok("book 0 50 50 0\n"));
}

/// The highest net value that a value call gives and the lowest: one leg of
/// the largest sheet at its ceiling, the other 0.
#[test]
fn net_values_are_within_range() {
    let pool = Pool {
        names: MAX_NAMES,
        steps: MAX_STEPS,
        tranches: 1,
        recovery: 0,
        number: 7,
    };
    let mut accruals = [0; MAX_STEPS];
    accruals[MAX_STEPS - 10..].fill(ONE);
    let lists = Lists {
        attachments: &[0, ONE],
        starts: &[1],
        hazards: &[0; MAX_NAMES],
        discounts: &[ONE; MAX_STEPS],
        accruals: &accruals,
        elapsed: &[0; MAX_STEPS],
        coupons: &[MAX_COUPON; 2],
    };
    let sheet = Sheet::new(pool, lists);
    let register = [LIVE; REGISTER_LENGTH];
    let walk = Walk {
        open: true,
        number: 7,
        position: 0,
    };
    let net_value = |default_leg, premium_leg| {
        let mut defaults = [0; 2 * (MAX_NAMES + 1)];
        let mut premiums = defaults;
        defaults[0] = default_leg;
        premiums[0] = premium_leg;
        let (_, value) = lent::value(walk, &sheet, &register, &defaults, &premiums, 0, 0);
        value.map(|value| value.net_value)
    };
    let highest = net_value(ONE, 0).unwrap();
    assert_eq!(highest, 10_000_000_000_000_000);
    assert_eq!(net_value(ONE + 1, 0), Err(Refusal::OverCeiling));
    let ceiling = MAX_ACCRUALS + MAX_NAMES as u64 + 2 * MAX_STEPS as u64;
    let lowest = net_value(0, ceiling).unwrap();
    assert_eq!(lowest, -100_000_074_250_000_000);
    assert_eq!(net_value(0, ceiling + 1), Err(Refusal::OverCeiling));
    holds(&[MAX_NOMINAL; 2], &[highest, lowest]);
}
