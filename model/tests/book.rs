//! One figure for a whole book: known lines, sums by digits beside the model's
//! own, other orders of the same positions, and every refusal at both sides of
//! its limit.

mod common;

use common::books::{adding_to, positions, shuffled, small_book, sold, Position};
use common::Random;
use lavroudem_model::book::book;
use lavroudem_model::refusal::Refusal;
use std::cmp::Ordering;

const MOST_POOLS: i64 = 1_000_000;
const MOST_W: i64 = 200_000_000_000_000_000;
const MOST_POSITIONS: usize = 4_096;
const LENT: usize = 96;

fn lists(positions: &[Position]) -> (Vec<i64>, Vec<i64>) {
    positions.iter().copied().unzip()
}

/// The line of an accepted book; behind it every byte stays as it was.
fn line(positions: &[Position]) -> String {
    let (nominals, values) = lists(positions);
    let before: [u8; LENT] = std::array::from_fn(|place| 0x80 + place as u8);
    let mut lent = before;
    let length = book(&nominals, &values, &mut lent).unwrap();
    assert_eq!(lent[length..], before[length..]);
    String::from_utf8(lent[..length].to_vec()).unwrap()
}

// ---- sums by digits, apart from the model

/// Decimal digits, the last one first, without leading zeros; none for zero.
type Digits = Vec<u8>;

fn trimmed(mut digits: Digits) -> Digits {
    while digits.last() == Some(&0) {
        digits.pop();
    }
    digits
}

fn digits_of(number: u64) -> Digits {
    let digits = number.to_string().into_bytes().into_iter().rev();
    trimmed(digits.map(|digit| digit - b'0').collect())
}

/// Digit by digit with a carry, as on paper.
fn sum(one: &[u8], other: &[u8]) -> Digits {
    let mut carry = 0;
    let mut digits = Vec::new();
    for place in 0..one.len().max(other.len()) {
        let at = |digits: &[u8]| digits.get(place).copied().unwrap_or(0);
        let here = at(one) + at(other) + carry;
        digits.push(here % 10);
        carry = here / 10;
    }
    digits.push(carry);
    trimmed(digits)
}

/// The larger less the smaller.
fn difference(larger: &[u8], smaller: &[u8]) -> Digits {
    let mut borrowed = 0;
    let mut digits = Vec::new();
    for (place, &digit) in larger.iter().enumerate() {
        let taken = smaller.get(place).copied().unwrap_or(0) + borrowed;
        borrowed = u8::from(digit < taken);
        digits.push(digit + 10 * borrowed - taken);
    }
    assert_eq!(borrowed, 0);
    trimmed(digits)
}

/// One row for each digit, each a place further left.
fn product(one: &[u8], other: &[u8]) -> Digits {
    let mut rows = Digits::new();
    for (place, &digit) in other.iter().enumerate() {
        for _ in 0..digit {
            let shifted = [vec![0; place], one.to_vec()].concat();
            rows = sum(&rows, &trimmed(shifted));
        }
    }
    rows
}

fn compared(one: &[u8], other: &[u8]) -> Ordering {
    let by_digits = || one.iter().rev().cmp(other.iter().rev());
    one.len().cmp(&other.len()).then_with(by_digits)
}

fn shown(sign: &str, digits: &[u8]) -> String {
    if digits.is_empty() {
        return "0".to_string();
    }
    let digits = digits.iter().rev().map(|digit| char::from(b'0' + digit));
    sign.chars().chain(digits).collect()
}

/// What the line should be.
fn line_by_digits(positions: &[Position]) -> String {
    let (mut gains, mut losses) = (Digits::new(), Digits::new());
    for &(nominal, value) in positions {
        let [nominal_size, value_size] = [nominal, value].map(|n| digits_of(n.unsigned_abs()));
        let size = product(&value_size, &nominal_size);
        if (nominal < 0) == (value < 0) {
            gains = sum(&gains, &size);
        } else {
            losses = sum(&losses, &size);
        }
    }
    let total = match compared(&gains, &losses) {
        Ordering::Less => shown("-", &difference(&losses, &gains)),
        _ => shown("", &difference(&gains, &losses)),
    };
    let (gains, losses) = (shown("", &gains), shown("-", &losses));
    format!("book 0 {total} {gains} {losses}\n")
}

// ---- lines

/// By hand.
#[test]
fn known_lines() {
    let most = (MOST_POOLS, MOST_W);
    for (positions, right) in [
        (&[][..], "book 0 0 0 0"),
        (&[(0, 0)], "book 0 0 0 0"),
        (&[(0, MOST_W)], "book 0 0 0 0"),
        (&[(-MOST_POOLS, 0)], "book 0 0 0 0"),
        (&[(0, -5), (-7, 0), (0, 5)], "book 0 0 0 0"),
        (&[(1, 1)], "book 0 1 1 0"),
        (&[(-1, 1)], "book 0 -1 0 -1"),
        (&[(1, -1)], "book 0 -1 0 -1"),
        // Short of what is worth less than nothing.
        (&[(-1, -1)], "book 0 1 1 0"),
        (&[(1, 5), (-1, 5)], "book 0 0 5 -5"),
        (&[(-1, 5), (1, 5)], "book 0 0 5 -5"),
        (&[(2, 3), (-1, 5)], "book 0 1 6 -5"),
        (&[(2, -3), (-1, -5)], "book 0 -1 5 -6"),
        (&[(2, 3), (4, 5), (-6, 7), (-8, -9)], "book 0 56 98 -42"),
        (&[(3, 7), (3, 7)], "book 0 42 42 0"),
        (&[(2, -3), (0, -5), (0, -5)], "book 0 -6 0 -6"),
        (
            &[most],
            "book 0 200000000000000000000000 200000000000000000000000 0",
        ),
        (
            &[most, (-MOST_POOLS, MOST_W)],
            "book 0 0 200000000000000000000000 -200000000000000000000000",
        ),
        // Of 64 bits, the most that a signed and an unsigned number may be, and one more.
        (
            &[(1_000_000, 9_223_372_036_854), (1, 775_807)],
            "book 0 9223372036854775807 9223372036854775807 0",
        ),
        (
            &[(1_000_000, 9_223_372_036_854), (1, 775_808)],
            "book 0 9223372036854775808 9223372036854775808 0",
        ),
        (
            &[(-1_000_000, 9_223_372_036_854), (-1, 775_809)],
            "book 0 -9223372036854775809 0 -9223372036854775809",
        ),
        (
            &[(1_000_000, 18_446_744_073_709), (1, 551_616)],
            "book 0 18446744073709551616 18446744073709551616 0",
        ),
    ] {
        assert_eq!(line(positions), format!("{right}\n"), "{positions:?}");
        assert_eq!(line_by_digits(positions), format!("{right}\n"));
    }
}

#[test]
fn full_books() {
    let full = |nominal, value| line(&[(nominal, value); MOST_POSITIONS]);
    let most = "819200000000000000000000000";
    let gains = format!("book 0 {most} {most} 0\n");
    let losses = format!("book 0 -{most} 0 -{most}\n");
    assert_eq!(full(MOST_POOLS, MOST_W), gains);
    assert_eq!(full(-MOST_POOLS, -MOST_W), gains);
    assert_eq!(full(-MOST_POOLS, MOST_W), losses);
    assert_eq!(full(MOST_POOLS, -MOST_W), losses);
    assert_eq!(full(1, 1), "book 0 4096 4096 0\n");
    // All but the last, and the last by the least that it can be moved.
    let mut positions = [(MOST_POOLS, MOST_W); MOST_POSITIONS];
    positions[MOST_POSITIONS - 1].1 -= 1;
    let less = "819199999999999999999000000";
    assert_eq!(line(&positions), format!("book 0 {less} {less} 0\n"));
    positions[MOST_POSITIONS - 1] = (-MOST_POOLS, MOST_W);
    assert_eq!(
        line(&positions),
        "book 0 818800000000000000000000000 819000000000000000000000000 -200000000000000000000000\n"
    );
}

/// The least and the most bytes that a line has; and so many that the length
/// looks like a refusal.
#[test]
fn lengths_of_lines() {
    let halves = |gaining: usize| -> Vec<Position> {
        let position = |place| match place < gaining {
            true => (MOST_POOLS, MOST_W),
            false => (-MOST_POOLS, MOST_W),
        };
        (0..MOST_POSITIONS).map(position).collect()
    };
    assert_eq!(line(&[]).len(), 13);
    assert_eq!(
        line(&halves(1_000)),
        "book 0 -419200000000000000000000000 200000000000000000000000000 -619200000000000000000000000\n"
    );
    assert_eq!(line(&halves(1_000)).len(), 93);
    assert_eq!(line(&halves(3_096)).len(), 92);
    let like_a_refusal = [(1_000_000, 1), (-1_000, 1)];
    assert_eq!(line(&like_a_refusal), "book 0 999000 1000000 -1000\n");
    assert_eq!(line(&like_a_refusal).len(), 28);
}

/// A power of ten as text, and the numbers beside it.
fn beside_power(power: usize) -> [String; 3] {
    let nought = "0".repeat(power);
    let above = format!("1{}1", "0".repeat(power - 1));
    ["9".repeat(power), format!("1{nought}"), above]
}

/// Positions bought that are worth so much together.
fn bought(figure: &str) -> Vec<Position> {
    adding_to(figure.parse().unwrap())
}

/// A carry runs through all digits, and one is borrowed through all of them.
#[test]
fn totals_beside_powers_of_ten() {
    for power in 1..=26 {
        for figure in beside_power(power) {
            let bought = bought(&figure);
            assert_eq!(line(&bought), format!("book 0 {figure} {figure} 0\n"));
            let right = format!("book 0 -{figure} 0 -{figure}\n");
            assert_eq!(line(&sold(&bought)), right);
            // One added and one taken off, so that the parts are another figure.
            let both = [&bought[..], &[(1, 1), (-1, 1)]].concat();
            let more = shown("", &sum(&digits_as_text(&figure), &[1]));
            assert_eq!(line(&both), format!("book 0 {figure} {more} -1\n"));
            let right = format!("book 0 -{figure} 1 -{more}\n");
            assert_eq!(
                line(&[sold(&bought), vec![(1, 1), (-1, 1)]].concat()),
                right
            );
            let flat = [&bought[..], &sold(&bought)].concat();
            assert_eq!(line(&flat), format!("book 0 0 {figure} -{figure}\n"));
        }
        let [below, at, above] = beside_power(power);
        // From one side to the other by a single unit.
        for (start, step, end) in [(&below, (1, 1), &at), (&at, (-1, -1), &above)] {
            let positions = [bought(start), vec![step]].concat();
            assert_eq!(line(&positions), format!("book 0 {end} {end} 0\n"));
        }
        for (start, end) in [(&at, &below), (&above, &at)] {
            let positions = [bought(start), vec![(1, -1)]].concat();
            assert_eq!(line(&positions), format!("book 0 {end} {start} -1\n"));
        }
    }
}

fn digits_as_text(figure: &str) -> Digits {
    trimmed(figure.bytes().rev().map(|digit| digit - b'0').collect())
}

/// Multiples of a thousand million and of its square, and the numbers beside
/// them.
#[test]
fn totals_beside_multiples() {
    let of_both = [2_u64, 9, 10, 99, 8_191, 99_999_999, 816_000_000];
    let of_the_first = [999_999_999, 1_000_000_001, 4_294_967_296, 18_446_744_074];
    let first = of_both.iter().chain(&of_the_first);
    let cases = first.map(|multiple| (multiple, 1));
    for (multiple, nines) in cases.chain(of_both.iter().map(|multiple| (multiple, 2))) {
        let at = format!("{multiple}{}", "000000000".repeat(nines));
        let above = format!("{}1", &at[..at.len() - 1]);
        let below = format!("{}{}", multiple - 1, "999999999".repeat(nines));
        for figure in [below, at, above] {
            let bought = bought(&figure);
            assert_eq!(line(&bought), format!("book 0 {figure} {figure} 0\n"));
            let right = format!("book 0 -{figure} 0 -{figure}\n");
            assert_eq!(line(&sold(&bought)), right);
        }
    }
}

// ---- random books

/// The three figures of a line.
fn figures(line: &str) -> [&str; 3] {
    let figures = line.strip_prefix("book 0 ").unwrap();
    let figures: Vec<&str> = figures.strip_suffix('\n').unwrap().split(' ').collect();
    figures.try_into().unwrap()
}

/// What stands behind a minus sign.
fn negative(figure: &str) -> Option<&str> {
    figure.strip_prefix('-')
}

/// Gains and losses add to the total, by digits.
fn assert_adds_up(line: &str) {
    let [total, gains, losses] = figures(line);
    assert_eq!(negative(gains), None);
    let lost = negative(losses).unwrap_or("0");
    assert!(losses == "0" || lost != "0", "{line}");
    let [gains, lost] = [gains, lost].map(digits_as_text);
    match negative(total) {
        None => assert_eq!(sum(&digits_as_text(total), &lost), gains, "{line}"),
        Some(total) => assert_eq!(sum(&digits_as_text(total), &gains), lost, "{line}"),
    }
}

#[test]
fn random_books() {
    let mut random = Random::new(0xB00C_0001);
    // Totals below, at and above 0.
    let mut met = [0; 3];
    for at in 0..4_000 {
        let positions = match at % 100 {
            0 => positions(&mut random, 300),
            _ => small_book(&mut random),
        };
        let found = line(&positions);
        assert_eq!(found, line_by_digits(&positions));
        assert_adds_up(&found);
        let [total, _, _] = figures(&found);
        let sign = match total {
            "0" => 1,
            _ if negative(total).is_some() => 0,
            _ => 2,
        };
        met[sign] += 1;
    }
    assert!(met.iter().all(|&times| times > 400), "{met:?}");
}

#[test]
fn random_full_books() {
    let mut random = Random::new(0xB00C_0002);
    for count in [MOST_POSITIONS - 1, MOST_POSITIONS] {
        let positions = positions(&mut random, count);
        let found = line(&positions);
        assert_eq!(found, line_by_digits(&positions));
        assert_adds_up(&found);
    }
}

/// Whole positions may stand in any order.
#[test]
fn order_plays_no_part() {
    let mut random = Random::new(0xB00C_0003);
    let mut moved = 0;
    for at in 0..1_000 {
        let count = [2, 3, 7, 50, 400][at % 5];
        let positions = positions(&mut random, count);
        let found = line(&positions);
        let reversed: Vec<Position> = positions.iter().rev().copied().collect();
        let sorted = {
            let mut sorted = positions.clone();
            sorted.sort();
            sorted
        };
        for other in [reversed, sorted, shuffled(&mut random, &positions)] {
            moved += usize::from(other != positions);
            assert_eq!(line(&other), found);
        }
    }
    assert!(moved > 2_500, "{moved}");
}

/// A nominal belongs to the W at its own place.
#[test]
fn nominals_alone_may_not_be_moved() {
    assert_eq!(line(&[(2, 3), (5, 7)]), "book 0 41 41 0\n");
    assert_eq!(line(&[(5, 3), (2, 7)]), "book 0 29 29 0\n");
    assert_eq!(line(&[(1, 3), (-1, 7)]), "book 0 -4 3 -7\n");
    assert_eq!(line(&[(-1, 3), (1, 7)]), "book 0 4 7 -3\n");
    let (nominals, values) = lists(&[(1, 10), (2, 200), (3, 3_000), (4, 40_000)]);
    let mut lines = std::collections::BTreeSet::new();
    for turn in 0..4 {
        let mut nominals = nominals.clone();
        nominals.rotate_left(turn);
        let turned: Vec<Position> = nominals.into_iter().zip(values.clone()).collect();
        lines.insert(line(&turned));
    }
    assert_eq!(lines.len(), 4);
}

// ---- refusals

/// The number of a call on so many lent bytes, whatever they are. A refused one
/// leaves them all, and an accepted one does not.
fn answer(nominals: &[i64], values: &[i64], lent: usize) -> u8 {
    let numbers = [0x00, 0x0A, 0x2D, 0xFF].map(|byte| {
        let before = vec![byte; lent];
        let mut bytes = before.clone();
        let answer = book(nominals, values, &mut bytes);
        assert_eq!(bytes == before, answer.is_err(), "{byte:02X}");
        answer.map_or_else(Refusal::number, |_| 0)
    });
    assert_eq!(numbers, [numbers[0]; 4]);
    numbers[0]
}

#[test]
fn only_96_bytes_are_written() {
    for lent in 0..=200 {
        let right = if lent == LENT { 0 } else { 2 };
        assert_eq!(answer(&[], &[], lent), right, "{lent}");
        assert_eq!(answer(&[1, -2], &[3, 4], lent), right, "{lent}");
    }
}

/// And of no more than there may be.
#[test]
fn lists_are_of_one_length() {
    let zeros = [0; MOST_POSITIONS + 2];
    let counts = [0, 1, 2, 3, 95, 96, 97, 4_094, 4_095, 4_096, 4_097, 4_098];
    for nominals in counts {
        for values in counts {
            let taken = nominals == values && nominals <= MOST_POSITIONS;
            let right = if taken { 0 } else { 28 };
            let found = answer(&zeros[..nominals], &zeros[..values], LENT);
            assert_eq!(found, right, "{nominals} {values}");
        }
    }
}

/// Numbers beyond a limit, among them those that a narrower number would take
/// for one within it.
fn beyond(most: i64) -> Vec<i64> {
    let mut beyond = vec![most + 1, most + 2, 2 * most, 2 * most + 1];
    beyond.extend([i64::MAX, i64::MAX - 1, i64::MAX - most, 1 << 62]);
    beyond.extend([32, 48, 56, 58, 60].map(|bits| 1 << bits));
    beyond.extend([32, 48, 56, 58, 60].map(|bits| (1 << bits) + 1));
    beyond.retain(|&size| size > most);
    let below: Vec<i64> = beyond.iter().map(|size| -size).collect();
    beyond.extend(below);
    beyond.push(i64::MIN);
    beyond
}

/// At each place of a book, beside anything.
#[test]
fn numbers_are_within_their_limits() {
    for count in [1, 2, 5, MOST_POSITIONS] {
        let (nominals, values) = (vec![3; count], vec![-7; count]);
        for place in [0, count / 2, count - 1] {
            let with = |list: &[i64], number: i64| {
                let mut list = list.to_vec();
                list[place] = number;
                list
            };
            for other in [0, 1, -1] {
                let values = with(&values, other);
                for nominal in [-MOST_POOLS, 1 - MOST_POOLS, 0, MOST_POOLS - 1, MOST_POOLS] {
                    let found = answer(&with(&nominals, nominal), &values, LENT);
                    assert_eq!(found, 0, "{nominal} × {other}");
                }
                for nominal in beyond(MOST_POOLS) {
                    let found = answer(&with(&nominals, nominal), &values, LENT);
                    assert_eq!(found, 28, "{nominal} × {other}");
                }
                let nominals = with(&nominals, other);
                for value in [-MOST_W, 1 - MOST_W, 0, MOST_W - 1, MOST_W] {
                    let found = answer(&nominals, &with(&values, value), LENT);
                    assert_eq!(found, 0, "{other} × {value}");
                }
                for value in beyond(MOST_W) {
                    let found = answer(&nominals, &with(&values, value), LENT);
                    assert_eq!(found, 28, "{other} × {value}");
                }
            }
        }
    }
}

/// A W is not a nominal: each has its own limit.
#[test]
fn lists_may_not_be_exchanged() {
    assert_eq!(answer(&[1], &[MOST_POOLS + 1], LENT), 0);
    assert_eq!(answer(&[MOST_POOLS + 1], &[1], LENT), 28);
    assert_eq!(answer(&[-1], &[-MOST_POOLS - 1], LENT), 0);
    assert_eq!(answer(&[-MOST_POOLS - 1], &[-1], LENT), 28);
}

/// 2 before 28, whatever the reason for that is.
#[test]
fn refuses_in_order() {
    let many = vec![0; MOST_POSITIONS + 1];
    for (nominals, values) in [
        (&[1][..], &[1, 1][..]),
        (&[1, 1], &[1]),
        (&[], &[1]),
        (&many, &many),
        (&[MOST_POOLS + 1], &[1]),
        (&[1], &[-MOST_W - 1]),
        (&[i64::MIN], &[i64::MIN]),
        (&[1, i64::MIN], &[i64::MAX]),
    ] {
        assert_eq!(answer(nominals, values, LENT), 28);
        for lent in [0, 1, LENT - 1, LENT + 1, 2 * LENT] {
            assert_eq!(answer(nominals, values, lent), 2);
        }
    }
}

/// A number beyond its limit where the other list has no place.
#[test]
fn what_has_no_partner_is_refused() {
    for (nominals, values) in [
        (&[1, i64::MIN][..], &[1][..]),
        (&[1], &[1, i64::MIN]),
        (&[1, 0], &[1]),
        (&[1], &[1, 0]),
    ] {
        assert_eq!(answer(nominals, values, LENT), 28);
    }
}
