//! The stored output of the engine's program `trials` is what the model
//! gives. The engine's own gate holds the program to that file. A number of
//! a trial that could be moved by one with no line changed is found here.

use lavroudem_model::refusal::Refusal;
use lavroudem_model::trials::{answers, edges, listing, Edge, Trial, WALKED};
use std::path::Path;

#[test]
fn stored_output_is_the_models() {
    let stored = Path::new(env!("CARGO_MANIFEST_DIR")).join("../crates/trials/stdout");
    let stored = std::fs::read_to_string(stored).unwrap();
    assert_eq!(stored, listing());
}

/// A number one up and one down, where there is one.
fn moved(number: u64) -> Vec<u64> {
    [number.checked_sub(1), number.checked_add(1)]
        .into_iter()
        .flatten()
        .collect()
}

/// Whether the lines have the value, on the same trial but for it. Bytes go
/// round.
fn is_tried(edge: &Edge, value: u64) -> bool {
    let value = if edge.number == "byte" {
        value % 256
    } else {
        value
    };
    edges().iter().any(|other| {
        let same = other.number == edge.number && other.start == edge.start;
        same && other.values.contains(&value)
    })
}

/// The numbers that the calls of a line answer.
fn numbers_answered(line: &str) -> Vec<&str> {
    let calls = [
        "open", "back", "value", "ratio", "forward", "issue", "withdraw", "read", "write", "answer",
    ];
    let words: Vec<&str> = line.split(' ').collect();
    let answered = words.windows(2).filter(|pair| calls.contains(&pair[0]));
    answered.map(|pair| pair[1]).collect()
}

fn is_refused(line: &str) -> bool {
    numbers_answered(line).iter().any(|&number| number != "0")
}

/// A value that an edge takes answers otherwise when it is moved; or it is
/// the last that answers so, and the next one is tried too. What is accepted
/// beside a refusal has to answer otherwise.
#[test]
fn values_stand_at_their_edge() {
    for edge in edges() {
        for value in edge.values.clone() {
            let here = answers(&edge.at(value));
            for other in moved(value) {
                if answers(&edge.at(other)) != here {
                    continue;
                }
                let next = value.wrapping_mul(2).wrapping_sub(other);
                let there = answers(&edge.at(next));
                let last = is_tried(&edge, next) && there != here;
                let figure = is_refused(&here) || !is_refused(&there);
                assert!(last && figure, "{} {value} as {other}:{here}", edge.number);
            }
        }
    }
}

/// A number is tried both where a call is refused and where it is not, or
/// refused otherwise. Only for the rounding of ratios all is accepted.
#[test]
fn edges_have_two_sides() {
    let edges = edges();
    for edge in edges.iter().filter(|edge| edge.start.coupon != 1) {
        let same = |other: &&Edge| other.number == edge.number && other.start == edge.start;
        let values = edges
            .iter()
            .filter(same)
            .flat_map(|other| other.values.clone());
        let lines: Vec<String> = values.map(|value| answers(&edge.at(value))).collect();
        let differs = |line: &String| numbers_answered(line) != numbers_answered(&lines[0]);
        assert!(
            lines.iter().any(differs),
            "{} {:?}",
            edge.number,
            edge.values
        );
    }
}

/// The numbers of a trial with their names.
fn numbers(mut trial: Trial) -> Vec<(&'static str, u64)> {
    let numbers = trial.numbers().into_iter();
    numbers.map(|(name, number)| (name, *number)).collect()
}

/// All answers of an edge whose trials start with another number.
fn lines(edge: &Edge, name: &str, number: u64) -> Vec<String> {
    let start = edge.start.with(name, number);
    let line = |value| answers(&start.with(edge.number, value));
    edge.values.clone().map(line).collect()
}

/// Whether a number stands just beyond its limit, where an edge of its own
/// tries it. It may go further beyond unseen.
fn is_beyond(name: &str, number: u64) -> bool {
    let tries = |edge: &Edge| edge.number == name && *edge.values.end() == number;
    let refuses = |edge: &Edge| is_refused(&answers(&edge.at(number)));
    edges().iter().any(|edge| tries(edge) && refuses(edge))
}

/// What an edge changes of the plain trial is seen in its own lines.
#[test]
fn numbers_of_an_edge_are_seen() {
    for edge in edges() {
        for (plain, (name, number)) in numbers(WALKED).into_iter().zip(numbers(edge.start)) {
            if name == edge.number || number == plain.1 {
                continue;
            }
            let usual = lines(&edge, name, number);
            for other in moved(number) {
                let further = other > number && is_beyond(name, number);
                let seen = further || lines(&edge, name, other) != usual;
                assert!(seen, "{} {:?}: {name} {other}", edge.number, edge.values);
            }
        }
    }
}

/// Each number of the plain trial is seen in the lines of some edge that
/// leaves it as it is.
#[test]
fn numbers_of_the_plain_trial_are_seen() {
    let edges = edges();
    for (name, number) in numbers(WALKED) {
        for other in moved(number) {
            let seen = edges.iter().any(|edge| {
                let same = edge.start.with(name, number) == edge.start;
                same && lines(edge, name, other) != lines(edge, name, number)
            });
            assert!(seen, "{name} {other}");
        }
    }
}

/// Every refusal that a call of the library can meet is among the lines.
#[test]
fn every_refusal_is_tried() {
    let listing = listing();
    let answered: Vec<&str> = listing.lines().flat_map(numbers_answered).collect();
    let by_calls = |refusal: &Refusal| !refusal.stops_a_deck();
    for refusal in Refusal::ALL.into_iter().filter(by_calls) {
        let number = refusal.number().to_string();
        assert!(answered.contains(&number.as_str()), "{refusal:?}");
    }
}

/// The ratios at 15 and 16, and of halves, for jumps of either sign.
#[test]
fn ratios_are_what_they_should_be() {
    let of = |start: Trial, number: &str, value: u64| {
        let line = answers(&start.with(number, value));
        let field = line.split(" ratio ").nth(1).unwrap();
        field.split(" forward ").next().unwrap().to_string()
    };
    let jumps = edges().into_iter().filter(|edge| edge.start.coupon == 1);
    let ratios: Vec<String> = jumps
        .flat_map(|edge| {
            edge.values
                .clone()
                .map(move |value| of(edge.start, edge.number, value))
        })
        .collect();
    let (scales, halves) = ratios.split_at(11);
    let big = "0 999999000000";
    let small = "0 -999999000000";
    assert_eq!(scales[..3], [small, "15", big]);
    assert_eq!(scales[3..7], [big, "16", small, "16"]);
    assert_eq!(scales[7..], ["16", small, "16", big]);
    assert_eq!(
        halves[..8],
        ["0 1", "0 0", "0 2", "0 1", "0 -1", "0 0", "0 -2", "0 -1"]
    );
    assert_eq!(halves[8..], ["0 0", "0 -1", "0 0", "0 1"]);
}

/// Issue and withdraw at the length and the bytes of document 01, with the
/// byte that each leaves; and what a cut write of new over old may leave.
#[test]
fn register_lines_are_what_they_should_be() {
    let expected = "
register lent      255 issue 2 255 withdraw 2 165
register lent      256 issue 0 165 withdraw 0 0
register lent      257 issue 2 255 withdraw 2 165
byte               0 issue 9 0 withdraw 9 0
byte               164 issue 9 164 withdraw 9 164
byte               165 issue 17 165 withdraw 0 0
byte               166 issue 9 166 withdraw 9 166
byte               254 issue 9 254 withdraw 9 254
byte               255 issue 0 165 withdraw 10 255
left 165 0 132 1
left 165 0 165 1
left 165 0 0 1
left 165 0 255 0
left 165 0 2 0
left 255 165 173 1
left 255 165 255 1
left 255 165 165 1
left 255 165 33 0
left 255 165 0 0
";
    let listing = listing();
    let (before_packed, _) = listing.split_once("packed ").unwrap();
    assert!(before_packed.ends_with(expected));
}

/// Packed coupons by their bytes, in decimal as all numbers of the trials.
#[test]
fn packed_lines_are_what_they_should_be() {
    let expected = "
packed 0 0 0 0 read 0 0
packed 1 0 0 0 read 0 1000000
packed 1 35 69 103 read 0 1234567
packed 9 153 153 153 read 0 9999999
packed 16 0 0 0 read 0 10000000
packed 16 0 0 1 read 8
packed 153 153 153 153 read 8
packed 16 0 0 10 read 30
packed 16 0 0 160 read 30
packed 154 0 0 0 read 30
packed 160 0 0 0 read 30
packed 9 10 0 0 read 30
packed 9 0 160 0 read 30
packed 255 255 255 255 read 30
packed 1 0 0 read 2
packed 1 0 0 0 0 read 2
packed read 2
packed 170 170 170 read 2
packed 170 170 170 170 170 read 2
coupon 0 lent 4 write 0 0 0 0 0
coupon 1 lent 4 write 0 0 0 0 1
coupon 1234567 lent 4 write 0 1 35 69 103
coupon 9999999 lent 4 write 0 9 153 153 153
coupon 10000000 lent 4 write 0 16 0 0 0
coupon 10000001 lent 4 write 8 255 255 255 255
coupon 18446744073709551615 lent 4 write 8 255 255 255 255
coupon 1 lent 3 write 2 255 255 255
coupon 1 lent 5 write 2 255 255 255 255 255
coupon 10000001 lent 3 write 2 255 255 255
coupon 10000001 lent 5 write 2 255 255 255 255 255
coupon 1 lent 0 write 2
";
    let listing = listing();
    let (before_books, _) = listing.split_once("book lent ").unwrap();
    assert!(before_books.ends_with(expected));
}

/// Books with their lines, and what is left of the lent bytes, weighed by their
/// places.
#[test]
fn book_lines_are_what_they_should_be() {
    let expected = "
book lent 96 positions 0 0 answer 0 bytes 13
book 0 0 0 0
left 1168038
book lent 96 positions 1 1 answer 0 bytes 13
book 0 1 1 0
left 1168056
book lent 96 positions 1 1 answer 0 bytes 15
book 0 -1 0 -1
left 1161887
book lent 96 positions 1 1 answer 0 bytes 15
book 0 -1 0 -1
left 1161887
book lent 96 positions 1 1 answer 0 bytes 13
book 0 1 1 0
left 1168056
book lent 96 positions 2 2 answer 0 bytes 14
book 0 0 5 -5
left 1165181
book lent 96 positions 3 3 answer 0 bytes 15
book 0 -6 0 -6
left 1162002
book lent 96 positions 2 2 answer 0 bytes 28
book 0 999000 1000000 -1000
left 1102220
book lent 96 positions 2 2 answer 0 bytes 31
book 0 1000000000 1000000000 0
left 1083114
book lent 96 positions 2 2 answer 0 bytes 31
book 0 1000000000 1000000000 0
left 1083114
book lent 96 positions 2 2 answer 0 bytes 31
book 0 999999999 1000000000 -1
left 1084052
book lent 96 positions 2 2 answer 0 bytes 32
book 0 -999999999 1 -1000000000
left 1077576
book lent 96 positions 2 2 answer 0 bytes 49
book 0 999999999999999999 1000000000000000000 -1
left 933707
book lent 96 positions 2 2 answer 0 bytes 50
book 0 -999999999999999999 1 -1000000000000000000
left 923748
book lent 96 positions 2 2 answer 0 bytes 49
book 0 1000000000000000000 1000000000000000000 0
left 931104
book lent 96 positions 2 2 answer 0 bytes 49
book 0 1000000000000000001 1000000000000000001 0
left 931176
book lent 96 positions 2 2 answer 0 bytes 47
book 0 999999999999999999 999999999999999999 0
left 959695
book lent 96 positions 2 2 answer 0 bytes 49
book 0 1000000000000000000 1000000000000000000 0
left 931104
book lent 96 positions 6 6 answer 0 bytes 49
book 0 1199999999999999994 1199999999999999994 0
left 939350
book lent 96 positions 1 1 answer 0 bytes 49
book 0 1000000001000000000 1000000001000000000 0
left 931158
book lent 96 positions 2 2 answer 0 bytes 49
book 0 9223372036854775808 9223372036854775808 0
left 936014
book lent 96 positions 2 2 answer 0 bytes 51
book 0 -9223372036854775809 0 -9223372036854775809
left 915692
book lent 96 positions 2 2 answer 0 bytes 51
book 0 18446744073709551616 18446744073709551616 0
left 914935
book lent 96 positions 2 2 answer 0 bytes 60
book 0 0 200000000000000000000000 -200000000000000000000000
left 805898
book lent 96 positions 4096 4096 answer 0 bytes 65
book 0 819200000000000000000000000 819200000000000000000000000 0
left 740566
book lent 96 positions 4096 4096 answer 0 bytes 67
book 0 -819200000000000000000000000 0 -819200000000000000000000000
left 713302
book lent 96 positions 4096 4096 answer 0 bytes 90
book 0 -818800000000000000000000000 200000000000000000000000 -819000000000000000000000000
left 336335
book lent 96 positions 4096 4096 answer 0 bytes 89
book 0 818800000000000000000000000 819000000000000000000000000 -200000000000000000000000
left 354550
book lent 96 positions 4095 4095 answer 0 bytes 19
book 0 4095 4095 0
left 1147617
book lent 96 positions 4097 4097 answer 28
left 1187280
book lent 96 positions 4096 4095 answer 28
left 1187280
book lent 96 positions 4095 4096 answer 28
left 1187280
book lent 96 positions 1 2 answer 28
left 1187280
book lent 96 positions 2 1 answer 28
left 1187280
book lent 96 positions 0 1 answer 28
left 1187280
book lent 96 positions 1 1 answer 28
left 1187280
book lent 96 positions 1 1 answer 28
left 1187280
book lent 96 positions 1 1 answer 28
left 1187280
book lent 96 positions 1 1 answer 28
left 1187280
book lent 96 positions 1 1 answer 28
left 1187280
book lent 96 positions 1 1 answer 28
left 1187280
book lent 96 positions 2 2 answer 28
left 1187280
book lent 96 positions 2 2 answer 28
left 1187280
book lent 96 positions 1 1 answer 28
left 1187280
book lent 96 positions 1 1 answer 28
left 1187280
book lent 96 positions 1 1 answer 28
left 1187280
book lent 96 positions 1 1 answer 28
left 1187280
book lent 95 positions 1 1 answer 2
left 1162800
book lent 97 positions 1 1 answer 2
left 1212015
book lent 0 positions 1 1 answer 2
left 0
book lent 0 positions 0 0 answer 2
left 0
book lent 95 positions 1 2 answer 2
left 1162800
book lent 97 positions 4097 4097 answer 2
left 1212015
book lent 97 positions 1 1 answer 2
left 1212015
";
    let listing = listing();
    let (before_turns, _) = listing.split_once("turns steps ").unwrap();
    assert!(before_turns.ends_with(expected));
}

/// Turns with what they leave of list and steps.
#[test]
fn turn_lines_are_what_they_should_be() {
    let expected = "
turns steps 2 2 2 place 0 lent 3 answer 0 written 3 last 0 list 1 2 0 sum 3 left 1 1 1
turns steps 2 2 2 place 1 lent 3 answer 0 written 3 last 1 list 2 0 1 sum 3 left 1 1 1
turns steps 2 2 2 place 2 lent 3 answer 0 written 3 last 2 list 0 1 2 sum 3 left 1 1 1
turns steps 2 2 2 place 2 lent 1 answer 0 written 1 last 0 list 0 sum 0 left 1 2 2
turns steps 2 2 2 place 1 lent 2 answer 0 written 2 last 0 list 2 0 sum 2 left 1 2 1
turns steps 2 2 2 place 0 lent 4 answer 0 written 4 last 1 list 1 2 0 1 sum 4 left 1 0 1
turns steps 0 3 0 place 1 lent 5 answer 0 written 3 last 1 list 1 1 1 255 255 sum 513 left 0 0 0
turns steps 3 1 0 place 2 lent 9 answer 0 written 4 last 0 list 0 1 0 0 255 255 255 255 255 sum 1276 left 0 0 0
turns steps 1 0 2 1 place 0 lent 9 answer 0 written 4 last 2 list 2 3 0 2 255 255 255 255 255 sum 1282 left 0 0 0 0
turns steps 1 0 2 1 place 1 lent 2 answer 0 written 2 last 3 list 2 3 sum 5 left 1 0 1 0
turns steps 0 0 0 5 place 1 lent 2 answer 0 written 2 last 3 list 3 3 sum 6 left 0 0 0 3
turns steps 5 0 0 0 place 1 lent 2 answer 0 written 2 last 0 list 0 0 sum 0 left 3 0 0 0
turns steps 0 0 0 place 1 lent 4 answer 0 written 0 last 1 list 255 255 255 255 sum 1020 left 0 0 0
turns steps 2 2 2 place 1 lent 0 answer 0 written 0 last 1 list sum 0 left 2 2 2
turns steps 20 20 place 0 lent 29 answer 0 written 29 last 1 list 1 0 1 0 1 0 1 0 1 0 1 0 1 0 1 0 1 0 sum 15 left 6 5
turns steps 9 2 1 3 place 3 lent 3 answer 0 written 3 last 2 list 0 1 2 sum 3 left 8 1 0 3
turns steps 8 1 0 3 place 2 lent 0 answer 0 written 0 last 2 list sum 0 left 8 1 0 3
turns steps 8 1 0 3 place 2 lent 3 answer 0 written 3 last 1 list 3 0 1 sum 4 left 7 0 0 2
turns steps 7 0 0 2 place 1 lent 65536 answer 29 list 255 255 255 255 255 255 255 255 255 255 255 255 255 255 255 255 255 255 sum 16711680 left 7 0 0 2
turns steps 7 0 0 2 place 1 lent 3 answer 0 written 3 last 3 list 3 0 3 sum 6 left 6 0 0 0
turns steps 6 0 0 0 place 3 lent 9 answer 0 written 6 last 0 list 0 0 0 0 0 0 255 255 255 sum 765 left 0 0 0 0
turns steps 0 0 0 0 place 0 lent 9 answer 0 written 0 last 0 list 255 255 255 255 255 255 255 255 255 sum 2295 left 0 0 0 0
turns steps place 0 lent 3 answer 29 list 255 255 255 sum 765 left
turns steps 1 place 0 lent 3 answer 0 written 1 last 0 list 0 255 255 sum 510 left 0
turns steps 1 1 1 1 1 1 1 1 1 1 1 1 1 1 1 1 place 15 lent 18 answer 0 written 16 last 15 list 0 1 2 3 4 5 6 7 8 9 10 11 12 13 14 15 255 255 sum 630 left 0 0 0 0 0 0 0 0 0 0 0 0 0 0 0 0
turns steps 1 1 1 1 1 1 1 1 1 1 1 1 1 1 1 1 1 place 0 lent 3 answer 29 list 255 255 255 sum 765 left 1 1 1 1 1 1 1 1 1 1 1 1 1 1 1 1 1
turns steps 1 1 1 1 1 1 1 1 1 1 1 1 1 1 1 1 1 place 16 lent 3 answer 29 list 255 255 255 sum 765 left 1 1 1 1 1 1 1 1 1 1 1 1 1 1 1 1 1
turns steps 1 1 1 place 3 lent 4 answer 29 list 255 255 255 255 sum 1020 left 1 1 1
turns steps 1 1 1 place 4 lent 4 answer 29 list 255 255 255 255 sum 1020 left 1 1 1
turns steps 1 1 1 place 18446744073709551615 lent 4 answer 29 list 255 255 255 255 sum 1020 left 1 1 1
turns steps 3650 1 1 place 2 lent 4 answer 0 written 4 last 0 list 0 1 2 0 sum 3 left 3648 0 0
turns steps 3651 1 1 place 2 lent 4 answer 29 list 255 255 255 255 sum 1020 left 3651 1 1
turns steps 1 3650 1 place 2 lent 4 answer 0 written 4 last 1 list 0 1 2 1 sum 4 left 0 3648 0
turns steps 1 3651 1 place 2 lent 4 answer 29 list 255 255 255 255 sum 1020 left 1 3651 1
turns steps 1 1 3650 place 2 lent 4 answer 0 written 4 last 2 list 0 1 2 2 sum 5 left 0 0 3648
turns steps 1 1 3651 place 2 lent 4 answer 29 list 255 255 255 255 sum 1020 left 1 1 3651
turns steps 65535 65535 65535 place 2 lent 4 answer 29 list 255 255 255 255 sum 1020 left 65535 65535 65535
turns steps 1 1 1 place 2 lent 65535 answer 0 written 3 last 2 list 0 1 2 255 255 255 255 255 255 255 255 255 255 255 255 255 255 255 sum 16710663 left 0 0 0
turns steps 1 1 1 place 2 lent 65536 answer 29 list 255 255 255 255 255 255 255 255 255 255 255 255 255 255 255 255 255 255 sum 16711680 left 1 1 1
turns steps 3650 3650 3650 3650 3650 3650 3650 3650 3650 3650 3650 3650 3650 3650 3650 3650 place 15 lent 58400 answer 0 written 58400 last 15 list 0 1 2 3 4 5 6 7 8 9 10 11 12 13 14 15 0 1 sum 438000 left 0 0 0 0 0 0 0 0 0 0 0 0 0 0 0 0
turns steps 3650 3650 3650 3650 3650 3650 3650 3650 3650 3650 3650 3650 3650 3650 3650 3650 place 15 lent 65535 answer 0 written 58400 last 15 list 0 1 2 3 4 5 6 7 8 9 10 11 12 13 14 15 0 1 sum 2257425 left 0 0 0 0 0 0 0 0 0 0 0 0 0 0 0 0
turns steps 3651 3651 3651 3651 3651 3651 3651 3651 3651 3651 3651 3651 3651 3651 3651 3651 3651 place 17 lent 65536 answer 29 list 255 255 255 255 255 255 255 255 255 255 255 255 255 255 255 255 255 255 sum 16711680 left 3651 3651 3651 3651 3651 3651 3651 3651 3651 3651 3651 3651 3651 3651 3651 3651 3651
turns steps place 0 lent 0 answer 29 list sum 0 left
";
    assert!(listing().ends_with(expected));
}
