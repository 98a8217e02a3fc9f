//! Decks as text: the worked deck to the letter, the round trip of every
//! deck, and each mistake with its line.

use lavroudem_model::deck::MAX_DECK;
use lavroudem_model::decks;
use lavroudem_model::random::Random;
use lavroudem_tool::form::{looks_like_text, starts_like_text, Form};
use lavroudem_tool::input::{self, MAX_TEXT};
use lavroudem_tool::quote;
use lavroudem_tool::text::{assemble, assemble_with_lines, disassemble, read, Assembled, Lines};
use std::io::{self, Read};
use std::path::Path;

const WORKED_TEXT: &str = "\
pool 2 2 1 400000000 7
cut 0
cut 300000000
hazard 100000000
hazard 200000000
step 1000000000 0
step 900000000 1000000000
coupon 1000000
coupon 500000
issue 7
open
back 2
value 0 0
value 1 0
delta 0 0
forward 2 1
withdraw 7
value 0 0
";

/// The deck that the engine's own program is tried with.
fn worked_deck() -> Vec<u8> {
    let stored = Path::new(env!("CARGO_MANIFEST_DIR")).join("../crates/listing/stdin");
    std::fs::read(stored).unwrap()
}

#[test]
fn worked_deck_to_the_letter() {
    assert_eq!(disassemble(&worked_deck()), WORKED_TEXT);
    assert_eq!(assemble(WORKED_TEXT), Ok(worked_deck()));
}

#[test]
fn operands_stand_low_byte_first() {
    let text = "pool 1 770 4 84281096 9\nforward 770 4\nback 65535\nstep 4294967295 1\n\
                elapsed 84281096\n";
    let deck = [
        0x01, 1, 0x02, 0x03, 4, 0x08, 0x07, 0x06, 0x05, 9, //
        0x0C, 0x02, 0x03, 4, //
        0x09, 0xFF, 0xFF, //
        0x04, 0xFF, 0xFF, 0xFF, 0xFF, 1, 0, 0, 0, //
        0x0D, 0x08, 0x07, 0x06, 0x05,
    ];
    assert_eq!(assemble(text), Ok(deck.to_vec()));
    assert_eq!(disassemble(&deck), text);
}

// ---- the round trip

/// Of a deck that is too long, one byte more than the longest comes back.
fn comes_back(deck: &[u8]) {
    let text = disassemble(deck);
    let deck = &deck[..deck.len().min(MAX_DECK + 1)];
    assert!(looks_like_text(text.as_bytes()));
    match assemble(&text) {
        Ok(again) => assert!(again == deck, "{deck:02X?}\n{text}"),
        Err(mistake) => panic!("{mistake}\n{text}"),
    }
}

#[test]
fn random_decks_come_back() {
    let mut random = Random::new(0x7E87_0001);
    for _ in 0..3_000 {
        comes_back(&decks::any(&mut random));
    }
    for _ in 0..100 {
        comes_back(&decks::oversized(&mut random));
    }
    comes_back(&decks::longest(&mut random));
}

#[test]
fn random_bytes_come_back() {
    let mut random = Random::new(0x7E87_0002);
    for _ in 0..3_000 {
        let length = random.below(60);
        // Half of them are rich in command bytes.
        let most = [256, 16][random.below(2)];
        let deck: Vec<u8> = (0..length).map(|_| random.below(most) as u8).collect();
        comes_back(&deck);
    }
    for command in 0..=255 {
        comes_back(&[command; 33]);
    }
    comes_back(&[0x08; MAX_DECK + 1]);
}

#[test]
fn equal_commands_fold() {
    let steps = "step 999920000 0 x 90\nstep 999920000 250000000\n";
    let deck = assemble(steps).unwrap();
    assert_eq!(deck.len(), 91 * 9);
    assert_eq!(disassemble(&deck), steps);
    let fractions = "elapsed 0 x 3649\nelapsed 250000000\n";
    let deck = assemble(fractions).unwrap();
    assert_eq!(deck.len(), 3_650 * 5);
    assert_eq!(disassemble(&deck), fractions);
    let opens = disassemble(&[0x08; MAX_DECK + 1]);
    assert_eq!(opens, "open x 65536\nopen\n");
}

#[test]
fn what_is_no_command_is_written_as_bytes() {
    // An unknown byte ends the reading, even before what looks like an open.
    assert_eq!(disassemble(&[0x08, 0xFE, 0x08]), "open\nbytes fe 08\n");
    assert_eq!(disassemble(&[0x09, 0x05]), "bytes 09 05\n");
    assert_eq!(disassemble(&[0x0D, 1, 0, 0]), "bytes 0d 01 00 00\n");
    let many = disassemble(&[0xFF; 17]);
    let sixteen = "ff ".repeat(16);
    assert_eq!(many, format!("bytes {}\nbytes ff\n", sixteen.trim_end()));
    assert_eq!(
        assemble("bytes 0D ff x 2"),
        Ok(vec![0x0D, 0xFF, 0x0D, 0xFF])
    );
}

#[test]
fn comments_and_blanks_count_for_nothing() {
    let text = "# a comment\r\n\r\n\tback\t258 # two\n   \nopen#at once\n  issue 007";
    assert_eq!(assemble(text), Ok(vec![0x09, 2, 1, 0x08, 0x06, 7]));
    assert_eq!(assemble(""), Ok(vec![]));
    assert_eq!(disassemble(&[]), "");
}

// ---- mistakes

#[test]
fn mistakes_have_line_and_reason() {
    let form = "write `pool names steps tranches recovery number`; operands found: 4";
    let repeat = "after `x` comes a repeat count from 1 to 65536, and no more";
    for (line, reason) in [
        ("pool 2 2 1 400000000", form),
        ("open 1", "write `open`; operands found: 1"),
        ("back", "write `back steps`; operands found: 0"),
        (
            "cut 4294967296",
            "point 4294967296 is too large, at most 4294967295",
        ),
        ("back 65536", "steps 65536 is too large, at most 65535"),
        ("value 0 256", "count 256 is too large, at most 255"),
        (
            "issue 99999999999999999999",
            "number 99999999999999999999 is too large, at most 255",
        ),
        ("issue -1", "number `-1` is not a whole number"),
        ("issue +1", "number `+1` is not a whole number"),
        ("elapsed", "write `elapsed fraction`; operands found: 0"),
        ("elapsed 1 2", "write `elapsed fraction`; operands found: 2"),
        (
            "elapsed 4294967296",
            "fraction 4294967296 is too large, at most 4294967295",
        ),
        ("elapsed 0.25", "fraction `0.25` is not a whole number"),
        ("step 0.9 0", "discount `0.9` is not a whole number"),
        ("step 1 0 x", repeat),
        ("step 1 0 x 0", repeat),
        ("step 1 0 x 65537", repeat),
        ("step 1 0 x 2 3", repeat),
        ("step 1 0 x two", repeat),
        ("x 3", "no command before `x`"),
        ("bytes", "`bytes` takes at least one byte"),
        ("bytes 0", "`0` is not a byte in two hexadecimal digits"),
        ("bytes +1", "`+1` is not a byte in two hexadecimal digits"),
        ("bytes 1ff", "`1ff` is not a byte in two hexadecimal digits"),
    ] {
        let mistake = assemble(&format!("open\n\n{line}\nnonsense\n")).unwrap_err();
        assert_eq!((mistake.line, &mistake.reason[..]), (3, reason), "{line}");
        assert_eq!(mistake.to_string(), format!("line 3: {reason}"));
    }
}

#[test]
fn unknown_words_are_told_the_known_ones() {
    for word in ["values", "Open", "open,", "packed", "пул"] {
        let mistake = assemble(word).unwrap_err();
        let start = format!("no command `{word}`; there are pool, cut, hazard, step, ");
        assert!(mistake.reason.starts_with(&start), "{mistake}");
    }
}

// ---- packed coupons

#[test]
fn packed_coupons_give_the_deck_of_their_numbers() {
    let deck = vec![0x05, 0x40, 0x42, 0x0F, 0x00];
    assert_eq!(assemble("coupon packed 01000000"), Ok(deck));
    for (packed, plain) in [
        ("coupon packed 00000000", "coupon 0"),
        ("coupon packed 00000001", "coupon 1"),
        ("coupon packed 01234567", "coupon 1234567"),
        ("coupon\tpacked 09999999# ledger", "coupon 9999999"),
        ("coupon packed 10000000", "coupon 10000000"),
        ("coupon packed 00025000 x 3", "coupon 25000 x 3"),
        (
            "open\ncoupon packed 00500000\nopen",
            "open\ncoupon 500000\nopen",
        ),
    ] {
        let deck = assemble(packed).unwrap();
        assert_eq!(assemble(plain).as_ref(), Ok(&deck), "{packed}");
        assert_eq!(disassemble(&deck), format!("{plain}\n"));
    }
}

#[test]
fn random_packed_coupons_give_the_deck_of_their_numbers() {
    let mut random = Random::new(0x7E87_0004);
    for _ in 0..20_000 {
        let coupon = random.with_edges(0, 10_000_000);
        let packed = assemble(&format!("coupon packed {coupon:08}"));
        assert_eq!(packed, assemble(&format!("coupon {coupon}")));
        assert!(packed.is_ok(), "{coupon}");
    }
}

/// Behind an accepted line, so that the place is that of the mistake.
fn told_of_packed(line: &str) -> String {
    let text = format!("coupon packed 01000000\n{line}\nnonsense\n");
    assemble(&text).unwrap_err().to_string()
}

#[test]
fn packed_coupons_have_a_form() {
    for (operands, found) in [
        ("", 0),
        ("x 3", 0),
        ("01 00 00 00", 4),
        ("packed 01000000", 2),
    ] {
        let form = format!("write `coupon packed digits`; operands found: {found}");
        let told = told_of_packed(&format!("coupon packed {operands}"));
        assert_eq!(told, format!("line 2: {form}"), "{operands}");
    }
    for word in [
        "0100000g",
        "0x01000000",
        "+1000000",
        "1,000,000",
        "g",
        "٠١٠٠٠٠٠٠",
    ] {
        let reason = format!("packed coupon `{word}` is not in hexadecimal digits");
        let told = told_of_packed(&format!("coupon packed {word}"));
        assert_eq!(told, format!("line 2: {reason}"));
    }
}

#[test]
fn nothing_but_a_coupon_is_packed() {
    let rate = "write `coupon rate` or `coupon packed digits`; operands found: 2";
    let point = "write `cut point`; operands found: 2";
    let discount = "discount `packed` is not a whole number";
    let fraction = "fraction `packed` is not a whole number";
    for (line, reason) in [
        ("coupon 1 packed", rate),
        ("coupon Packed 01000000", rate),
        ("cut packed 01000000", point),
        ("step packed 01000000", discount),
        ("elapsed packed", fraction),
    ] {
        assert_eq!(told_of_packed(line), format!("line 2: {reason}"), "{line}");
    }
}

/// 2 before 30, and 30 before 8.
#[test]
fn refused_packed_coupons_are_told() {
    for (digits, reason) in [
        ("0", "2 (length): 1 of 8 digits"),
        ("010000", "2 (length): 6 of 8 digits"),
        ("0100000", "2 (length): 7 of 8 digits"),
        ("010000000", "2 (length): 9 of 8 digits"),
        ("0100000000", "2 (length): 10 of 8 digits"),
        ("aaaaaa", "2 (length): 6 of 8 digits"),
        ("AAAAAAA", "2 (length): 7 of 8 digits"),
        ("9999999999", "2 (length): 10 of 8 digits"),
        ("0100000A", "30 (digit): half byte 8 is A, above 9"),
        ("0b00c000", "30 (digit): half byte 2 is b, above 9"),
        ("F0000000", "30 (digit): half byte 1 is F, above 9"),
        ("9999999f", "30 (digit): half byte 8 is f, above 9"),
        ("10000001", "8 (coupon): above 10000000"),
        ("99999999", "8 (coupon): above 10000000"),
    ] {
        for repeat in ["", " x 2"] {
            let told = told_of_packed(&format!("coupon packed {digits}{repeat}"));
            let reason = format!("packed coupon `{digits}` is refused {reason}");
            assert_eq!(told, format!("line 2: {reason}"));
        }
    }
}

/// A number that is over the limit is the engine's to refuse.
#[test]
fn plain_coupons_over_the_limit_are_no_mistake() {
    for coupon in ["10000001", "99999999"] {
        assert_eq!(assemble(&format!("coupon {coupon}")).unwrap().len(), 5);
        assert!(assemble(&format!("coupon packed {coupon}")).is_err());
    }
}

// ---- text or binary

#[test]
fn text_is_told_from_a_deck() {
    assert!(looks_like_text(b""));
    assert!(looks_like_text("open # größer\r\n\tback 1".as_bytes()));
    assert!(!looks_like_text(&worked_deck()));
    assert!(!looks_like_text(b"open\x00"));
    assert!(!looks_like_text(b"open\x7F"));
    assert!(!looks_like_text("open # \u{9B}31m".as_bytes()));
    assert!(!looks_like_text(b"open \xFF"));
}

/// Wherever the start of a text ends, it may be text. A broken character is
/// none, whatever follows it.
#[test]
fn a_cut_character_is_told_from_a_broken_one() {
    for text in ["open # größer", "# 100 €\n", "# \u{1D11E}\n"] {
        for end in 0..=text.len() {
            let start = &text.as_bytes()[..end];
            assert!(starts_like_text(start), "{start:X?}");
            assert_eq!(looks_like_text(start), text.is_char_boundary(end));
        }
    }
    let broken: [&[u8]; 7] = [
        b"# \xFF",
        b"# \x80",
        b"# \xC3 ",
        b"# \xC3\xC3",
        b"# \xE2\x82\n",
        b"# \xED\xA0",
        b"# \xF0\x9D\x84\xF0",
    ];
    for bytes in broken {
        assert!(!starts_like_text(bytes), "{bytes:X?}");
        assert!(!looks_like_text(bytes), "{bytes:X?}");
    }
    // A control character is odd before a cut one too.
    assert!(!starts_like_text(b"open\0"));
    assert!(!starts_like_text(b"open\0 # \xC3"));
}

fn as_deck(bytes: &[u8], form: Form) -> Result<Vec<u8>, String> {
    match read(bytes.to_vec(), form) {
        Ok(assembled) => Ok(assembled.deck),
        Err(mistake) => Err(mistake.to_string()),
    }
}

#[test]
fn a_form_can_be_forced() {
    let text = b"open\n";
    assert_eq!(as_deck(text, Form::Either), Ok(vec![0x08]));
    assert_eq!(as_deck(text, Form::Text), Ok(vec![0x08]));
    assert_eq!(as_deck(text, Form::Binary), Ok(text.to_vec()));
    assert_eq!(as_deck(&worked_deck(), Form::Either), Ok(worked_deck()));
    assert!(as_deck(&worked_deck(), Form::Text).is_err());
}

// ---- what is nearly text

#[test]
fn a_byte_order_mark_is_skipped() {
    for form in [Form::Text, Form::Either] {
        assert_eq!(as_deck(b"\xEF\xBB\xBFopen\n", form), Ok(vec![0x08]));
        let odd = as_deck(b"\xEF\xBB\xBFopen \xFF\n", form).unwrap_err();
        let told = "line 1: byte 9 of the line is FF, ";
        assert!(odd.starts_with(told), "{odd}");
    }
}

const UTF_16: &str = "line 1: this is UTF-16; a text is UTF-8";

const UTF_32: &str = "line 1: this is UTF-32; a text is UTF-8";

const NEARLY_TEXT: [(&[u8], &str); 13] = [
    (
        b"open\nopen # \xFF\n",
        "line 2: byte 8 of the line is FF, which is not UTF-8",
    ),
    (
        b"open\n\x0Cissue\x0C7\n",
        "line 2: byte 1 of the line is 0C, a control character",
    ),
    (
        b"# caf\xE9\nopen\n",
        "line 1: byte 6 of the line is E9, which is not UTF-8",
    ),
    (
        b"open\n\0",
        "line 2: byte 1 of the line is 00, a control character",
    ),
    (
        b"7\nopen \xFF\n",
        "line 2: byte 6 of the line is FF, which is not UTF-8",
    ),
    (
        b"\t open \xFF\n",
        "line 1: byte 8 of the line is FF, which is not UTF-8",
    ),
    (
        b"open # \xC3",
        "line 1: byte 8 of the line is C3, which is not UTF-8",
    ),
    (b"\xFF\xFEo\0p\0e\0n\0", UTF_16),
    (b"\xFE\xFF\0o\0p\0e\0n", UTF_16),
    (b"o\0p\0e\0n\0", UTF_16),
    (b"\0o\0p\0e\0n", UTF_16),
    (b"\xFF\xFE\0\0o\0\0\0p\0\0\0", UTF_32),
    (b"\0\0\xFE\xFF\0\0\0o\0\0\0p", UTF_32),
];

#[test]
fn what_is_nearly_text_is_told_so() {
    for (bytes, told) in NEARLY_TEXT {
        let mistake = as_deck(bytes, Form::Either).unwrap_err();
        assert!(mistake.starts_with(told), "{mistake}");
        assert_eq!(as_deck(bytes, Form::Binary), Ok(bytes.to_vec()));
    }
    for mark in [&b"\xFF\xFE\0\0"[..], b"\0\0\xFE\xFF"] {
        assert_eq!(as_deck(mark, Form::Text).unwrap_err(), UTF_32);
    }
    let mistake = as_deck(b"open\nopen # \xFF\n", Form::Text).unwrap_err();
    assert!(mistake.starts_with("line 2: byte 8 of the line is FF, "));
}

#[test]
fn a_text_longer_than_a_deck_is_told_so() {
    let text = [&b"# on and on\n".repeat(6_000)[..], b"\xFF\n"].concat();
    let mistake = as_deck(&text, Form::Either).unwrap_err();
    assert!(mistake.starts_with("line 6001: byte 1 of the line is FF, "));
}

/// A line of a text may stand in the operands of a deck. If that runs to its
/// end, or has too many of a kind, it is the engine's.
#[test]
fn a_deck_with_words_is_not_nearly_text() {
    let step = b"\x04\nopen\0\0\0";
    let pool = [0x01; 10];
    let calls = vec![0x08; MAX_DECK - step.len() - 2];
    let decks: [&[&[u8]]; 3] = [
        &[step, &[0x06, 7]],
        &[step, &calls, &[0x06, 7]],
        &[step, &pool, &pool],
    ];
    for deck in decks.map(|parts| parts.concat()) {
        assert_eq!(as_deck(&deck, Form::Either), Ok(deck));
    }
    assert!(as_deck(&[&step[..], &[0x06]].concat(), Form::Either).is_err());
}

/// The verdict on a deck, damaged or not, is the engine's.
#[test]
fn no_deck_is_nearly_text() {
    let mut random = Random::new(0x7E87_0003);
    for _ in 0..20_000 {
        let deck = decks::any(&mut random);
        if !looks_like_text(&deck) {
            assert_eq!(as_deck(&deck, Form::Either), Ok(deck));
        }
    }
}

// ---- how much is read and made

/// A reader that never ends, and counts what it gave.
struct Endless {
    unit: &'static [u8],
    given: usize,
}

impl Read for Endless {
    fn read(&mut self, buffer: &mut [u8]) -> io::Result<usize> {
        for byte in &mut *buffer {
            *byte = self.unit[self.given % self.unit.len()];
            self.given += 1;
        }
        Ok(buffer.len())
    }
}

#[test]
fn an_endless_file_is_read_no_further_than_it_matters() {
    for (unit, form, most) in [
        (&b"\0"[..], Form::Either, MAX_DECK),
        (b"\0", Form::Binary, MAX_DECK),
        (b"# on and on\n", Form::Binary, MAX_DECK),
        (b"# on and on\n", Form::Either, MAX_TEXT),
        (b"# on and on\n", Form::Text, MAX_TEXT),
        // What is read of it first ends within the ß.
        ("# größe\n".as_bytes(), Form::Either, MAX_TEXT),
        (b"\0", Form::Text, MAX_TEXT),
    ] {
        let mut endless = Endless { unit, given: 0 };
        let bytes = input::read(&mut endless, form).unwrap();
        assert_eq!(bytes.len(), most + 1);
        // The reader of the library may ask for a whole buffer at the end.
        assert!(endless.given <= 2 * most, "{}", endless.given);
        let deck = as_deck(&bytes, form);
        if most == MAX_DECK {
            assert_eq!(deck.unwrap().len(), MAX_DECK + 1);
        } else {
            let passes = ": here the text passes 4194304 bytes, the most it may have";
            assert!(deck.unwrap_err().ends_with(passes));
        }
    }
}

#[test]
fn a_deck_is_made_up_to_a_byte_more_than_the_longest() {
    let text = "step 1 0 x 65536\n".repeat(2_000);
    assert_eq!(assemble(&text).unwrap().len(), MAX_DECK + 1);
    let opens = format!("open x {MAX_DECK}\n");
    assert_eq!(assemble(&opens).unwrap().len(), MAX_DECK);
    assert_eq!(
        assemble(&format!("{opens}open")).unwrap().len(),
        MAX_DECK + 1
    );
}

#[test]
fn lines_are_those_of_the_text() {
    let text = "# a sheet\n\nopen\nback 1 x 3\n\nbytes ff\n";
    let Assembled { lines, .. } = assemble_with_lines(text).unwrap();
    let line_of = |offset| lines.line_of(offset).unwrap();
    let found: Vec<usize> = (0..11).map(line_of).collect();
    assert_eq!(found, [3, 4, 4, 4, 4, 4, 4, 4, 4, 4, 6]);
    assert_eq!(Lines::from_text(&lines.to_text()), Some(lines));
    assert_eq!(Lines::default().line_of(0), None);
    assert_eq!(Lines::from_text("1 x\n"), None);
}

#[test]
fn words_are_cut_and_escaped_in_errors() {
    let long = "y".repeat(1_000_000);
    for line in [
        long.clone(),
        format!("issue {long}"),
        format!("issue {}", "9".repeat(1_000_000)),
        format!("bytes {long}"),
        format!("coupon packed {long}"),
        format!("coupon packed {}", "9".repeat(1_000_000)),
    ] {
        let mistake = assemble(&line).unwrap_err().to_string();
        assert!(mistake.len() < 200 && mistake.contains("..."), "{mistake}");
    }
    let escape = assemble("\u{1B}[31mred\u{202E}").unwrap_err().to_string();
    let shown = "line 1: no command `\\u{1b}[31mred\\u{202e}`; there are pool, ";
    assert!(escape.starts_with(shown), "{escape}");
}

/// Of a word 40 characters are shown, escaped or not, and dots for the rest.
/// A file's name stays whole.
#[test]
fn words_are_cut_behind_their_fortieth_character() {
    let as_they_are = ["y", "ß", "'", "\"", "\\"].map(|letter| (letter, letter));
    let escaped = [("\u{1B}", "\\u{1b}"), ("\t", "\\t")];
    for (letter, shown) in as_they_are.into_iter().chain(escaped) {
        for length in [0, 39, 40, 41, 42] {
            let (word, whole) = (letter.repeat(length), shown.repeat(length));
            let cut = shown.repeat(40) + "...";
            let expected = if length > 40 { &cut } else { &whole };
            assert_eq!(&quote::word(&word), expected, "{length}");
            assert_eq!(quote::name(&word), whole, "{length}");
        }
    }
}

/// What an editor shows as a line of its own is one, or a mistake: no command
/// hides behind a comment.
#[test]
fn other_line_ends_are_told() {
    for end in ["\u{B}", "\u{C}", "\r", "\u{85}", "\u{2028}", "\u{2029}"] {
        let text = format!("issue 7\nissue 7 # new{end}withdraw 7\n");
        let mistake = assemble(&text).unwrap_err();
        assert_eq!(mistake.line, 2);
        assert!(mistake.reason.contains("within the line"), "{mistake}");
        assert!(as_deck(text.as_bytes(), Form::Text).is_err());
        assert!(as_deck(text.as_bytes(), Form::Either).is_err());
    }
    assert_eq!(assemble("issue 7\r\nopen\r\n"), assemble("issue 7\nopen\n"));
}
