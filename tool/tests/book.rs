//! Books: their text and its mistakes by line, the engine's line held and
//! shown, and the programs' statuses.

use lavroudem_tool::book::{
    line_by, read, totals, Book, Totals, MAX_NOMINAL, MAX_POSITIONS, MAX_VALUE, ROOM,
};
use lavroudem_tool::input::MAX_TEXT;
use std::ffi::OsStr;
use std::fs::{self, File};
use std::path::PathBuf;
use std::process::{Command, Output, Stdio};
use std::sync::atomic::{AtomicUsize, Ordering};

fn book(positions: &[(i64, i64)]) -> Book {
    let (nominals, values) = positions.iter().copied().unzip();
    Book { nominals, values }
}

fn mistake(text: &[u8]) -> String {
    match read(text) {
        Ok(book) => panic!("no mistake, but {book:?}"),
        Err(mistake) => mistake.to_string(),
    }
}

// ---- the text

#[test]
fn positions_come_in_their_order() {
    let text = "# a book\n\n 12 -5 # one\n\t-007\t6\n#\n   \n0 -0";
    let positions = [(12, -5), (-7, 6), (0, 0)];
    assert_eq!(read(text.as_bytes()), Ok(book(&positions)));
    let marked = format!("\u{FEFF}{}", text.replace('\n', "\r\n"));
    assert_eq!(read(marked.as_bytes()), Ok(book(&positions)));
    for none in ["", "\n", "#", "# 1 2", " \t\r\n"] {
        assert_eq!(read(none.as_bytes()), Ok(book(&[])), "{none:?}");
    }
}

/// The reason that a line gives, the fourth of its text.
fn reason(line: &str) -> String {
    let told = mistake(format!("1 2\n# more\n\n{line}\n3 4 5\n").as_bytes());
    let reason = told.strip_prefix("line 4: ");
    reason.unwrap_or_else(|| panic!("{told}")).to_string()
}

#[test]
fn a_line_has_two_columns() {
    for (line, found) in [("5", 1), ("5 # 6", 1), ("5 6 7", 3), ("1 000 6 # 7", 3)] {
        let expected = format!("write `nominal W`; columns found: {found}");
        assert_eq!(reason(line), expected);
    }
}

#[test]
fn columns_are_whole_numbers() {
    for word in ["5,", "1.5", "nominal", "+5", "\u{665}"] {
        let expected = format!("nominal `{word}` is not a whole number");
        assert_eq!(reason(&format!("{word} 6")), expected);
    }
    for word in ["+6", "--6", "-", "6-", "1_000", "1e3", "\u{2212}6"] {
        let expected = format!("W `{word}` is not a whole number");
        assert_eq!(reason(&format!("5 {word}")), expected);
    }
    let cut = format!("W `{}...` is not a whole number", "2".repeat(40));
    assert_eq!(reason(&format!("1 {}x", "2".repeat(100))), cut);
}

#[test]
fn what_is_no_text_has_its_line() {
    let within = |end: &str| format!("{end} within the line; a line ends in 0A");
    assert_eq!(reason("5\r6"), within("\\r"));
    assert_eq!(reason("5 6 # 7\u{2028}"), within("\\u{2028}"));
    let odd = |byte: &str| format!("byte {byte}, a control character, so this is no text");
    assert_eq!(reason("5 6\u{B}"), odd("4 of the line is 0B"));
    assert_eq!(reason("5 6 # \u{1b}[31m"), odd("7 of the line is 1B"));
    let latin = "line 2: byte 10 of the line is E9, which is not UTF-8, so this is no text";
    assert_eq!(mistake(b"1 2\n3 4 # caf\xE9\n"), latin);
    let utf_16 = "line 1: this is UTF-16; a text is UTF-8";
    assert_eq!(mistake(b"\xFF\xFE1\0 \x002\0"), utf_16);
    assert_eq!(mistake(b"#\0 \0\n\0"), utf_16);
}

/// On both sides of each limit, and of what 64 bits hold.
#[test]
fn numbers_have_their_range() {
    for (nominal, value) in [(MAX_NOMINAL, -MAX_VALUE), (-MAX_NOMINAL, MAX_VALUE)] {
        let found = read(format!("{nominal} {value}").as_bytes());
        assert_eq!(found, Ok(book(&[(nominal, value)])));
    }
    let above = "nominal 1000001 is refused 28 (book): above 1000000";
    assert_eq!(reason("1000001 0"), above);
    let below = "nominal -1000001 is refused 28 (book): below -1000000";
    assert_eq!(reason("-1000001 0"), below);
    for value in ["200000000000000001", "9223372036854775807"] {
        let above = format!("W {value} is refused 28 (book): above 200000000000000000");
        assert_eq!(reason(&format!("1 {value}")), above);
    }
    for value in ["-200000000000000001", "-9223372036854775808"] {
        let below = format!("W {value} is refused 28 (book): below -200000000000000000");
        assert_eq!(reason(&format!("1 {value}")), below);
    }
    let range = "it is from -200000000000000000 to 200000000000000000";
    for value in ["9223372036854775808", "-9223372036854775809"] {
        let wide = format!("W {value} does not fit 64 bits; {range}");
        assert_eq!(reason(&format!("1 {value}")), wide);
    }
}

#[test]
fn a_book_has_so_many_positions() {
    let most = "1 2\n\n".repeat(MAX_POSITIONS);
    assert_eq!(read(most.as_bytes()).unwrap().nominals.len(), 4_096);
    let more = format!("{most}# one more\n3 4\n");
    let reason = "line 8194: position 4097 is refused 28 (book): at most 4096 in a book";
    assert_eq!(mistake(more.as_bytes()), reason);
}

#[test]
fn a_text_has_so_many_bytes() {
    let mut text = b"1 2\n#".to_vec();
    text.resize(MAX_TEXT, b'.');
    assert_eq!(read(&text), Ok(book(&[(1, 2)])));
    text.push(b'\n');
    let reason = "line 2: here the text passes 4194304 bytes, the most it may have";
    assert_eq!(mistake(&text), reason);
}

#[test]
fn positions_written_are_read_again() {
    let positions = [(MAX_NOMINAL, -MAX_VALUE), (0, 0), (-1, 1)];
    let text = book(&positions).to_text();
    assert_eq!(text, "1000000 -200000000000000000\n0 0\n-1 1\n");
    assert_eq!(read(text.as_bytes()), Ok(book(&positions)));
}

// ---- the engine's line

/// What 4,096 positions of one sign can come to.
const MOST: i128 = 819_200_000_000_000_000_000_000_000;

fn line(total: i128, gains: i128, losses: i128) -> String {
    format!("book 0 {total} {gains} {losses}\n")
}

#[test]
fn totals_are_read_as_they_came() {
    for (gains, losses) in [(0, 0), (7, 0), (0, -7), (9, -5), (MOST, 0), (0, -MOST)] {
        let total = gains + losses;
        let expected = Totals {
            total,
            gains,
            losses,
        };
        let line = line(total, gains, losses);
        assert_eq!(totals(line.as_bytes(), MAX_POSITIONS), Ok(expected));
    }
}

#[test]
fn a_line_of_another_form_is_none() {
    let whole = line(15, 20, -5);
    assert!(totals(whole.as_bytes(), 2).is_ok());
    for end in 0..whole.len() {
        assert!(totals(&whole.as_bytes()[..end], 2).is_err(), "{end}");
    }
    for other in [
        "book 0 15 20 -5\n\n",
        "book 0 15 20 -5 \n",
        "book 0 15 20 -5\r\n",
        "book 0  15 20 -5\n",
        "book 0 015 20 -5\n",
        "book 0 +15 20 -5\n",
        "book 0 0 -0 0\n",
        "book 0 15 20 -5 0\n",
        "book 0 15 20\n",
        "book 0 15 20 -5\nbook 0 15 20 -5\n",
        "book 28\n",
        "book 1 15 20 -5\n",
        "deck 0 15 20 -5\n",
        " book 0 15 20 -5\n",
        "book 0 15 20 -5\0\n",
        "book 0 170141183460469231731687303715884105728 0 0\n",
    ] {
        let fault = totals(other.as_bytes(), 2).unwrap_err();
        assert!(
            fault.ends_with("is not the line of a book"),
            "{other:?}: {fault}"
        );
    }
}

#[test]
fn figures_that_do_not_add_are_none() {
    let fault = |total, gains, losses| totals(line(total, gains, losses).as_bytes(), 2);
    let unlike = "gains 20 and losses -5 do not add to the total 16";
    assert_eq!(fault(16, 20, -5), Err(unlike.to_string()));
    assert!(fault(14, 20, -5).is_err() && fault(-15, 20, -5).is_err());
    let sign = "gains -5 and losses 20: a wrong sign";
    assert_eq!(fault(15, -5, 20), Err(sign.to_string()));
    assert!(fault(25, 20, 5).is_err() && fault(-25, -20, -5).is_err());
    assert!(fault(i128::MAX, i128::MAX, 0).is_err());
    assert!(fault(i128::MIN, 0, i128::MIN).is_err());
    assert!(fault(-1, i128::MAX, i128::MIN).is_err());
}

/// Gains and losses share the positions between them.
#[test]
fn figures_are_those_of_so_many_positions() {
    let one = i128::from(MAX_NOMINAL) * i128::from(MAX_VALUE);
    assert_eq!(MOST, one * MAX_POSITIONS as i128);
    for positions in [0, 1, 2, 7, MAX_POSITIONS] {
        let most = one * positions as i128;
        let held = |gains: i128, losses: i128| {
            totals(line(gains + losses, gains, losses).as_bytes(), positions).is_ok()
        };
        let half = most / 2;
        assert!(held(most, 0) && held(0, -most) && held(half, half - most));
        assert!(!held(most + 1, 0) && !held(0, -most - 1) && !held(half, half - most - 1));
    }
    let fault = totals(b"book 0 1 1 0\n", 0).unwrap_err();
    assert_eq!(fault, "gains 1 and losses 0 are beyond 0 positions");
}

#[test]
fn a_call_is_lent_its_room() {
    let line = line_by(|room| {
        assert_eq!(room.len(), 96);
        room[..5].copy_from_slice(b"book\n");
        Ok(5)
    });
    assert_eq!(line, Ok(b"book\n".to_vec()));
    assert_eq!(line_by(|_| Ok(ROOM)), Ok(vec![0; ROOM]));
    let long = line_by(|_| Ok(ROOM + 1));
    assert_eq!(long, Err("the engine tells a line of 97 bytes".to_string()));
    let refused = line_by(|_| Err("refusal 28, book".to_string()));
    let words = "the engine refuses this book: refusal 28, book";
    assert_eq!(refused, Err(words.to_string()));
}

// ---- the table

/// Without the note above it.
fn table(total: i128, gains: i128, losses: i128, positions: usize) -> String {
    let totals = totals(line(total, gains, losses).as_bytes(), positions).unwrap();
    let table = totals.table(positions);
    let (note, rows) = table.split_once("\n\n").unwrap();
    assert!(note.contains("in units: a unit is a billionth of the pool"));
    rows.to_string()
}

#[test]
fn tables_are_in_units() {
    let rows = "\
book    1 position
             units
total    0.0000015
gains    0.0000015
losses   0.0000000
";
    assert_eq!(table(15, 15, 0, 1), rows);
    let rows = "\
book    0 positions
              units
total     0.0000000
gains     0.0000000
losses    0.0000000
";
    assert_eq!(table(0, 0, 0, 0), rows);
    let rows = "\
book    2 positions
              units
total    -9.9999999
gains     0.0000001
losses  -10.0000000
";
    assert_eq!(table(-99_999_999, 1, -100_000_000, 2), rows);
}

/// The longest figures that there are, 27 digits and a sign.
#[test]
fn long_figures_stay_in_their_column() {
    let rows = "\
book                   4096 positions
                                units
total   -81919999999999999999.9999998
gains                       0.0000001
losses  -81919999999999999999.9999999
";
    let losses = 1 - MOST;
    assert_eq!(table(losses + 1, 1, losses, MAX_POSITIONS), rows);
}

// ---- the programs

/// A folder of its own for each test, gone with it.
struct Folder(PathBuf);

impl Folder {
    fn new() -> Folder {
        static MADE: AtomicUsize = AtomicUsize::new(0);
        let made = MADE.fetch_add(1, Ordering::Relaxed);
        let name = format!("lavroudem-tool-book-{}-{made}", std::process::id());
        let path = std::env::temp_dir().join(name);
        fs::create_dir(&path).unwrap();
        Folder(path)
    }

    fn file(&self, name: &str, text: &str) -> PathBuf {
        let path = self.0.join(name);
        fs::write(&path, text).unwrap();
        path
    }
}

impl Drop for Folder {
    fn drop(&mut self) {
        let _ = fs::remove_dir_all(&self.0);
    }
}

fn run<W: AsRef<OsStr>>(program: &str, words: &[W]) -> Output {
    let mut command = Command::new(program);
    command.args(words).stdin(Stdio::null()).output().unwrap()
}

fn deck(words: &[&OsStr]) -> Output {
    run(env!("CARGO_BIN_EXE_deck"), words)
}

/// The status, what is shown, and what is said.
fn told(output: &Output) -> (i32, String, String) {
    let text = |bytes: &[u8]| String::from_utf8(bytes.to_vec()).unwrap();
    let status = output.status.code().unwrap();
    (status, text(&output.stdout), text(&output.stderr))
}

#[test]
fn positions_are_printed_or_kept() {
    let folder = Folder::new();
    let file = folder.file("book", "# two\n1 2\n-3\t4 # more\n");
    let output = deck(&["positions".as_ref(), file.as_ref()]);
    assert_eq!(told(&output), (0, "1 2\n-3 4\n".into(), String::new()));
    let words = ["positions", "--into"].map(OsStr::new);
    let output = deck(&[words[0], words[1], folder.0.as_ref(), file.as_ref()]);
    assert_eq!(told(&output), (0, String::new(), String::new()));
    let kept = fs::read_to_string(folder.0.join("positions")).unwrap();
    assert_eq!(kept, "1 2\n-3 4\n");
    let nowhere = folder.0.join("none");
    let output = deck(&[words[0], words[1], nowhere.as_ref(), file.as_ref()]);
    assert_eq!(output.status.code(), Some(5));
}

#[test]
fn a_mistake_shows_nothing() {
    let folder = Folder::new();
    let file = folder.file("book", "1 2\n3\n");
    let output = deck(&["positions".as_ref(), file.as_ref()]);
    let words = "line 2: write `nominal W`; columns found: 1";
    let words = format!("{}: {words}\n", file.display());
    assert_eq!(told(&output), (1, String::new(), words));
    let missing = folder.0.join("none");
    let (status, shown, said) = told(&deck(&["positions".as_ref(), missing.as_ref()]));
    assert_eq!((status, &shown[..]), (1, ""));
    assert!(said.starts_with(&missing.display().to_string()), "{said}");
    let (status, _, said) = told(&deck(&["positions", "--table", "-"].map(OsStr::new)));
    assert_eq!(status, 2);
    assert!(said.starts_with("usage: deck"), "{said}");
}

#[test]
fn a_line_is_shown_if_it_is_whole() {
    let folder = Folder::new();
    let positions = folder.file("positions", "1 20\n1 -5\n");
    let total = |line: &str, table: bool| {
        let line = folder.file("line", line);
        let words: &[&str] = if table {
            &["total", "--table"]
        } else {
            &["total"]
        };
        let words = words.iter().map(OsStr::new);
        let files = [positions.as_os_str(), line.as_os_str()];
        told(&deck(&words.chain(files).collect::<Vec<_>>()))
    };
    let whole = "book 0 15 20 -5\n";
    assert_eq!(total(whole, false), (0, whole.to_string(), String::new()));
    let (status, shown, _) = total(whole, true);
    assert_eq!(status, 0);
    assert!(shown.contains("\ntotal     0.0000015\n"), "{shown}");
    for cut in ["", "book 0 15 20 -5", "book 0 15 20 -6\n", "book 28\n"] {
        for table in [false, true] {
            let (status, shown, said) = total(cut, table);
            assert_eq!((status, &shown[..]), (5, ""), "{cut:?}");
            let name = folder.0.join("line").display().to_string();
            assert!(said.starts_with(&name), "{said}");
        }
    }
}

#[test]
fn output_on_a_full_device_is_lost() {
    let folder = Folder::new();
    let positions = folder.file("positions", "1 20\n1 -5\n");
    let line = folder.file("line", "book 0 15 20 -5\n");
    for words in [&["total"][..], &["total", "--table"]] {
        let Ok(full) = File::create("/dev/full") else {
            return;
        };
        let mut command = Command::new(env!("CARGO_BIN_EXE_deck"));
        command.args(words).args([&positions, &line]).stdout(full);
        let (status, _, said) = told(&command.output().unwrap());
        assert_eq!(status, 5);
        assert!(said.starts_with("standard output: "), "{said}");
    }
}

/// The proved engine by its program.
#[cfg(feature = "engine")]
mod engine {
    use super::*;
    use lavroudem::Refusal;
    use lavroudem_model::random::Random;

    fn added(positions: &[(i64, i64)]) -> Result<String, Refusal> {
        let Book { nominals, values } = book(positions);
        let mut room = [0; ROOM];
        let length = lavroudem::book(&nominals, &values, &mut room)?;
        Ok(String::from_utf8(room[..length].to_vec()).unwrap())
    }

    fn printed(text: &str) -> (i32, String, String) {
        let folder = Folder::new();
        let file = folder.file("book", text);
        told(&run(env!("CARGO_BIN_EXE_book"), &[&file]))
    }

    /// What the text refuses the engine refuses, and nothing else.
    #[test]
    fn the_limits_are_the_engines() {
        for (nominal, value) in [
            (MAX_NOMINAL, 0),
            (MAX_NOMINAL + 1, 0),
            (-MAX_NOMINAL, 0),
            (-MAX_NOMINAL - 1, 0),
            (0, MAX_VALUE),
            (0, MAX_VALUE + 1),
            (0, -MAX_VALUE),
            (0, -MAX_VALUE - 1),
            (i64::MIN, 0),
            (0, i64::MAX),
        ] {
            let text = read(format!("{nominal} {value}").as_bytes());
            let engine = added(&[(nominal, value)]);
            assert_eq!(text.is_ok(), engine.is_ok(), "{nominal} {value}");
            assert!(matches!(engine, Ok(_) | Err(Refusal::Book)));
        }
        let largest = vec![(MAX_NOMINAL, MAX_VALUE); MAX_POSITIONS + 1];
        assert_eq!(added(&largest), Err(Refusal::Book));
        assert_eq!(added(&largest[1..]), Ok(line(MOST, MOST, 0)));
        assert_eq!(added(&[]), Ok(line(0, 0, 0)));
        assert_eq!((Refusal::Book.number(), Refusal::Book.word()), (28, "book"));
    }

    #[test]
    fn the_program_prints_the_line() {
        let printed_line = printed("# three\n3 5\n-2 7\n0 9\n");
        assert_eq!(printed_line, (0, line(1, 15, -14), String::new()));
        assert_eq!(printed(""), (0, line(0, 0, 0), String::new()));
        let (status, shown, said) = printed("3 5\n2000000 1\n");
        assert_eq!((status, &shown[..]), (1, ""));
        let reason = "line 2: nominal 2000000 is refused 28 (book): above 1000000\n";
        assert!(said.ends_with(reason), "{said}");
        let (status, _, said) = told(&run::<&str>(env!("CARGO_BIN_EXE_book"), &[]));
        assert_eq!(status, 2);
        assert!(said.starts_with("usage: book"), "{said}");
    }

    #[test]
    fn the_program_tells_lost_output() {
        let Ok(full) = File::create("/dev/full") else {
            return;
        };
        let mut command = Command::new(env!("CARGO_BIN_EXE_book"));
        command.arg("-").stdin(Stdio::null()).stdout(full);
        let (status, _, said) = told(&command.output().unwrap());
        assert_eq!(status, 5);
        assert!(said.starts_with("standard output: "), "{said}");
    }

    /// Of any book, forwards and backwards, and held as it is shown.
    #[test]
    fn lines_are_exact_sums() {
        let mut random = Random::new(0xB00C_0001);
        for _ in 0..500 {
            let count = random.with_edges(0, MAX_POSITIONS as u64) as usize;
            let mut within = |most: i64| random.with_edges(0, 2 * most as u64) as i64 - most;
            let mut position = || (within(MAX_NOMINAL), within(MAX_VALUE));
            let mut positions: Vec<_> = (0..count).map(|_| position()).collect();
            let products = positions
                .iter()
                .map(|&(nominal, value)| i128::from(nominal) * i128::from(value));
            let (gains, losses): (Vec<i128>, Vec<i128>) = products.partition(|&p| p > 0);
            let (gains, losses) = (gains.iter().sum::<i128>(), losses.iter().sum::<i128>());
            let expected = line(gains + losses, gains, losses);
            assert_eq!(added(&positions), Ok(expected.clone()));
            assert!(totals(expected.as_bytes(), count).is_ok());
            positions.reverse();
            assert_eq!(added(&positions), Ok(expected));
        }
    }
}
