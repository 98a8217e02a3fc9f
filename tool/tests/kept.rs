//! The program `kept`: what it prints, keeps and answers with its status.
#![cfg(feature = "engine")]

use lavroudem::{KeptRegister, BLANK_REGISTER, LIVE, MAX_DECK, WITHDRAWN};
use std::fs::{self, File};
use std::io::{BufRead, BufReader, Write};
use std::path::{Path, PathBuf};
use std::process::{Command, Output, Stdio};
use std::sync::atomic::{AtomicUsize, Ordering};

const WORKED_DECK: &[u8] = include_bytes!("../../crates/listing/stdin");
const WORKED_LISTING: &str = include_str!("../../crates/listing/stdout");
const REFUSED: &str = "issue 9\nopen 9\nback 9\nvalue 9\nvalue 9\ndelta 9\nforward 9\n\
                       withdraw 9\nvalue 9\n";

/// A folder of its own for each test, gone with it.
struct Folder(PathBuf);

impl Folder {
    fn new() -> Folder {
        static MADE: AtomicUsize = AtomicUsize::new(0);
        let made = MADE.fetch_add(1, Ordering::Relaxed);
        let name = format!("lavroudem-tool-kept-{}-{made}", std::process::id());
        let path = std::env::temp_dir().join(name);
        fs::create_dir(&path).unwrap();
        Folder(path)
    }

    fn file(&self, name: &str, bytes: &[u8]) -> PathBuf {
        let path = self.0.join(name);
        fs::write(&path, bytes).unwrap();
        path
    }

    fn register(&self) -> PathBuf {
        self.0.join("register")
    }
}

impl Drop for Folder {
    fn drop(&mut self) {
        let _ = fs::remove_dir_all(&self.0);
    }
}

fn kept() -> Command {
    let mut command = Command::new(env!("CARGO_BIN_EXE_kept"));
    command.stdin(Stdio::null());
    command
}

fn new(register: &Path) -> Output {
    kept().arg("new").arg(register).output().unwrap()
}

fn run(register: &Path, deck: &Path) -> Output {
    let mut command = kept();
    command.arg("run").arg(register).arg(deck);
    command.output().unwrap()
}

/// The status, what is printed, and whether anything was said of a fault.
fn told(output: &Output) -> (i32, &str, bool) {
    let status = output.status.code().unwrap();
    let printed = std::str::from_utf8(&output.stdout).unwrap();
    (status, printed, !output.stderr.is_empty())
}

fn assert_fault(output: &Output, status: i32, said: &str) {
    assert_eq!(told(output), (status, "", true));
    let text = String::from_utf8_lossy(&output.stderr);
    assert!(text.contains(said), "{text}");
}

fn blank_but(number: usize, byte: u8) -> Vec<u8> {
    let mut register = BLANK_REGISTER.to_vec();
    register[number] = byte;
    register
}

#[test]
fn a_second_run_shows_no_withdrawn_sheet() {
    let folder = Folder::new();
    let deck = folder.file("deck", WORKED_DECK);
    assert_eq!(told(&new(&folder.register())), (0, "", false));
    assert_eq!(fs::read(folder.register()).unwrap(), BLANK_REGISTER);
    let first = run(&folder.register(), &deck);
    assert_eq!(told(&first), (0, WORKED_LISTING, false));
    let left = blank_but(7, WITHDRAWN);
    assert_eq!(fs::read(folder.register()).unwrap(), left);
    let second = run(&folder.register(), &deck);
    assert_eq!(told(&second), (0, REFUSED, false));
    assert_eq!(fs::read(folder.register()).unwrap(), left);
}

#[test]
fn a_register_is_made_once_and_never_by_a_run() {
    let folder = Folder::new();
    let deck = folder.file("deck", WORKED_DECK);
    let missing = run(&folder.register(), &deck);
    assert_fault(&missing, 7, "the register can't be opened");
    assert!(!folder.register().exists());
    let there = folder.file("register", &blank_but(3, LIVE));
    assert_fault(&new(&there), 7, "the register can't be made");
    assert_eq!(fs::read(&there).unwrap(), blank_but(3, LIVE));
    assert_fault(&new(&folder.0), 7, "the register can't be made");
    let nowhere = folder.0.join("none/register");
    assert_fault(&new(&nowhere), 7, "the register can't be made");
}

#[test]
fn a_register_of_another_length() {
    let folder = Folder::new();
    let deck = folder.file("deck", WORKED_DECK);
    for length in [0, 255, 257, 5_000] {
        let register = folder.file("register", &vec![0xFF; length]);
        let text = format!("{length} bytes where a register has 256");
        assert_fault(&run(&register, &deck), 7, &text);
        assert_eq!(fs::read(&register).unwrap(), vec![0xFF; length]);
    }
}

#[test]
fn a_register_in_use() {
    let folder = Folder::new();
    let deck = folder.file("deck", WORKED_DECK);
    let register = KeptRegister::create(folder.register()).unwrap();
    let output = run(&folder.register(), &deck);
    assert_fault(&output, 7, "the register is in use");
    assert_eq!(fs::read(folder.register()).unwrap(), BLANK_REGISTER);
    drop(register);
    let output = run(&folder.register(), &deck);
    assert_eq!(told(&output), (0, WORKED_LISTING, false));
}

#[test]
fn a_deck_that_can_not_be_read() {
    let folder = Folder::new();
    new(&folder.register());
    let missing = folder.0.join("deck");
    for deck in [&missing, &folder.0] {
        let output = run(&folder.register(), deck);
        assert_fault(&output, 1, &deck.display().to_string());
    }
    // The deck is looked at first: the register is not at fault here.
    assert_fault(&run(&missing, &missing), 1, "deck");
    assert_eq!(fs::read(folder.register()).unwrap(), BLANK_REGISTER);
}

#[test]
fn a_deck_from_standard_input() {
    let folder = Folder::new();
    new(&folder.register());
    let mut command = kept();
    let command = command.arg("run").arg(folder.register()).arg("-");
    let command = command.stdin(Stdio::piped()).stdout(Stdio::piped());
    let mut child = command.spawn().unwrap();
    child.stdin.take().unwrap().write_all(WORKED_DECK).unwrap();
    let output = child.wait_with_output().unwrap();
    assert_eq!(told(&output), (0, WORKED_LISTING, false));
}

/// An endless one is read no further than needed.
#[test]
fn a_deck_that_is_too_long() {
    let folder = Folder::new();
    new(&folder.register());
    let longest = folder.file("longest", &[0x06; MAX_DECK + 1]);
    for deck in [&longest, Path::new("/dev/zero")] {
        let output = run(&folder.register(), deck);
        assert_eq!(told(&output), (0, "deck 20 65536\n", false));
    }
    assert_eq!(fs::read(folder.register()).unwrap(), BLANK_REGISTER);
}

#[test]
fn a_listing_that_is_lost() {
    let folder = Folder::new();
    let deck = folder.file("deck", WORKED_DECK);
    new(&folder.register());
    let full = File::options().write(true).open("/dev/full").unwrap();
    let mut command = kept();
    let command = command.arg("run").arg(folder.register()).arg(deck);
    let output = command.stdout(full).output().unwrap();
    assert_fault(&output, 5, "the register was written all the same");
    assert_eq!(
        fs::read(folder.register()).unwrap(),
        blank_but(7, WITHDRAWN)
    );
}

/// The lines before the withdraw fill the pipe, and nobody reads on.
#[test]
fn nothing_is_withdrawn_before_it_is_shown() {
    let folder = Folder::new();
    new(&folder.register());
    let deck = [&[0x06, 7][..], &[0x08; 60_000], &[0x07, 7]].concat();
    let mut command = kept();
    let command = command.arg("run").arg(folder.register());
    let command = command.arg(folder.file("deck", &deck));
    let mut child = command.stdout(Stdio::piped()).spawn().unwrap();
    let mut lines = BufReader::new(child.stdout.take().unwrap()).lines();
    assert_eq!(lines.next().unwrap().unwrap(), "issue 0");
    assert_eq!(fs::read(folder.register()).unwrap(), blank_but(7, LIVE));
    assert_eq!(lines.last().unwrap().unwrap(), "withdraw 0");
    assert!(child.wait().unwrap().success());
    assert_eq!(
        fs::read(folder.register()).unwrap(),
        blank_but(7, WITHDRAWN)
    );
}

#[test]
fn a_status_is_told_where_its_message_is_lost() {
    let full = || File::options().write(true).open("/dev/full").unwrap();
    let output = kept().stderr(full()).output().unwrap();
    assert_eq!(told(&output), (2, "", false));
    let missing = ["run", "/none/register", "/none/deck"];
    let output = kept().args(missing).stderr(full()).output().unwrap();
    assert_eq!(told(&output), (1, "", false));
}

/// Nobody reads the other end.
#[test]
fn a_listing_into_a_closed_pipe() {
    let folder = Folder::new();
    let deck = folder.file("deck", WORKED_DECK);
    new(&folder.register());
    let mut command = kept();
    let command = command.arg("run").arg(folder.register()).arg(deck);
    let (reader, writer) = std::io::pipe().unwrap();
    drop(reader);
    let output = command.stdout(writer).output().unwrap();
    assert_fault(&output, 5, "the register was written all the same");
    assert_eq!(
        fs::read(folder.register()).unwrap(),
        blank_but(7, WITHDRAWN)
    );
}

#[test]
fn wrong_usage() {
    let wrong: [&[&str]; 8] = [
        &[],
        &["new"],
        &["run", "register"],
        &["old", "register"],
        &["new", "register", "deck"],
        &["run", "register", "deck", "more"],
        &["show", "register", "deck"],
        &["show", "register", "deck", "listing"],
    ];
    for words in wrong {
        let output = kept().args(words).output().unwrap();
        assert_fault(&output, 2, "usage: kept new REGISTER");
    }
}

// ---- a listing that is shown while the register is locked

/// `kept show` of the worked deck on the register of a folder.
fn show(folder: &Folder, listing: &Path) -> Command {
    let deck = folder.file("deck", WORKED_DECK);
    let mut command = kept();
    command.arg("show").arg(folder.register()).arg(deck);
    command.arg(listing);
    command
}

fn shell(script: &str) -> [&str; 3] {
    ["sh", "-c", script]
}

#[test]
fn a_command_has_the_register_to_itself() {
    let folder = Folder::new();
    new(&folder.register());
    let second = folder.file("second", &[0x06, 9]);
    // What was there before is longer.
    let listing = folder.file("listing", &[b'x'; 5_000]);
    let mut command = show(&folder, &listing);
    let command = command.arg(env!("CARGO_BIN_EXE_kept")).arg("run");
    let output = command.arg(folder.register()).arg(&second).output();
    assert_fault(&output.unwrap(), 7, "the register is in use");
    assert_eq!(fs::read_to_string(&listing).unwrap(), WORKED_LISTING);
    let left = blank_but(7, WITHDRAWN);
    assert_eq!(fs::read(folder.register()).unwrap(), left);
    let output = run(&folder.register(), &second);
    assert_eq!(told(&output), (0, "issue 0\n", false));
}

#[test]
fn a_command_has_what_it_needs_and_answers_by_its_status() {
    let folder = Folder::new();
    new(&folder.register());
    let listing = folder.0.join("listing");
    for (script, status) in [("", 0), ("exit 3", 3), ("exit 255", 255)] {
        let mut command = show(&folder, &listing);
        let output = command.args(shell(script)).output().unwrap();
        assert_eq!(told(&output), (status, "", false));
    }
    let input = File::open(folder.file("input", b"input")).unwrap();
    let script = "cat - \"$0\"; echo told >&2; exit 6";
    let mut command = show(&folder, &listing);
    let command = command.args(shell(script)).arg(&listing).stdin(input);
    let output = command.output().unwrap();
    assert_eq!(told(&output), (6, &format!("input{REFUSED}")[..], true));
    assert_eq!(output.stderr, b"told\n");
}

/// What follows a deck on standard input is the command's; the longest deck
/// and one byte are read.
#[test]
fn a_deck_from_standard_input_before_a_command() {
    let folder = Folder::new();
    new(&folder.register());
    let mut bytes = vec![0x06; MAX_DECK + 1];
    bytes.extend(b"more");
    let input = File::open(folder.file("input", &bytes)).unwrap();
    let mut command = kept();
    let command = command.arg("show").arg(folder.register()).arg("-");
    let command = command.arg(folder.0.join("listing")).arg("cat");
    let output = command.stdin(input).output().unwrap();
    assert_eq!(told(&output), (0, "more", false));
}

/// Else the lock would stay with a command that outlives the program.
#[test]
fn a_command_has_not_the_descriptor_of_the_register() {
    let folder = Folder::new();
    new(&folder.register());
    let script = "for file in /proc/$$/fd/*; do readlink \"$file\"; done; echo all";
    let mut command = show(&folder, &folder.0.join("listing"));
    let output = command.args(shell(script)).output().unwrap();
    let (status, printed, _) = told(&output);
    assert_eq!(status, 0);
    assert!(
        printed.contains("pipe:") && printed.ends_with("all\n"),
        "{printed}"
    );
    let ours = folder.0.display().to_string();
    assert!(!printed.contains(&ours), "{printed}");
}

#[test]
fn a_command_that_can_not_be_run_or_is_killed() {
    let folder = Folder::new();
    new(&folder.register());
    let listing = folder.0.join("listing");
    let missing = folder.0.join("missing");
    let output = show(&folder, &listing).arg(missing).output().unwrap();
    assert_fault(&output, 5, "missing: No such file");
    assert_fault(&output, 5, "the register was written all the same");
    let left = blank_but(7, WITHDRAWN);
    assert_eq!(fs::read(folder.register()).unwrap(), left);
    let killed = shell("kill -9 $$");
    let output = show(&folder, &listing).args(killed).output().unwrap();
    assert_fault(&output, 5, "sh: signal: 9");
    drop(KeptRegister::open(folder.register()).unwrap());
}

/// `kept show` with a command that leaves a mark, which must not be there.
fn show_in_vain(folder: &Folder, listing: &Path) -> Output {
    let mark = folder.0.join("mark");
    let mut command = show(folder, listing);
    let output = command.arg("touch").arg(&mark).output().unwrap();
    assert!(!mark.exists());
    output
}

#[test]
fn a_command_is_not_run_where_its_listing_is_lost() {
    let folder = Folder::new();
    new(&folder.register());
    let output = show_in_vain(&folder, Path::new("/dev/full"));
    assert_fault(&output, 5, "/dev/full: output lost");
    assert_fault(&output, 5, "the register was written all the same");
    let left = blank_but(7, WITHDRAWN);
    assert_eq!(fs::read(folder.register()).unwrap(), left);
}

/// Of a listing that can't be made, or is the register, this is known before
/// anything is written.
#[test]
fn a_listing_that_can_not_be_made() {
    let folder = Folder::new();
    new(&folder.register());
    for listing in [
        folder.0.clone(),
        folder.0.join("none/listing"),
        folder.register(),
    ] {
        let output = show_in_vain(&folder, &listing);
        assert_fault(&output, 5, "; nothing was run");
        assert_eq!(fs::read(folder.register()).unwrap(), BLANK_REGISTER);
    }
}

/// Who has the register may have a listing of that name.
#[test]
fn a_listing_is_left_alone_where_the_register_is_in_use() {
    let folder = Folder::new();
    let listing = folder.file("listing", b"another's");
    let register = KeptRegister::create(folder.register()).unwrap();
    assert_fault(&show_in_vain(&folder, &listing), 7, "in use");
    assert_eq!(fs::read(&listing).unwrap(), b"another's");
    drop(register);
    fs::remove_file(folder.register()).unwrap();
    assert_fault(&show_in_vain(&folder, &listing), 7, "can't be opened");
    fs::remove_file(folder.0.join("deck")).unwrap();
    let mut command = kept();
    let command = command.arg("show").arg(folder.register());
    let command = command.arg(folder.0.join("deck")).arg(&listing).arg("true");
    assert_fault(&command.output().unwrap(), 1, "deck: ");
}

// ---- descriptors that can't be used

/// What a line of a shell makes of `"$0"`, the program, on the register `"$1"`
/// and the deck `"$2"`; `"$3"` is a file for a listing. Nothing is written.
fn descriptors(line: &str, status: i32, said: &str) {
    let folder = Folder::new();
    new(&folder.register());
    let deck = folder.file("deck", WORKED_DECK);
    let mut command = Command::new("sh");
    let command = command.args(["-c", line, env!("CARGO_BIN_EXE_kept")]);
    let command = command.arg(folder.register()).arg(deck);
    let command = command.arg(folder.0.join("listing")).stdin(Stdio::null());
    let output = command.output().unwrap();
    assert_fault(&output, status, said);
    assert_eq!(fs::read(folder.register()).unwrap(), BLANK_REGISTER);
}

/// A closed one is not taken for one that swallows all.
#[test]
fn output_that_can_not_be_written() {
    let run = "\"$0\" run \"$1\" \"$2\"";
    let show = "\"$0\" show \"$1\" \"$2\" \"$3\" true";
    for (given, fault) in [
        (">&-", "closed"),
        ("<&- >&-", "closed"),
        ("1</dev/null", "not open for writing"),
        (">>\"$1\"", "the register itself"),
        ("1<>\"$1\"", "the register itself"),
    ] {
        let said = format!("standard output: {fault}; nothing was run");
        descriptors(&format!("{run} {given}"), 5, &said);
        descriptors(&format!("{show} {given}"), 5, &said);
    }
}

#[test]
fn input_that_can_not_be_read() {
    let run = "\"$0\" run \"$1\" -";
    let show = "\"$0\" show \"$1\" - \"$3\" true";
    for (given, fault) in [("<&-", "closed"), ("0>/dev/null", "Bad file descriptor")] {
        let said = format!("standard input: {fault}");
        descriptors(&format!("{run} {given}"), 1, &said);
        descriptors(&format!("{show} {given}"), 1, &said);
    }
}

/// A device that swallows all is output like any other, and input that is not
/// asked for may be closed.
#[test]
fn descriptors_that_are_not_needed() {
    let folder = Folder::new();
    new(&folder.register());
    let deck = folder.file("deck", &[0x06, 7]);
    let lines = ["1<>/dev/null", ">/dev/null", "<&-", "2>&-"];
    for (line, answer) in lines.into_iter().zip(["", "", "issue 17\n", "issue 17\n"]) {
        let mut command = Command::new("sh");
        let line = format!("\"$0\" run \"$1\" \"$2\" {line}");
        let command = command.args(["-c", &line, env!("CARGO_BIN_EXE_kept")]);
        let command = command.arg(folder.register()).arg(&deck);
        assert_eq!(
            told(&command.output().unwrap()),
            (0, answer, false),
            "{line}"
        );
        assert_eq!(fs::read(folder.register()).unwrap(), blank_but(7, LIVE));
    }
}

// ---- a file that comes to nothing

#[test]
fn a_register_without_room_leaves_no_file() {
    let folder = Folder::new();
    let mut command = Command::new("sh");
    let line = "trap '' XFSZ; ulimit -f 0; exec \"$0\" new \"$1\"";
    let command = command.args(["-c", line, env!("CARGO_BIN_EXE_kept")]);
    let output = command.arg(folder.register()).output().unwrap();
    assert_fault(&output, 7, "the register can't be made: File too large");
    assert_fault(&output, 7, "; nothing of it stands");
    assert!(!folder.register().exists());
}
