//! The tool `deck` as a process: output that cannot be written and input that
//! cannot be read are told, and none of it ends with status 0.

use std::fs::{self, File};
use std::io::{Read, Write};
use std::os::fd::OwnedFd;
use std::os::unix::net::UnixStream;
use std::path::PathBuf;
use std::process::{Command, Output, Stdio};
use std::sync::mpsc;
use std::thread;
use std::time::Duration;

const DECK: &str = env!("CARGO_BIN_EXE_deck");

/// More lines than any buffer of a pipe or a socket takes.
const CALLS: usize = 65_536;

/// A deck and its listing as files of their own, removed at the end.
struct Files {
    folder: PathBuf,
}

impl Files {
    fn new(name: &str) -> Files {
        let name = format!("lavroudem-{name}-{}", std::process::id());
        let folder = std::env::temp_dir().join(name);
        fs::create_dir(&folder).unwrap();
        fs::write(folder.join("deck"), [0x08; CALLS]).unwrap();
        fs::write(folder.join("listing"), "open 1\n".repeat(CALLS)).unwrap();
        Files { folder }
    }

    fn path(&self, name: &str) -> PathBuf {
        self.folder.join(name)
    }

    fn show(&self) -> Command {
        let mut command = Command::new(DECK);
        command.arg("show");
        command.args([self.path("deck"), self.path("listing")]);
        command
    }
}

impl Drop for Files {
    fn drop(&mut self) {
        let _ = fs::remove_dir_all(&self.folder);
    }
}

/// It ends with the status of lost output, and says so.
fn is_lost(output: Output) {
    let told = String::from_utf8_lossy(&output.stderr).into_owned();
    assert_eq!(output.status.code(), Some(5), "{told}");
    assert!(told.starts_with("standard output: "), "{told}");
}

fn shown_to(stdout: impl Into<Stdio>, files: &Files) -> Output {
    let mut command = files.show();
    command.stdout(stdout).stderr(Stdio::piped());
    command.spawn().unwrap().wait_with_output().unwrap()
}

#[test]
fn a_whole_listing_is_shown() {
    let files = Files::new("whole");
    let out = File::create(files.path("out")).unwrap();
    let output = shown_to(out, &files);
    assert_eq!(output.status.code(), Some(0));
    let listing = fs::read(files.path("listing")).unwrap();
    assert!(fs::read(files.path("out")).unwrap() == listing);
}

#[test]
fn output_on_a_full_device_is_lost() {
    if let Ok(full) = File::create("/dev/full") {
        is_lost(shown_to(full, &Files::new("full")));
    }
}

/// Nobody reads, and the writer is not let to wait.
#[test]
fn output_that_would_block_is_lost() {
    let (writer, reader) = UnixStream::pair().unwrap();
    writer.set_nonblocking(true).unwrap();
    is_lost(shown_to(OwnedFd::from(writer), &Files::new("block")));
    drop(reader);
}

#[test]
fn output_without_a_reader_is_lost() {
    let (writer, reader) = UnixStream::pair().unwrap();
    drop(reader);
    is_lost(shown_to(OwnedFd::from(writer), &Files::new("unread")));
}

/// The library's own handle would take it for written.
#[test]
fn output_to_what_is_open_for_reading_is_lost() {
    let files = Files::new("reading");
    let listing = File::open(files.path("listing")).unwrap();
    is_lost(shown_to(listing, &files));
}

/// What was in the file stays, and nothing is left of what did not fit.
#[test]
fn a_full_disk_leaves_nothing_of_it() {
    let files = Files::new("disk");
    fs::write(files.path("out"), "before\n").unwrap();
    let mut command = Command::new("sh");
    let limited = "trap '' XFSZ; ulimit -f 8; exec \"$@\" >>\"$0\"";
    command.args(["-c", limited]);
    command.arg(files.path("out")).args([DECK, "show"]);
    command.args([files.path("deck"), files.path("listing")]);
    is_lost(command.output().unwrap());
    assert_eq!(fs::read_to_string(files.path("out")).unwrap(), "before\n");
}

#[test]
fn a_cut_listing_is_not_shown() {
    let files = Files::new("cut");
    let listing = fs::read(files.path("listing")).unwrap();
    for end in [0, 7, 3_500, listing.len() - 1] {
        fs::write(files.path("listing"), &listing[..end]).unwrap();
        let output = files.show().output().unwrap();
        assert_eq!(output.status.code(), Some(5));
        assert!(output.stdout.is_empty() && !output.stderr.is_empty());
    }
}

// ---- input

fn assembled_from(stdin: impl Into<Stdio>) -> Output {
    let mut command = Command::new(DECK);
    command.args(["assemble", "-"]).stdin(stdin);
    command.output().unwrap()
}

fn is_unread(output: Output) {
    let told = String::from_utf8_lossy(&output.stderr).into_owned();
    assert_eq!(output.status.code(), Some(1), "{told}");
    assert!(told.starts_with("standard input: "), "{told}");
    assert!(output.stdout.is_empty());
}

/// The library's own handle would take it for an empty file.
#[test]
fn input_that_is_open_for_writing_cannot_be_read() {
    let files = Files::new("writing");
    let out = File::create(files.path("out")).unwrap();
    is_unread(assembled_from(out));
}

#[test]
fn a_folder_cannot_be_read() {
    is_unread(assembled_from(File::open(std::env::temp_dir()).unwrap()));
}

#[test]
fn input_comes_in_pieces() {
    let (mut writer, reader) = UnixStream::pair().unwrap();
    let from = thread::spawn(|| assembled_from(OwnedFd::from(reader)));
    for piece in ["op", "en\nba", "ck 1", "\n"] {
        writer.write_all(piece.as_bytes()).unwrap();
        thread::sleep(Duration::from_millis(20));
    }
    drop(writer);
    assert_eq!(from.join().unwrap().stdout, [0x08, 0x09, 1, 0]);
}

// ---- the lock

/// A second one waits, says so, and goes on when the first has ended.
#[test]
fn a_lock_has_one_holder() {
    let files = Files::new("lock");
    let open = || File::options().append(true).open(files.path("deck"));
    let (first, second) = (open().unwrap(), open().unwrap());
    lavroudem_tool::lock::lock(&first, || panic!("nobody else has it")).unwrap();
    let (said, heard) = mpsc::channel();
    let waits = thread::spawn(move || {
        lavroudem_tool::lock::lock(&second, || said.send(()).unwrap()).unwrap();
    });
    heard.recv().unwrap();
    thread::sleep(Duration::from_millis(100));
    assert!(!waits.is_finished());
    drop(first);
    waits.join().unwrap();
}

/// As a shell does it: the tool locks what the shell keeps open.
#[test]
fn a_lock_outlives_the_tool_and_not_its_keeper() {
    let files = Files::new("keeper");
    let keeper = File::open(files.path("deck")).unwrap();
    let lock = |file: File| {
        let mut command = Command::new(DECK);
        command.arg("lock").stdin(file).stderr(Stdio::piped());
        command
    };
    let status = lock(keeper.try_clone().unwrap()).status().unwrap();
    assert_eq!(status.code(), Some(0));
    let another = File::open(files.path("deck")).unwrap();
    let mut second = lock(another).spawn().unwrap();
    let mut said = [0; 10];
    let mut stderr = second.stderr.take().unwrap();
    stderr.read_exact(&mut said).unwrap();
    assert_eq!(&said, b"lavroudem:");
    assert_eq!(second.try_wait().unwrap(), None);
    drop(keeper);
    assert_eq!(second.wait().unwrap().code(), Some(0));
}
