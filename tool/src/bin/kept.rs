//! Decks on a register that is kept in a file.

use lavroudem::{KeptError, KeptRegister, MAX_DECK};
use lavroudem_tool::quote::name;
use std::env;
use std::ffi::{OsStr, OsString};
use std::fmt::Display;
use std::fs::{self, File};
use std::io::{self, ErrorKind, Read, Write};
use std::os::fd::AsFd;
use std::os::unix::fs::MetadataExt;
use std::process::{Command, ExitCode};
use std::sync::atomic::{AtomicI32, Ordering};

const USAGE: &str = "\
usage: kept new REGISTER         makes a blank register
       kept run REGISTER DECK    runs a binary deck on a register and prints its listing
       kept show REGISTER DECK LISTING COMMAND [WORD...]
           runs a deck, writes its listing to the file LISTING, and runs COMMAND while nobody else
           has the register, so that nothing is withdrawn before it is shown
A DECK - is standard input. Each accepted issue and withdraw is on the disk before its line is
printed. A register is never made by a run, and two users never have it at once.
Exit status: 0 done, refused calls included; 1 the deck can't be read; 2 wrong usage; 5 output was
lost, and the message says whether the register was written; 7 the register is at fault. Of `show`
it is that of COMMAND, once that has run; 5 if it could not be started or a signal ended it.
";

const DECK_FAULT: u8 = 1;
const WRONG_USAGE: u8 = 2;
const OUTPUT_LOST: u8 = 5;
const REGISTER_FAULT: u8 = 7;

/// What to print, and the exit status.
type Fault = (String, u8);
type Done = Result<u8, Fault>;

fn main() -> ExitCode {
    let words: Vec<OsString> = env::args_os().skip(1).collect();
    let words: Vec<&OsStr> = words.iter().map(|word| &word[..]).collect();
    let done = match words[..] {
        [command, register] if command == "new" => new(register),
        [command, register, deck] if command == "run" => run(register, deck),
        [command, register, deck, listing, program, ref words @ ..] if command == "show" => {
            show(register, deck, listing, Command::new(program).args(words))
        }
        _ => Err((USAGE.to_string(), WRONG_USAGE)),
    };
    let (message, status) = match done {
        Ok(status) => return ExitCode::from(status),
        Err(fault) => fault,
    };
    // The status is told even where the message is lost.
    let _ = writeln!(io::stderr(), "{}", message.trim_end());
    ExitCode::from(status)
}

fn new(register: &OsStr) -> Done {
    let made = KeptRegister::create(register);
    made.map(|_| 0).map_err(|error| at_fault(register, &error))
}

/// Deck and output are looked at before the register is touched.
fn run(register: &OsStr, deck: &OsStr) -> Done {
    let bytes = read(deck)?;
    let out = standard_output(register)?;
    let mut kept = open(register)?;
    run_deck(&mut kept, register, &bytes, ("standard output", out))
}

/// The register is let go only when the command has ended. The command has
/// not its descriptor, which is closed where a program is started, so it keeps
/// nobody from the register after that.
fn show(register: &OsStr, deck: &OsStr, listing: &OsStr, command: &mut Command) -> Done {
    let bytes = read(deck)?;
    // The command would be given /dev/null in the place of a closed one.
    standard_output(register)?;
    let listing_name = quoted(listing);
    let lost = |fault: io::Error| untouched(&listing_name, &fault);
    let mut options = File::options();
    let options = options.write(true).create(true).truncate(false);
    let out = options.open(listing).map_err(lost)?;
    apart(&out, register).map_err(lost)?;
    let mut kept = open(register)?;
    // Not before: it might be the listing of who has the register.
    cut(&out).map_err(lost)?;
    run_deck(&mut kept, register, &bytes, (&listing_name, out))?;
    let status = status_of(command);
    drop(kept);
    status
}

fn open(register: &OsStr) -> Result<KeptRegister, Fault> {
    KeptRegister::open(register).map_err(|error| at_fault(register, &error))
}

fn run_deck(kept: &mut KeptRegister, register: &OsStr, deck: &[u8], out: (&str, File)) -> Done {
    let (out_name, out) = out;
    let done = kept.run_deck(deck, &mut Out(out));
    done.map(|()| 0).map_err(|error| match error {
        KeptError::Output(_) => (format!("{out_name}: {error}"), OUTPUT_LOST),
        _ => at_fault(register, &error),
    })
}

fn status_of(command: &mut Command) -> Done {
    let program = quoted(command.get_program());
    let fault = |fault: &dyn Display| {
        let words = format!("{program}: {fault}; the register was written all the same");
        (words, OUTPUT_LOST)
    };
    let ended = command.status().map_err(|error| fault(&error))?;
    let status = ended.code().and_then(|code| u8::try_from(code).ok());
    status.ok_or_else(|| fault(&ended))
}

// ---- files

/// One byte more than a deck may have tells the engine as much as all.
fn read(deck: &OsStr) -> Result<Vec<u8>, Fault> {
    let (deck, open) = if deck == "-" {
        ("standard input".to_string(), standard_input())
    } else {
        (quoted(deck), File::open(deck))
    };
    let mut bytes = Vec::new();
    let most = MAX_DECK as u64 + 1;
    let done = open.and_then(|file| file.take(most).read_to_end(&mut bytes));
    let fault = |fault: io::Error| (format!("{deck}: {fault}"), DECK_FAULT);
    done.map_err(fault).map(|_| bytes)
}

/// Where a listing goes.
struct Out(File);

impl Write for Out {
    fn write(&mut self, bytes: &[u8]) -> io::Result<usize> {
        self.0.write(bytes)
    }

    /// A file system may tell only now that there was no room. One that can't
    /// be asked has told before.
    fn flush(&mut self) -> io::Result<()> {
        if !self.0.metadata()?.is_file() {
            return Ok(());
        }
        let can_not_be_asked = |fault: &io::Error| {
            matches!(
                fault.kind(),
                ErrorKind::InvalidInput | ErrorKind::Unsupported
            )
        };
        match self.0.sync_all() {
            Err(fault) if can_not_be_asked(&fault) => Ok(()),
            done => done,
        }
    }
}

/// A listing that goes into the register itself would spoil it.
fn apart(out: &File, register: &OsStr) -> io::Result<()> {
    let out = out.metadata()?;
    // One that is missing is told by its opening.
    match fs::metadata(register) {
        Ok(kept) if (kept.dev(), kept.ino()) == (out.dev(), out.ino()) => {
            Err(io::Error::other("the register itself"))
        }
        _ => Ok(()),
    }
}

fn cut(listing: &File) -> io::Result<()> {
    if listing.metadata()?.is_file() {
        listing.set_len(0)?;
    }
    Ok(())
}

// ---- standard input and output

/// The library's own handles take a descriptor that can't be read or written
/// to for an empty file or one that swallows all, so duplicates are used.
fn standard_input() -> io::Result<File> {
    is_open(0)?;
    io::stdin().as_fd().try_clone_to_owned().map(File::from)
}

fn standard_output(register: &OsStr) -> Result<File, Fault> {
    let open = writable_output().and_then(|out| apart(&out, register).map(|()| out));
    open.map_err(|fault| untouched("standard output", &fault))
}

fn writable_output() -> io::Result<File> {
    if is_open(1)? & ACCESS_MODE == READ_ONLY {
        return Err(io::Error::other("not open for writing"));
    }
    io::stdout().as_fd().try_clone_to_owned().map(File::from)
}

/// The flags of a descriptor, if the program was started with it open.
fn is_open(descriptor: usize) -> io::Result<i32> {
    match GIVEN[descriptor].load(Ordering::Relaxed) {
        CLOSED => Err(io::Error::other("closed")),
        flags => Ok(flags),
    }
}

const CLOSED: i32 = -1;
const ACCESS_MODE: i32 = 3;
const READ_ONLY: i32 = 0;
const GET_FLAGS: i32 = 3;

/// The flags of standard input and output as they were given.
static GIVEN: [AtomicI32; 2] = [AtomicI32::new(CLOSED), AtomicI32::new(CLOSED)];

extern "C" {
    fn fcntl(descriptor: i32, operation: i32, ...) -> i32;
}

/// Before `main` the library opens /dev/null in the place of a descriptor that
/// is closed, and then nobody can tell. So they are looked at earlier.
#[used]
#[link_section = ".init_array"]
static EARLY: extern "C" fn() = look;

extern "C" fn look() {
    for (descriptor, given) in (0..).zip(&GIVEN) {
        // It touches no memory, and answers -1 for a closed descriptor.
        let flags = unsafe { fcntl(descriptor, GET_FLAGS) };
        given.store(flags, Ordering::Relaxed);
    }
}

// ---- messages

fn quoted(file: &OsStr) -> String {
    name(&file.to_string_lossy())
}

fn at_fault(register: &OsStr, error: &KeptError) -> Fault {
    (format!("{}: {error}", quoted(register)), REGISTER_FAULT)
}

fn untouched(out: &str, fault: &io::Error) -> Fault {
    (format!("{out}: {fault}; nothing was run"), OUTPUT_LOST)
}
