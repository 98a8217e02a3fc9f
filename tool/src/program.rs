//! What the programs share: files read, output printed, faults told.

use crate::{output, quote};
use std::ffi::OsStr;
use std::fmt::Display;
use std::fs::File;
use std::io::{self, Read, Write};
use std::os::fd::AsFd;
use std::process::ExitCode;

/// A file cannot be read, or what is in it has a mistake.
pub const FILE_FAULT: u8 = 1;
pub const WRONG_USAGE: u8 = 2;
/// Not all could be shown, or what was to be shown is not whole.
pub const OUTPUT_LOST: u8 = 5;

/// A status other than 0, and what to say on standard error.
pub struct Failure {
    pub status: u8,
    pub words: String,
}

/// The status of what was done.
pub type Done = Result<u8, Failure>;

/// How a program ends; without anything done it was asked for nothing known.
pub fn ended(done: Option<Done>, usage: &str) -> ExitCode {
    let (status, words) = match done {
        Some(Ok(status)) => return ExitCode::from(status),
        Some(Err(Failure { status, words })) => (status, words + "\n"),
        None => (WRONG_USAGE, usage.to_string()),
    };
    tell(&words);
    ExitCode::from(status)
}

/// Says it on standard error, if that is there: the status tells it anyway.
pub fn tell(words: &str) {
    let _ = io::stderr().write_all(words.as_bytes());
}

/// The bytes of a file, or of standard input, by a reader of either.
pub fn bytes_of(
    file: &OsStr,
    read: impl Fn(&mut dyn Read) -> io::Result<Vec<u8>>,
) -> Result<Vec<u8>, Failure> {
    // The library's own handle takes a descriptor that cannot be read for an empty file.
    let open = if file == "-" {
        io::stdin().as_fd().try_clone_to_owned().map(File::from)
    } else {
        File::open(file)
    };
    let bytes = open.and_then(|mut open| read(&mut open));
    bytes.map_err(|fault| at_fault(file, &fault))
}

pub fn read_all(file: &mut dyn Read) -> io::Result<Vec<u8>> {
    let mut bytes = Vec::new();
    file.read_to_end(&mut bytes).map(|_| bytes)
}

pub fn print(bytes: &[u8]) -> Done {
    let lost = |fault| failure(OUTPUT_LOST, format!("standard output: {fault}"));
    output::print(bytes).map_err(lost).map(|()| 0)
}

pub fn failure(status: u8, words: String) -> Failure {
    Failure { status, words }
}

pub fn at_fault(file: &OsStr, fault: &dyn Display) -> Failure {
    failure(FILE_FAULT, format!("{}: {fault}", name(file)))
}

/// The same of what was to be shown: nothing is.
pub fn not_whole(file: &OsStr, fault: &dyn Display) -> Failure {
    Failure {
        status: OUTPUT_LOST,
        ..at_fault(file, fault)
    }
}

/// A file as a message names it.
pub fn name(file: &OsStr) -> String {
    if file == "-" {
        return "standard input".to_string();
    }
    quote::name(&file.to_string_lossy())
}
