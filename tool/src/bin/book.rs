//! The engine's line of a book.

use lavroudem_tool::program::{at_fault, bytes_of, ended, failure, print, Done, OUTPUT_LOST};
use lavroudem_tool::{book, input};
use std::env;
use std::ffi::{OsStr, OsString};
use std::process::ExitCode;

const USAGE: &str = "\
usage: book FILE
           adds a book of positions, a text, and prints the engine's line
A FILE - is standard input. Exit status: 0 done, 1 the file or its text is at fault, 2 wrong usage,
5 the output was lost, or the engine's answer is none: nothing is shown of it.
";

fn main() -> ExitCode {
    let words: Vec<OsString> = env::args_os().skip(1).collect();
    let done = match &words[..] {
        [file] => Some(add(file)),
        _ => None,
    };
    ended(done, USAGE)
}

fn add(file: &OsStr) -> Done {
    let bytes = bytes_of(file, input::read_text)?;
    let positions = book::read(&bytes).map_err(|mistake| at_fault(file, &mistake))?;
    let line = book::line_by(|room| {
        let added = lavroudem::book(&positions.nominals, &positions.values, room);
        added.map_err(|refusal| refusal.to_string())
    });
    let held = line.and_then(|line| {
        book::totals(&line, positions.nominals.len())?;
        Ok(line)
    });
    let no_answer = |fault| failure(OUTPUT_LOST, format!("{fault}; nothing is shown"));
    print(&held.map_err(no_answer)?)
}
