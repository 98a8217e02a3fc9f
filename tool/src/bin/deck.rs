//! Decks as text and as bytes, and listings shown.

use lavroudem_model::deck::MAX_DECK;
use lavroudem_tool::course::course;
use lavroudem_tool::form::Form;
use lavroudem_tool::program::{
    at_fault, bytes_of, ended, failure, name, not_whole, print, read_all, tell, Done, Failure,
    FILE_FAULT,
};
use lavroudem_tool::text::{disassemble, read, Assembled, Lines};
use lavroudem_tool::{book, diagnosis, input, listing, lock, table};
use std::env;
use std::ffi::{OsStr, OsString};
use std::fs;
use std::io;
use std::path::Path;
use std::process::ExitCode;

const USAGE: &str = "\
usage: deck assemble [--text | --binary] [--into FOLDER] FILE
           the deck of a text; a deck is passed on as it is. Into a folder: as its file `deck`,
           and which line gave which byte as its file `lines`
       deck disassemble DECK
           the text of a deck
       deck show [--table] [--strict] [--lines LINES] [--name NAME] DECK LISTING
           the listing, or its table, if it is whole and that of the deck; then, on standard
           error, why the sheet was refused or the deck stopped, by the lines of NAME
       deck positions [--into FOLDER] FILE
           the positions of a book's text, one a line. Into a folder: as its file `positions`
       deck total [--table] POSITIONS LINE
           the engine's line of a book, or its table, if it is whole and can be that of the
           positions
       deck lock
           locks standard input, a file that the caller keeps open; waits for another who has it
       deck version
A FILE - is standard input. Without an option a file is text if it is UTF-8 without control
characters other than tabs and line ends. Exit status: 0 done, 1 a file or its content is at
fault, 2 wrong usage, 4 the deck stopped (its listing is shown), 5 the output was lost or the
listing is not whole (nothing is shown of it), 6 with --strict: a call was refused.
";

const STOPPED: u8 = 4;
const REFUSED: u8 = 6;

fn main() -> ExitCode {
    let words: Vec<OsString> = env::args_os().skip(1).collect();
    let done = Request::parse(&words).and_then(|request| request.run());
    ended(done, USAGE)
}

/// The words of the command line.
struct Request<'a> {
    command: &'a str,
    /// Options without a value.
    flags: Vec<&'a str>,
    /// Options with the word after them.
    values: Vec<(&'a str, &'a OsStr)>,
    operands: Vec<&'a OsStr>,
}

impl<'a> Request<'a> {
    fn parse(words: &'a [OsString]) -> Option<Request<'a>> {
        let (command, rest) = words.split_first()?;
        let mut request = Request {
            command: command.to_str()?,
            flags: Vec::new(),
            values: Vec::new(),
            operands: Vec::new(),
        };
        let mut rest = rest.iter();
        while let Some(word) = rest.next() {
            match word.to_str() {
                Some(option @ ("--lines" | "--name" | "--into")) => {
                    request.values.push((option, rest.next()?));
                }
                Some(option) if option.starts_with("--") && option != "--" => {
                    request.flags.push(option)
                }
                Some("--") => request.operands.extend(rest.by_ref().map(|word| &word[..])),
                _ => request.operands.push(word),
            }
        }
        Some(request)
    }

    /// Nothing if the words ask for nothing known.
    fn run(&self) -> Option<Done> {
        match (self.command, &self.operands[..]) {
            ("assemble", &[file]) => {
                self.only(&["--text", "--binary"], &["--into"])?;
                Some(self.assemble(file, self.form()?))
            }
            ("disassemble", &[deck]) => {
                self.only(&[], &[])?;
                Some(disassembled(deck))
            }
            ("show", &[deck, listing]) => {
                self.only(&["--table", "--strict"], &["--lines", "--name"])?;
                Some(self.show(deck, listing))
            }
            ("positions", &[file]) => {
                self.only(&[], &["--into"])?;
                Some(self.positions(file))
            }
            ("total", &[positions, line]) => {
                self.only(&["--table"], &[])?;
                Some(self.total(positions, line))
            }
            ("lock", []) => self.only(&[], &[]).map(|()| locked()),
            ("version", []) => self.only(&[], &[]).map(|()| version()),
            _ => None,
        }
    }

    fn only(&self, flags: &[&str], values: &[&str]) -> Option<()> {
        let known = self.flags.iter().all(|flag| flags.contains(flag))
            && self
                .values
                .iter()
                .all(|(option, _)| values.contains(option));
        known.then_some(())
    }

    fn has(&self, flag: &str) -> bool {
        self.flags.contains(&flag)
    }

    fn value(&self, option: &str) -> Option<&'a OsStr> {
        let found = self.values.iter().find(|(name, _)| *name == option);
        found.map(|&(_, value)| value)
    }

    fn form(&self) -> Option<Form> {
        match (self.has("--text"), self.has("--binary")) {
            (true, true) => None,
            (true, false) => Some(Form::Text),
            (false, true) => Some(Form::Binary),
            (false, false) => Some(Form::Either),
        }
    }

    fn assemble(&self, file: &OsStr, form: Form) -> Done {
        let bytes = bytes_of(file, |open| input::read(open, form))?;
        let assembled = read(bytes, form).map_err(|mistake| at_fault(file, &mistake))?;
        match self.value("--into") {
            Some(folder) => write_into(Path::new(folder), &assembled),
            None => print(&assembled.deck),
        }
    }

    /// Prints the listing or its table, then what is to be said of it.
    fn show(&self, deck: &OsStr, printed: &OsStr) -> Done {
        let deck_file = deck;
        let deck = bytes_of(deck_file, input::read_deck)?;
        let bytes = bytes_of(printed, read_all)?;
        let lines = self.lines()?;
        let course = course(&deck);
        let not_whole = |mistake| not_whole(printed, &mistake);
        let answers = listing::read(&course, &bytes).map_err(not_whole)?;
        let findings = diagnosis::findings(&deck, &course, &answers);
        let refused = answers.iter().any(|answer| answer.is_err());
        if self.has("--table") {
            let table = table::of_answers(&course, answers).map_err(not_whole)?;
            print(table.as_bytes())?;
        } else {
            print(&bytes)?;
        }
        let name = name(self.value("--name").unwrap_or(deck_file));
        tell(&diagnosis::told(&name, &lines, &findings));
        Ok(match course.stop {
            Some(_) => STOPPED,
            None if refused && self.has("--strict") => REFUSED,
            None => 0,
        })
    }

    fn positions(&self, file: &OsStr) -> Done {
        let positions = book_of(file)?.to_text();
        match self.value("--into") {
            Some(folder) => write_file(Path::new(folder), "positions", positions.as_bytes()),
            None => print(positions.as_bytes()),
        }
    }

    /// Prints the line of a book or its table.
    fn total(&self, positions: &OsStr, line: &OsStr) -> Done {
        let positions = book_of(positions)?.nominals.len();
        let bytes = bytes_of(line, read_all)?;
        let totals = book::totals(&bytes, positions).map_err(|fault| not_whole(line, &fault))?;
        if self.has("--table") {
            print(totals.table(positions).as_bytes())
        } else {
            print(&bytes)
        }
    }

    fn lines(&self) -> Result<Lines, Failure> {
        let Some(file) = self.value("--lines") else {
            return Ok(Lines::default());
        };
        let text = String::from_utf8_lossy(&bytes_of(file, read_all)?).into_owned();
        Lines::from_text(&text).ok_or_else(|| at_fault(file, &"no lines of a text"))
    }
}

fn disassembled(deck: &OsStr) -> Done {
    let bytes = bytes_of(deck, input::read_deck)?;
    // Of a longer one not all was read, so its text would be that of another.
    if bytes.len() > MAX_DECK {
        return Err(at_fault(deck, &"longer than any deck"));
    }
    print(disassemble(&bytes).as_bytes())
}

fn locked() -> Done {
    let waiting = || tell("lavroudem: another run builds here; waiting for it\n");
    let fault = |fault| failure(FILE_FAULT, format!("standard input: {fault}"));
    lock::lock(io::stdin(), waiting).map_err(fault).map(|()| 0)
}

/// That this answers shows that the program is there and whole enough to run:
/// a shell takes an empty file for a script that does nothing, with status 0.
fn version() -> Done {
    print(concat!("lavroudem-tool ", env!("CARGO_PKG_VERSION"), "\n").as_bytes())
}

fn book_of(file: &OsStr) -> Result<book::Book, Failure> {
    let bytes = bytes_of(file, input::read_text)?;
    book::read(&bytes).map_err(|mistake| at_fault(file, &mistake))
}

fn write_into(folder: &Path, assembled: &Assembled) -> Done {
    write_file(folder, "deck", &assembled.deck)?;
    write_file(folder, "lines", assembled.lines.to_text().as_bytes())
}

fn write_file(folder: &Path, name: &str, bytes: &[u8]) -> Done {
    let file = folder.join(name);
    let lost = |fault| not_whole(file.as_os_str(), &fault);
    fs::write(&file, bytes).map_err(lost).map(|()| 0)
}
