//! What failed, by the log of a check.

use std::collections::BTreeSet;

/// A file below the crate's folder, and the law or need in it; `*` where the
/// log names none.
pub type Place = (String, String);

/// The places that failed by themselves, and all that failed.
#[derive(Default)]
pub struct Failed {
    pub own: BTreeSet<Place>,
    pub all: BTreeSet<Place>,
}

impl Failed {
    /// Whether a place failed by itself; without a name, anything in the file.
    pub fn by_itself(&self, file: &str, name: Option<&str>) -> bool {
        let mut own = self.own.iter();
        own.any(|place| place.0 == file && name.is_none_or(|name| place.1 == name))
    }

    fn add(&mut self, file: &str, name: &str, follows: bool) {
        let place = (file.to_string(), name.to_string());
        if !follows {
            self.own.insert(place.clone());
        }
        self.all.insert(place);
    }
}

/// Reads the log of a check in the folder of a crate. It is no refusal unless
/// it says so.
pub fn read(log: &str) -> Option<Failed> {
    let mut failed = Failed::default();
    let mut refused = false;
    let mut open: Vec<&str> = Vec::new();
    for line in log.lines() {
        refused |= line.starts_with("logic=not-proved");
        if let Some((file, message)) = error(line) {
            match unchecked(message) {
                Some(names) => names.for_each(|name| failed.add(file, name, true)),
                None => {
                    let (name, rest) = named(message).unwrap_or(("*", message));
                    failed.add(file, name, follows(rest));
                }
            }
        }
        open.extend(left_open(line));
        if let Some((function, message)) = function(line) {
            let needs: Vec<&str> = open.drain(..).chain(quoted_behind(message, "`search` did not prove ")).collect();
            if message != "proved" {
                let file = format!("proofs/{function}/Answers.antt");
                needs.iter().for_each(|need| failed.add(&file, need, false));
                failed.add(&file, "*", true);
            }
        }
    }
    refused.then_some(failed)
}

/// `./FILE:LINE:COLUMN: error: ` and a message. Other paths are no files of
/// the crate.
fn error(line: &str) -> Option<(&str, &str)> {
    let (place, message) = line.split_once(": error: ")?;
    let file = place.strip_prefix("./")?.split(':').next()?;
    (!place.contains(' ')).then_some((file, message))
}

/// A message that starts with what it is about, and the rest.
fn named(message: &str) -> Option<(&str, &str)> {
    message.strip_prefix('`')?.split_once("`: ")
}

/// Whether a message only says that something else failed.
fn follows(message: &str) -> bool {
    let rest = message.strip_prefix('`').and_then(|rest| rest.split_once('`'));
    rest.is_some_and(|(_, rest)| rest.starts_with(" was not admitted"))
}

/// What was not checked, since it depends on what failed.
fn unchecked(message: &str) -> Option<impl Iterator<Item = &str>> {
    let (count, rest) = message.split_once(" declaration")?;
    let (_, names) = rest.split_once(", which was rejected, w")?.1.split_once(" not checked: ")?;
    count.parse::<usize>().ok()?;
    Some(names.split(", "))
}

/// The need of the next function that is told, where it stays open.
fn left_open(line: &str) -> Option<&str> {
    let (_, rest) = line.strip_prefix("note: ")?.split_once(": it is not proved that ")?;
    let (_, rest) = rest.split_once(" (`")?;
    Some(rest.split_once("`)")?.0)
}

/// `fn CRATE::FUNCTION: ` with the function's folder and what is said of it.
fn function(line: &str) -> Option<(String, &str)> {
    let (path, message) = line.strip_prefix("fn ")?.split_once(": ")?;
    let (_, function) = path.split_once("::")?;
    Some((function.replace("::", "/"), message))
}

/// The words of a list such as `` `a`, `b` and no more`` behind some text.
fn quoted_behind<'a>(message: &'a str, text: &str) -> Vec<&'a str> {
    let mut rest = message.split_once(text).map_or("", |(_, rest)| rest);
    let mut words = Vec::new();
    while let Some((word, behind)) = rest.strip_prefix('`').and_then(|rest| rest.split_once('`')) {
        words.push(word);
        rest = behind.strip_prefix(", ").unwrap_or("");
    }
    words
}
