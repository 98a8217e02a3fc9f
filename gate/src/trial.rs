//! Batches tried: as they stand, each edit alone, or each batch without it.

use crate::batch::Edit;
use crate::{batch, log};
use std::path::{Path, PathBuf};
use std::process::Command;
use std::{env, fs, io, process};

#[derive(Clone, Copy, PartialEq)]
pub enum Manner {
    Together,
    Alone,
    Without,
}

/// Every file of edits below the folder of the crates, in order.
pub fn files(crates: &Path) -> Result<Vec<PathBuf>, String> {
    let told = |error: io::Error| format!("{}: {error}", crates.display());
    let mut found = Vec::new();
    for entry in fs::read_dir(crates).map_err(told)? {
        let Ok(edits) = fs::read_dir(entry.map_err(told)?.path().join("must-fail")) else {
            continue;
        };
        for edit in edits {
            found.push(edit.map_err(told)?.path());
        }
    }
    found.sort();
    Ok(found)
}

/// The crate of a file of edits, and its own name.
pub fn crate_and_label(path: &Path) -> (String, String) {
    let name = path.ancestors().nth(2).and_then(Path::file_name).unwrap_or_default();
    let label = path.file_stem().unwrap_or_default();
    (name.to_string_lossy().into(), label.to_string_lossy().into())
}

/// The faults of the batches of some crates, tried in a manner.
pub fn tried(crates: &[&str], manner: Manner) -> Result<Vec<String>, String> {
    let told = |error: io::Error| format!("a copy of the crates: {error}");
    let room = Room::new(Path::new(".")).map_err(told)?;
    let mut faults = Vec::new();
    for path in files(Path::new("crates"))? {
        let (name, label) = crate_and_label(&path);
        let text = fs::read_to_string(&path).map_err(|error| format!("{}: {error}", path.display()))?;
        if !crates.contains(&name.as_str()) || !batch::is_batch(&text) {
            continue;
        }
        let edits = batch::parse(&text).map_err(|error| format!("{}: {error}", path.display()))?;
        let trials: Vec<(&[Edit], Vec<&Edit>)> = match manner {
            Manner::Together => vec![(&edits, edits.iter().collect())],
            Manner::Alone => edits.iter().map(|edit| (std::slice::from_ref(edit), vec![edit])).collect(),
            Manner::Without => {
                let without = |edit: &Edit| edits.iter().filter(|other| other.label != edit.label).collect();
                edits.iter().map(|edit| (std::slice::from_ref(edit), without(edit))).collect()
            }
        };
        for (held, made) in trials {
            let log = room.check(&name, &made).map_err(told)?;
            faults.extend(faults_of(&log, held, manner).iter().map(|fault| format!("{name}/{label}: {fault}")));
        }
        println!("edits: {name}/{label}: {} tried", edits.len());
    }
    Ok(faults)
}

/// What is wrong with edits that were tried: each must be refused at its place;
/// without it that place must not fail.
fn faults_of(log: &str, held: &[Edit], manner: Manner) -> Vec<String> {
    let failed = log::read(log);
    let fault = |edit: &Edit| {
        let there = failed.as_ref().is_some_and(|failed| failed.by_itself(&edit.file, edit.name.as_deref()));
        let place = format!("{} {}", edit.file, edit.name.as_deref().unwrap_or(""));
        match manner {
            Manner::Together if !there => Some(format!("{}: no error of its own at {place}", edit.label)),
            Manner::Alone if !there => Some(format!("{}: alone it is not refused at {place}", edit.label)),
            Manner::Without if there => Some(format!("{}: without it the others are refused at {place}", edit.label)),
            _ => None,
        }
    };
    held.iter().filter_map(fault).collect()
}

/// A copy of the crates in which edits are made. It lies outside of the
/// repository, since `rt ci` refuses code there that is no crate's.
struct Room {
    top: PathBuf,
    crates: PathBuf,
}

impl Room {
    fn new(root: &Path) -> io::Result<Room> {
        let top = env::temp_dir().join(format!("lavroudem-edits-{}", process::id()));
        fs::create_dir(&top)?;
        let room = Room { top, crates: root.join("crates") };
        copy(&room.crates, &room.top.join("crates"))?;
        fs::copy(root.join("crates.txt"), room.top.join("crates.txt"))?;
        Ok(room)
    }

    /// The log of the check of a crate with some edits.
    fn check(&self, name: &str, edits: &[&Edit]) -> io::Result<String> {
        let [from, to] = [&self.crates, &self.top.join("crates")].map(|crates| crates.join(name));
        let pairs = || edits.iter().flat_map(|edit| &edit.pairs);
        for pair in pairs() {
            let text = fs::read_to_string(to.join(&pair.file))?;
            fs::write(to.join(&pair.file), text.replacen(&pair.old, &pair.new, 1))?;
        }
        let ran = Command::new("rt").arg("check").current_dir(&to).output()?;
        for pair in pairs() {
            fs::copy(from.join(&pair.file), to.join(&pair.file))?;
        }
        let [told, said] = [ran.stdout, ran.stderr].map(|bytes| String::from_utf8_lossy(&bytes).into_owned());
        Ok(told + &said)
    }
}

impl Drop for Room {
    fn drop(&mut self) {
        let _ = fs::remove_dir_all(&self.top);
    }
}

/// Copies a folder, but for edits and what `rt` made.
fn copy(from: &Path, to: &Path) -> io::Result<()> {
    fs::create_dir_all(to)?;
    for entry in fs::read_dir(from)? {
        let entry = entry?;
        let target = to.join(entry.file_name());
        if !entry.file_type()?.is_dir() {
            fs::copy(entry.path(), target)?;
        } else if entry.file_name() != "must-fail" && entry.file_name() != "out" {
            copy(&entry.path(), &target)?;
        }
    }
    Ok(())
}
