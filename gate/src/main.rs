//! `edits check`: each edit of each batch is refused at its place.
//! `edits alone CRATE..`: each edit of the batches, tried by itself.
//! `edits without CRATE..`: each batch, tried without each of its edits, whose
//! place must then be left in peace.

use lavroudem_gate::trial::{self, Manner};
use lavroudem_gate::batch;
use std::collections::BTreeSet;
use std::path::Path;
use std::process::ExitCode;
use std::{env, fs};

fn main() -> ExitCode {
    let words: Vec<String> = env::args().skip(1).collect();
    let words: Vec<&str> = words.iter().map(String::as_str).collect();
    let faults = match words.as_slice() {
        ["check"] => check(),
        ["alone", crates @ ..] if !crates.is_empty() => trial::tried(crates, Manner::Alone),
        ["without", crates @ ..] if !crates.is_empty() => trial::tried(crates, Manner::Without),
        _ => Err("usage: edits check | edits alone CRATE.. | edits without CRATE..".to_string()),
    };
    match faults {
        Ok(faults) if faults.is_empty() => ExitCode::SUCCESS,
        Ok(faults) => {
            faults.iter().for_each(|fault| eprintln!("edits: {fault}"));
            ExitCode::FAILURE
        }
        Err(error) => {
            eprintln!("edits: {error}");
            ExitCode::from(2)
        }
    }
}

/// The faults of all batches: first of what is written, then of their trials.
fn check() -> Result<Vec<String>, String> {
    let mut faults = Vec::new();
    let (mut batches, mut edits, mut singles) = (0, 0, 0);
    let mut crates = BTreeSet::new();
    for path in trial::files(Path::new("crates"))? {
        let text = fs::read_to_string(&path).map_err(|error| format!("{}: {error}", path.display()))?;
        if !batch::is_batch(&text) {
            singles += 1;
            continue;
        }
        batches += 1;
        let held = batch::parse(&text).map_err(|error| format!("{}: {error}", path.display()))?;
        edits += held.len();
        let found = batch::faults(&held, path.parent().unwrap().parent().unwrap());
        faults.extend(found.iter().map(|fault| format!("{}: {fault}", path.display())));
        crates.insert(trial::crate_and_label(&path).0);
    }
    println!("edits: {edits} in {batches} batches, {singles} alone");
    if faults.is_empty() {
        let crates: Vec<&str> = crates.iter().map(String::as_str).collect();
        faults = trial::tried(&crates, Manner::Together)?;
    }
    Ok(faults)
}
