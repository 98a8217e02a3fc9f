//! The program `listing` as `rt` has left it: how it takes its input.
#![cfg(feature = "engine")]

use std::io::Write;
use std::os::fd::OwnedFd;
use std::os::unix::net::UnixStream;
use std::path::Path;
use std::process::{Command, Stdio};

const WORKED_DECK: &[u8] = include_bytes!("../../crates/listing/stdin");
const WORKED_LISTING: &[u8] = include_bytes!("../../crates/listing/stdout");

fn listing() -> Command {
    let program = Path::new(env!("CARGO_MANIFEST_DIR")).join("../crates/listing/out/listing");
    let mut command = Command::new(program);
    command.stdout(Stdio::piped()).stderr(Stdio::piped());
    command
}

/// A connection that is reset has no end: what came before is not run.
#[test]
fn an_input_that_breaks_off() {
    let (mut ours, mut theirs) = UnixStream::pair().unwrap();
    theirs.write_all(b"never read").unwrap();
    ours.write_all(&WORKED_DECK[..73]).unwrap();
    drop(ours);
    let output = listing().stdin(OwnedFd::from(theirs)).output().unwrap();
    let said = String::from_utf8_lossy(&output.stderr);
    assert!(said.contains("could not be read to its end"), "{said}");
    assert!(output.stdout.is_empty());
}

/// However many reads it takes.
#[test]
fn an_input_in_pieces() {
    for length in [1, 5, 73, 200] {
        let mut child = listing().stdin(Stdio::piped()).spawn().unwrap();
        let mut input = child.stdin.take().unwrap();
        for piece in WORKED_DECK.chunks(length) {
            input.write_all(piece).unwrap();
            input.flush().unwrap();
        }
        drop(input);
        let output = child.wait_with_output().unwrap();
        assert_eq!(output.stdout, WORKED_LISTING);
        assert!(output.stderr.is_empty());
    }
}
