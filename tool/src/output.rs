//! Standard output, where nothing is lost unseen.
//!
//! The library's own handle takes a descriptor that cannot be written to as
//! one that swallows all, so a duplicate of it is written to instead.

use std::fs::File;
use std::io::{self, ErrorKind, Write};
use std::os::fd::AsFd;

/// Prints all of it, or tells what failed. What a full disk has taken of it
/// is taken back, so that no cut figure stays in a file.
pub fn print(bytes: &[u8]) -> io::Result<()> {
    let mut out = File::from(io::stdout().as_fd().try_clone_to_owned()?);
    let state = out.metadata()?;
    let before = state.is_file().then_some(state.len());
    let (written, done) = write_all(&mut out, bytes);
    let done = done.and_then(|()| match before {
        Some(_) => reach_the_disk(&out),
        None => Ok(()),
    });
    if let (Err(_), Some(before)) = (&done, before) {
        take_back(&out, before, written);
    }
    done
}

/// How much was written, and what stopped it.
fn write_all(out: &mut File, bytes: &[u8]) -> (usize, io::Result<()>) {
    let mut written = 0;
    while written < bytes.len() {
        match out.write(&bytes[written..]) {
            Ok(0) => return (written, Err(ErrorKind::WriteZero.into())),
            Ok(count) => written += count,
            Err(fault) if fault.kind() == ErrorKind::Interrupted => {}
            Err(fault) => return (written, Err(fault)),
        }
    }
    (written, Ok(()))
}

/// A file system may tell only now that there was no room. One that cannot
/// be asked has told before.
fn reach_the_disk(out: &File) -> io::Result<()> {
    match out.sync_all() {
        Err(fault)
            if matches!(
                fault.kind(),
                ErrorKind::InvalidInput | ErrorKind::Unsupported
            ) =>
        {
            Ok(())
        }
        done => done,
    }
}

/// Cuts the file where it was, unless another has written to it too.
fn take_back(out: &File, before: u64, written: usize) {
    let ours = out
        .metadata()
        .is_ok_and(|now| now.len() == before + written as u64);
    if ours {
        // The fault that led here is told; of a second one there is no more to say.
        let _ = out.set_len(before);
    }
}
