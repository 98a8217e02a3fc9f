//! One build at a time.
//!
//! The lock is the kernel's, on an open file. It goes when the last process
//! that has the file open ends, however it ends, so no killed run leaves it.

use std::io;
use std::os::fd::{AsFd, AsRawFd};

const EXCLUSIVE: i32 = 2;
const AT_ONCE: i32 = 4;

extern "C" {
    fn flock(file: i32, operation: i32) -> i32;
}

/// Locks a file that a caller keeps open. If another has it, `waiting` is
/// called once, and then this waits.
pub fn lock(file: impl AsFd, waiting: impl FnOnce()) -> io::Result<()> {
    let file = file.as_fd();
    match operate(&file, EXCLUSIVE | AT_ONCE) {
        Err(fault) if fault.kind() == io::ErrorKind::WouldBlock => waiting(),
        done => return done,
    }
    loop {
        match operate(&file, EXCLUSIVE) {
            Err(fault) if fault.kind() == io::ErrorKind::Interrupted => {}
            done => return done,
        }
    }
}

fn operate(file: &impl AsRawFd, operation: i32) -> io::Result<()> {
    // The descriptor is borrowed, so it is open; the call touches no memory.
    match unsafe { flock(file.as_raw_fd(), operation) } {
        0 => Ok(()),
        _ => Err(io::Error::last_os_error()),
    }
}
