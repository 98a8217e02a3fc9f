//! What can go wrong with a kept register.

use crate::refusal::Refusal;
use crate::REGISTER_LENGTH;
use std::error::Error;
use std::fmt;
use std::io;

#[derive(Debug)]
#[non_exhaustive]
pub enum KeptError {
    /// The engine's answer. Nothing was written, and the register is good.
    Refused(Refusal),
    /// The register can't be made.
    Create(io::Error),
    /// The register can't be opened or read.
    Open(io::Error),
    /// It has so many bytes, which a register has not.
    Length(u64),
    /// Somebody else has it open.
    InUse,
    /// It can't be written or forced to the disk. What the disk holds is not
    /// known.
    Write(io::Error),
    /// A write failed earlier: the register must be opened again.
    InDoubt,
    /// Another process opened it, of which this one is a fork: the register
    /// must be opened again.
    Forked,
    /// The register is not what its deck leaves: something else wrote it.
    Differs,
    /// The listing of a deck was cut short. The register was written.
    Output(io::Error),
}

impl From<Refusal> for KeptError {
    fn from(refusal: Refusal) -> KeptError {
        KeptError::Refused(refusal)
    }
}

impl fmt::Display for KeptError {
    fn fmt(&self, f: &mut fmt::Formatter<'_>) -> fmt::Result {
        match self {
            KeptError::Refused(refusal) => refusal.fmt(f),
            KeptError::Create(fault) => write!(f, "the register can't be made: {fault}"),
            KeptError::Open(fault) => write!(f, "the register can't be opened: {fault}"),
            KeptError::Length(length) => {
                write!(f, "{length} bytes where a register has {REGISTER_LENGTH}")
            }
            KeptError::InUse => write!(f, "the register is in use"),
            KeptError::Write(fault) => {
                write!(f, "the register can't be written: {fault}; it is in doubt")
            }
            KeptError::InDoubt => {
                write!(f, "the register is in doubt after a failure: open it again")
            }
            KeptError::Forked => {
                write!(
                    f,
                    "the register was opened by another process: open it again"
                )
            }
            KeptError::Differs => write!(f, "the register is not what its deck leaves"),
            KeptError::Output(fault) => {
                write!(
                    f,
                    "output lost: {fault}; the register was written all the same"
                )
            }
        }
    }
}

impl Error for KeptError {
    fn source(&self) -> Option<&(dyn Error + 'static)> {
        match self {
            KeptError::Refused(refusal) => Some(refusal),
            KeptError::Create(fault)
            | KeptError::Open(fault)
            | KeptError::Write(fault)
            | KeptError::Output(fault) => Some(fault),
            _ => None,
        }
    }
}
