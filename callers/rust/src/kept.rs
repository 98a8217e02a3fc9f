//! A register that outlives the program, and the power.

mod error;
mod file;
mod writes;

pub use error::KeptError;
pub use file::RegisterFile;

use crate::refusal::Refusal;
use crate::REGISTER_LENGTH;
use std::io::{self, Write};
use std::path::Path;
use std::process;

/// Where the bytes of a register are kept: a file, or a device of your own.
///
/// What is assumed of it is what the engine's promise assumes: if the power
/// fails in a write of a byte, or before the next sync returns, then each bit
/// that the write should change is found changed or not, and every other bit,
/// of this byte and of all others, is found as it was.
pub trait RegisterStore {
    /// All bytes.
    fn read(&mut self) -> io::Result<Vec<u8>>;
    /// Writes one byte at its place.
    fn write(&mut self, at: usize, byte: u8) -> io::Result<()>;
    /// Returns once all that was written is found after a power loss.
    fn sync(&mut self) -> io::Result<()>;
}

/// A register that is kept, by default in a file.
///
/// An accepted [`issue`](KeptRegister::issue) or
/// [`withdraw`](KeptRegister::withdraw) writes the one byte of its number and
/// forces it to the disk before it answers, so what was answered holds
/// wherever the power fails after it. A refused one writes nothing. If a write
/// or a sync fails, nobody knows what the disk holds: this value answers
/// nothing more, and the register is opened again.
///
/// The file is locked against a second user as long as this value lives. The
/// lock binds only those who ask for it, as [`KeptRegister::open`] does. A fork
/// of the process has the lock too, and a copy of this value that answers
/// nothing; dropped there, it leaves the lock as it is.
///
/// ```
/// use lavroudem::{KeptError, KeptRegister, Refusal};
/// # let folder = std::env::temp_dir().join(format!("lavroudem-doc-{}", std::process::id()));
/// # std::fs::create_dir_all(&folder).unwrap();
/// # let path = folder.join("register");
///
/// let mut register = KeptRegister::create(&path)?;
/// register.issue(7)?;
/// register.withdraw(7)?;
/// drop(register);
///
/// let mut register = KeptRegister::open(&path)?;
/// let again = register.issue(7);
/// assert!(matches!(again, Err(KeptError::Refused(Refusal::Withdrawn))));
/// # drop(register);
/// # std::fs::remove_dir_all(&folder).unwrap();
/// # Ok::<(), KeptError>(())
/// ```
#[derive(Debug)]
pub struct KeptRegister<S = RegisterFile> {
    store: S,
    /// What the store holds and no power loss takes back.
    bytes: [u8; REGISTER_LENGTH],
    /// A write was begun and is not known to be finished.
    in_doubt: bool,
    /// The process that opened it.
    opener: u32,
}

impl KeptRegister {
    /// Makes a file with a blank register, and forces the file and its folder
    /// to the disk. A file that exists is an error and stays as it is. A file
    /// that comes to nothing is removed, or the error says that it may stand.
    pub fn create(path: impl AsRef<Path>) -> Result<KeptRegister, KeptError> {
        KeptRegister::made(RegisterFile::create(path.as_ref())?)
    }

    fn made(file: RegisterFile) -> Result<KeptRegister, KeptError> {
        let mut kept = KeptRegister::unread(file);
        match kept.read_in() {
            Ok(()) => Ok(kept),
            Err(fault) => Err(kept.store.unmake(&fault)),
        }
    }

    /// Opens and locks a register, and forces its folder to the disk. A
    /// missing, shorter or longer file is an error, never a blank register; so
    /// is one that somebody else has open. The name must lead to the file as
    /// long as it is in use, also where it is a link.
    pub fn open(path: impl AsRef<Path>) -> Result<KeptRegister, KeptError> {
        KeptRegister::over(RegisterFile::open(path.as_ref())?)
    }
}

impl<S: RegisterStore> KeptRegister<S> {
    /// Reads the register of a store, and forces to the disk what was read.
    pub fn over(store: S) -> Result<KeptRegister<S>, KeptError> {
        let mut kept = KeptRegister::unread(store);
        kept.read_in()?;
        Ok(kept)
    }

    fn unread(store: S) -> KeptRegister<S> {
        KeptRegister {
            store,
            bytes: [crate::WITHDRAWN; REGISTER_LENGTH],
            in_doubt: true,
            opener: process::id(),
        }
    }

    fn read_in(&mut self) -> Result<(), KeptError> {
        let found = self.store.read().map_err(KeptError::Open)?;
        let length = found.len() as u64;
        self.bytes = found.try_into().map_err(|_| KeptError::Length(length))?;
        self.settle()
    }

    /// After a sync that failed a read may find, in a cache, what the disk
    /// does not hold. So all bytes are written once more, as they were read,
    /// and believed only when that is forced to the disk.
    fn settle(&mut self) -> Result<(), KeptError> {
        for (at, &byte) in self.bytes.iter().enumerate() {
            self.store.write(at, byte).map_err(KeptError::Write)?;
        }
        self.store.sync().map_err(KeptError::Write)?;
        self.in_doubt = false;
        Ok(())
    }

    /// The register, for the calls that only read it. It can't be written
    /// while they have it. A copy of it is no register: it goes on saying what
    /// was so when it was made.
    pub fn bytes(&self) -> Result<&[u8; REGISTER_LENGTH], KeptError> {
        if self.opener != process::id() {
            return Err(KeptError::Forked);
        }
        if self.in_doubt {
            return Err(KeptError::InDoubt);
        }
        Ok(&self.bytes)
    }

    /// Makes an unissued number live. Refusals 9 and 17.
    pub fn issue(&mut self, number: u8) -> Result<(), KeptError> {
        self.call(crate::issue, number)
    }

    /// Ends a live number for good. Refusals 9 and 10.
    pub fn withdraw(&mut self, number: u8) -> Result<(), KeptError> {
        self.call(crate::withdraw, number)
    }

    /// The engine judges on a copy. What it accepts is written and forced to
    /// the disk, and only then answered.
    fn call(&mut self, call: Call, number: u8) -> Result<(), KeptError> {
        let mut after = *self.bytes()?;
        call(&mut after, number)?;
        let at = usize::from(number);
        self.in_doubt = true;
        self.store.write(at, after[at]).map_err(KeptError::Write)?;
        self.store.sync().map_err(KeptError::Write)?;
        self.bytes = after;
        self.in_doubt = false;
        Ok(())
    }

    /// Runs a deck on the register and hands its listing to `out`. Each
    /// accepted issue and withdraw is one write, in their order, forced to the
    /// disk before the next and before its line goes to `out`. The lines before
    /// its own go there first: no figure comes out once its sheet is withdrawn.
    ///
    /// Where `out` takes no more, the register is written all the same, and
    /// the error is [`KeptError::Output`]. After any other error `out` has had
    /// no line of an issue or withdraw that is not on the disk.
    pub fn run_deck(&mut self, deck: &[u8], out: &mut impl Write) -> Result<(), KeptError> {
        let mut exit = *self.bytes()?;
        let listing = crate::run_on(deck, &mut exit);
        let writes = writes::told(deck, &listing).ok_or(KeptError::Differs)?;
        self.foresee(&writes, &exit)?;
        let mut screen = Screen { out, lost: None };
        let done = self.follow(&writes, &listing, &exit, &mut screen);
        screen.flush();
        done?;
        screen
            .lost
            .map_or(Ok(()), |lost| Err(KeptError::Output(lost)))
    }

    /// Before any is written: the engine accepts them one by one, and they
    /// leave what the deck left.
    fn foresee(
        &self,
        writes: &[writes::Told],
        exit: &[u8; REGISTER_LENGTH],
    ) -> Result<(), KeptError> {
        let mut after = self.bytes;
        for told in writes {
            let accepted = (told.call)(&mut after, told.number);
            accepted.map_err(|_| KeptError::Differs)?;
        }
        same(&after, exit)
    }

    fn follow(
        &mut self,
        writes: &[writes::Told],
        listing: &[u8],
        exit: &[u8; REGISTER_LENGTH],
        screen: &mut Screen<impl Write>,
    ) -> Result<(), KeptError> {
        let mut shown = 0;
        for told in writes {
            screen.show(&listing[shown..told.line]);
            self.call(told.call, told.number)?;
            shown = told.line;
        }
        self.compare(exit)?;
        screen.show(&listing[shown..]);
        Ok(())
    }

    /// Behind the last write of a deck: what can be read back.
    fn compare(&mut self, exit: &[u8; REGISTER_LENGTH]) -> Result<(), KeptError> {
        let found = self.store.read().map_err(KeptError::Open);
        let compared = found.and_then(|found| same(&found, exit));
        self.in_doubt = compared.is_err();
        compared
    }
}

fn same(found: &[u8], exit: &[u8]) -> Result<(), KeptError> {
    if found == exit {
        Ok(())
    } else {
        Err(KeptError::Differs)
    }
}

/// Issue or withdraw.
type Call = fn(&mut [u8], u8) -> Result<(), Refusal>;

/// Lines go out until some are lost.
struct Screen<'a, W> {
    out: &'a mut W,
    lost: Option<io::Error>,
}

impl<W: Write> Screen<'_, W> {
    fn show(&mut self, lines: &[u8]) {
        if self.lost.is_none() {
            self.lost = self.out.write_all(lines).err();
        }
    }

    fn flush(&mut self) {
        if self.lost.is_none() {
            self.lost = self.out.flush().err();
        }
    }
}

#[cfg(test)]
mod tests {
    use super::*;
    use std::fs::{self, File};

    /// A register that came to nothing after its file was made.
    #[test]
    fn a_new_file_that_can_not_be_settled_is_removed() {
        let name = format!("lavroudem-unsettled-{}", process::id());
        let path = std::env::temp_dir().join(name);
        let file = RegisterFile::create(&path).unwrap();
        let cut = File::options().write(true).open(&path).unwrap();
        cut.set_len(7).unwrap();
        let told = KeptRegister::made(file).unwrap_err();
        assert!(!path.exists());
        assert!(matches!(told, KeptError::Create(_)), "{told}");
        assert!(
            told.to_string().ends_with("; nothing of it stands"),
            "{told}"
        );
    }

    /// What has its name by now is another's.
    #[test]
    fn a_file_that_is_not_ours_is_not_removed() {
        let name = format!("lavroudem-others-{}", process::id());
        let path = std::env::temp_dir().join(name);
        let file = RegisterFile::create(&path).unwrap();
        fs::remove_file(&path).unwrap();
        fs::write(&path, "another").unwrap();
        let told = KeptRegister::made(file).unwrap_err();
        let left = fs::read(&path);
        fs::remove_file(&path).unwrap();
        assert_eq!(left.unwrap(), b"another");
        assert!(matches!(told, KeptError::Create(_)), "{told}");
        assert!(told.to_string().contains("may stand"), "{told}");
    }
}
