//! A register in a file.

use super::{KeptError, RegisterStore};
use crate::{BLANK_REGISTER, REGISTER_LENGTH};
use std::error::Error;
use std::fs::{self, File, TryLockError};
use std::io::{self, ErrorKind};
use std::os::unix::fs::{FileExt, MetadataExt};
use std::path::{self, Path, PathBuf};
use std::process;

/// A file of as many bytes as a register has, locked until it is dropped.
#[derive(Debug)]
pub struct RegisterFile {
    file: File,
    /// The name that was given, whole, its links as they are: whoever opens
    /// the register next goes by it.
    path: PathBuf,
    /// The process that opened it.
    opener: u32,
}

impl RegisterFile {
    /// As [`KeptRegister::create`](super::KeptRegister::create).
    pub fn create(path: &Path) -> Result<RegisterFile, KeptError> {
        let path = path::absolute(path).map_err(KeptError::Create)?;
        let mut options = File::options();
        let options = options.read(true).write(true).create_new(true);
        let file = options.open(&path).map_err(KeptError::Create)?;
        let made = RegisterFile::new(file, path);
        match made.fill() {
            Ok(()) => Ok(made),
            Err(fault) => Err(made.unmake(&fault)),
        }
    }

    /// As [`KeptRegister::open`](super::KeptRegister::open).
    pub fn open(path: &Path) -> Result<RegisterFile, KeptError> {
        let path = path::absolute(path).map_err(KeptError::Open)?;
        let mut options = File::options();
        let options = options.read(true).write(true);
        let file = options.open(&path).map_err(KeptError::Open)?;
        let found = RegisterFile::new(file, path);
        found.lock(KeptError::Open)?;
        let metadata = found.file.metadata().map_err(KeptError::Open)?;
        if !metadata.is_file() {
            return Err(KeptError::Open(io::Error::other("not a plain file")));
        }
        if metadata.len() != REGISTER_LENGTH as u64 {
            return Err(KeptError::Length(metadata.len()));
        }
        found.force_names().map_err(KeptError::Open)?;
        Ok(found)
    }

    fn new(file: File, path: PathBuf) -> RegisterFile {
        let opener = process::id();
        RegisterFile { file, path, opener }
    }

    fn lock(&self, otherwise: fn(io::Error) -> KeptError) -> Result<(), KeptError> {
        match self.file.try_lock() {
            Ok(()) => Ok(()),
            Err(TryLockError::WouldBlock) => Err(KeptError::InUse),
            Err(TryLockError::Error(fault)) => Err(otherwise(fault)),
        }
    }

    fn fill(&self) -> Result<(), KeptError> {
        self.lock(KeptError::Create)?;
        let written = self.file.write_all_at(&BLANK_REGISTER, 0);
        let forced = written.and_then(|()| self.file.sync_all());
        let named = forced.and_then(|()| force_name(&self.path));
        named.map_err(KeptError::Create)
    }

    /// Removes a new file that came to nothing, of which nobody has been told,
    /// and says what stands.
    pub(super) fn unmake(&self, fault: &KeptError) -> KeptError {
        let cause = match fault.source() {
            Some(cause) => cause.to_string(),
            None => fault.to_string(),
        };
        let removed = self.has_name().and_then(|()| fs::remove_file(&self.path));
        KeptError::Create(io::Error::other(match removed {
            Ok(()) => format!("{cause}; nothing of it stands"),
            Err(stays) => format!("{cause}; a file that is no register may stand: {stays}"),
        }))
    }

    /// Its maker may have been stopped before its name was on the disk.
    fn force_names(&self) -> io::Result<()> {
        for name in self.names()? {
            force_where_possible(&name)?;
        }
        Ok(())
    }

    /// The name that was given, and, if that is a link, the one it leads to.
    fn names(&self) -> io::Result<[PathBuf; 2]> {
        Ok([self.path.clone(), self.path.canonicalize()?])
    }
}

/// A name is on the disk when its folder is.
fn force_name(path: &Path) -> io::Result<()> {
    folder_of(path)?.sync_all()
}

/// The folder of a whole name.
fn folder_of(path: &Path) -> io::Result<File> {
    File::open(path.parent().unwrap_or(path))
}

/// A register in a folder that can't be read, or whose file system forces no
/// folders, is opened all the same: else its numbers could not be withdrawn
/// any more. Where a power loss takes such a name the register is missing,
/// which is an error and never a blank one.
fn force_where_possible(path: &Path) -> io::Result<()> {
    match force_name(path) {
        Err(fault) if is_beyond_us(fault.kind()) => Ok(()),
        done => done,
    }
}

fn is_beyond_us(kind: ErrorKind) -> bool {
    use ErrorKind::{InvalidInput, PermissionDenied, Unsupported};
    matches!(kind, PermissionDenied | InvalidInput | Unsupported)
}

impl RegisterFile {
    /// A file that was removed or replaced is written in vain: who opens the
    /// register next finds another.
    fn is_found(&self) -> io::Result<()> {
        self.has_name()?;
        if self.file.metadata()?.len() != REGISTER_LENGTH as u64 {
            return Err(io::Error::other("its length has changed"));
        }
        Ok(())
    }

    fn has_name(&self) -> io::Result<()> {
        let (ours, named) = (self.file.metadata()?, fs::metadata(&self.path)?);
        if (ours.dev(), ours.ino()) != (named.dev(), named.ino()) {
            return Err(io::Error::other("another file has its name"));
        }
        Ok(())
    }

    /// Both sides of a fork have the lock, so it keeps neither from the other.
    fn is_ours(&self) -> io::Result<()> {
        if self.opener != process::id() {
            return Err(io::Error::other("opened by another process"));
        }
        Ok(())
    }
}

/// A child that another thread starts has the lock too, until it runs its
/// program; so it is given back, and not only dropped. A fork only drops it:
/// what it gave back would be lost to both.
impl Drop for RegisterFile {
    fn drop(&mut self) {
        if self.is_ours().is_ok() {
            let _ = self.file.unlock();
        }
    }
}

impl RegisterStore for RegisterFile {
    fn read(&mut self) -> io::Result<Vec<u8>> {
        self.is_ours()?;
        let mut bytes = vec![0; REGISTER_LENGTH];
        self.file.read_exact_at(&mut bytes, 0)?;
        self.is_found()?;
        Ok(bytes)
    }

    /// As a register is written: only bits are cleared, and only in it.
    fn write(&mut self, at: usize, byte: u8) -> io::Result<()> {
        self.is_ours()?;
        let mut old = [0];
        self.file.read_exact_at(&mut old, at as u64)?;
        if byte & !old[0] != 0 {
            return Err(io::Error::other("a write would set bits"));
        }
        self.file.write_all_at(&[byte], at as u64)
    }

    fn sync(&mut self) -> io::Result<()> {
        self.is_ours()?;
        self.file.sync_data()?;
        self.is_found()
    }
}

#[cfg(test)]
mod tests {
    use super::*;

    fn place(of: &fs::Metadata) -> (u64, u64) {
        (of.dev(), of.ino())
    }

    fn forced(name: &Path) -> (u64, u64) {
        place(&folder_of(name).unwrap().metadata().unwrap())
    }

    fn folder(name: &str) -> PathBuf {
        let name = format!("lavroudem-file-{name}-{}", process::id());
        let path = std::env::temp_dir().join(name);
        fs::create_dir(&path).unwrap();
        path
    }

    /// What is forced is the folder that the name stands in, wherever we are.
    #[test]
    fn the_folder_of_a_name() {
        let folder = folder("name");
        let register = RegisterFile::create(&folder.join("register")).unwrap();
        let forced = register.names().unwrap().map(|name| forced(&name));
        let expected = place(&fs::metadata(&folder).unwrap());
        fs::remove_dir_all(&folder).unwrap();
        assert_eq!(forced, [expected; 2]);
    }

    /// A link stands in one folder, its file in another.
    #[test]
    fn the_folders_of_a_link() {
        let folder = folder("link");
        let [links, files] = ["links", "files"].map(|name| folder.join(name));
        fs::create_dir(&links).unwrap();
        fs::create_dir(&files).unwrap();
        drop(RegisterFile::create(&files.join("register")).unwrap());
        let link = links.join("register");
        std::os::unix::fs::symlink("../files/register", &link).unwrap();
        let names = RegisterFile::open(&link).unwrap().names().unwrap();
        let forced = names.map(|name| forced(&name));
        let expected = [links, files].map(|folder| place(&fs::metadata(folder).unwrap()));
        fs::remove_dir_all(&folder).unwrap();
        assert_eq!(forced, expected);
    }

    #[test]
    fn a_folder_that_is_gone_is_an_error_and_one_that_can_not_be_forced_none() {
        let gone = Path::new("/none/at/all/register");
        assert!(force_where_possible(gone).is_err());
        // Files of the kernel have a folder that can't be forced.
        let kernel = Path::new("/proc/self/register");
        assert!(force_name(kernel).is_err_and(|fault| is_beyond_us(fault.kind())));
        assert!(force_where_possible(kernel).is_ok());
        assert!(is_beyond_us(ErrorKind::PermissionDenied));
        assert!(!is_beyond_us(ErrorKind::StorageFull));
    }
}
