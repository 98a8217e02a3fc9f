//! A register in a file: made, opened, locked and written, and what happens
//! where that fails.

use lavroudem::*;
use std::cell::RefCell;
use std::fs;
use std::io::{self, Write};
use std::os::unix::fs::symlink;
use std::path::{Path, PathBuf};
use std::rc::Rc;
use std::sync::atomic::{AtomicUsize, Ordering};

const WORKED_DECK: &[u8] = include_bytes!("../../../crates/listing/stdin");
const WORKED_LISTING: &[u8] = include_bytes!("../../../crates/listing/stdout");

/// A folder of its own for each test, gone with it.
struct Folder(PathBuf);

impl Folder {
    fn new() -> Folder {
        static MADE: AtomicUsize = AtomicUsize::new(0);
        let made = MADE.fetch_add(1, Ordering::Relaxed);
        let name = format!("lavroudem-kept-{}-{made}", std::process::id());
        let path = std::env::temp_dir().join(name);
        fs::create_dir(&path).unwrap();
        Folder(path)
    }

    fn register(&self) -> PathBuf {
        self.0.join("register")
    }
}

impl Drop for Folder {
    fn drop(&mut self) {
        let _ = fs::remove_dir_all(&self.0);
    }
}

fn blank_but(number: u8, byte: u8) -> [u8; REGISTER_LENGTH] {
    let mut register = BLANK_REGISTER;
    register[usize::from(number)] = byte;
    register
}

fn file(path: &Path) -> Vec<u8> {
    fs::read(path).unwrap()
}

#[test]
fn a_new_register_is_blank_and_made_once() {
    let folder = Folder::new();
    let path = folder.register();
    let mut register = KeptRegister::create(&path).unwrap();
    assert_eq!(file(&path), BLANK_REGISTER);
    assert_eq!(register.bytes().unwrap(), &BLANK_REGISTER);
    register.issue(7).unwrap();
    let again = KeptRegister::create(&path);
    assert!(matches!(again, Err(KeptError::Create(_))), "{again:?}");
    drop(register);
    let again = KeptRegister::create(&path);
    assert!(matches!(again, Err(KeptError::Create(_))), "{again:?}");
    assert_eq!(file(&path), blank_but(7, LIVE));
}

#[test]
fn a_name_without_a_folder_is_in_the_present_one() {
    let name = format!("lavroudem-kept-here-{}", std::process::id());
    let made = KeptRegister::create(&name);
    let there = file(Path::new(&name));
    fs::remove_file(&name).unwrap();
    assert!(made.is_ok());
    assert_eq!(there, BLANK_REGISTER);
}

#[test]
fn a_register_that_is_none_is_never_blank() {
    let folder = Folder::new();
    let path = folder.register();
    let missing = KeptRegister::open(&path);
    assert!(matches!(missing, Err(KeptError::Open(_))), "{missing:?}");
    assert!(!path.exists());
    for length in [0, 1, 255, 257, 512, 100_000] {
        fs::write(&path, vec![UNISSUED; length]).unwrap();
        let opened = KeptRegister::open(&path);
        let expected = length as u64;
        assert!(
            matches!(opened, Err(KeptError::Length(found)) if found == expected),
            "{opened:?}"
        );
        assert_eq!(file(&path), vec![UNISSUED; length]);
    }
    for other in [Path::new("/dev/null"), Path::new("/dev/zero"), &folder.0] {
        let opened = KeptRegister::open(other);
        assert!(matches!(opened, Err(KeptError::Open(_))), "{opened:?}");
    }
    let nowhere = KeptRegister::create(folder.0.join("none/register"));
    assert!(matches!(nowhere, Err(KeptError::Create(_))), "{nowhere:?}");
}

#[test]
fn one_user_at_a_time() {
    let folder = Folder::new();
    let path = folder.register();
    let first = KeptRegister::create(&path).unwrap();
    let second = KeptRegister::open(&path);
    assert!(matches!(second, Err(KeptError::InUse)), "{second:?}");
    drop(first);
    let first = KeptRegister::open(&path).unwrap();
    let second = KeptRegister::open(&path);
    assert!(matches!(second, Err(KeptError::InUse)), "{second:?}");
    drop(first);
    KeptRegister::open(&path).unwrap();
}

#[test]
fn what_was_answered_is_found_again() {
    let folder = Folder::new();
    let path = folder.register();
    let mut register = KeptRegister::create(&path).unwrap();
    for number in [0, 7, 255] {
        register.issue(number).unwrap();
    }
    register.withdraw(7).unwrap();
    let mut expected = blank_but(0, LIVE);
    expected[7] = WITHDRAWN;
    expected[255] = LIVE;
    assert_eq!(file(&path), expected);
    drop(register);
    let mut register = KeptRegister::open(&path).unwrap();
    assert_eq!(register.bytes().unwrap(), &expected);
    refuses(register.issue(0), Refusal::Live);
    refuses(register.issue(7), Refusal::Withdrawn);
    refuses(register.withdraw(7), Refusal::Withdrawn);
    refuses(register.withdraw(8), Refusal::Unissued);
    assert_eq!(file(&path), expected);
}

fn refuses(answer: Result<(), KeptError>, refusal: Refusal) {
    assert!(
        matches!(answer, Err(KeptError::Refused(found)) if found == refusal),
        "{answer:?}"
    );
}

#[test]
fn a_deck_run_twice_shows_its_sheet_once() {
    let folder = Folder::new();
    let path = folder.register();
    let mut shown = Vec::new();
    let mut register = KeptRegister::create(&path).unwrap();
    register.run_deck(WORKED_DECK, &mut shown).unwrap();
    assert_eq!(shown, WORKED_LISTING);
    assert_eq!(file(&path), blank_but(7, WITHDRAWN));
    drop(register);

    shown.clear();
    let mut register = KeptRegister::open(&path).unwrap();
    register.run_deck(WORKED_DECK, &mut shown).unwrap();
    let refused = "issue 9\nopen 9\nback 9\nvalue 9\nvalue 9\ndelta 9\nforward 9\n\
                   withdraw 9\nvalue 9\n";
    assert_eq!(shown, refused.as_bytes());
    assert_eq!(file(&path), blank_but(7, WITHDRAWN));
}

/// Takes so many bytes.
struct Full(usize);

impl Write for Full {
    fn write(&mut self, bytes: &[u8]) -> io::Result<usize> {
        let taken = bytes.len().min(self.0);
        self.0 -= taken;
        match taken {
            0 => Err(io::Error::other("full")),
            taken => Ok(taken),
        }
    }

    fn flush(&mut self) -> io::Result<()> {
        Ok(())
    }
}

#[test]
fn a_deck_is_done_where_its_listing_is_lost() {
    for taken in (0..WORKED_LISTING.len()).step_by(20) {
        let folder = Folder::new();
        let mut register = KeptRegister::create(folder.register()).unwrap();
        let lost = register.run_deck(WORKED_DECK, &mut Full(taken));
        assert!(matches!(lost, Err(KeptError::Output(_))), "{lost:?}");
        assert_eq!(file(&folder.register()), blank_but(7, WITHDRAWN));
        // The register is good: only the listing was lost.
        refuses(register.issue(7), Refusal::Withdrawn);
    }
}

/// Takes all, and loses it at the end.
struct Late;

impl Write for Late {
    fn write(&mut self, bytes: &[u8]) -> io::Result<usize> {
        Ok(bytes.len())
    }

    fn flush(&mut self) -> io::Result<()> {
        Err(io::Error::other("full"))
    }
}

#[test]
fn a_listing_that_is_lost_at_the_end() {
    let folder = Folder::new();
    let mut register = KeptRegister::create(folder.register()).unwrap();
    let lost = register.run_deck(WORKED_DECK, &mut Late);
    assert!(matches!(lost, Err(KeptError::Output(_))), "{lost:?}");
    refuses(register.issue(7), Refusal::Withdrawn);
}

#[test]
fn a_deck_that_is_stopped_or_too_long() {
    let folder = Folder::new();
    let mut register = KeptRegister::create(folder.register()).unwrap();
    let decks: [(&[u8], &[u8]); 6] = [
        (&[], b""),
        (&[0x06, 3, 0x07, 3], b"issue 0\nwithdraw 0\n"),
        (&[0x06, 4, 0xEE, 0x06, 5], b"issue 0\ndeck 18 2\n"),
        (&[0x06, 5, 0x07], b"issue 0\ndeck 19 2\n"),
        (&[0x02, 0, 0, 0, 0], b""),
        (&[0x06; MAX_DECK + 1], b"deck 20 65536\n"),
    ];
    for (deck, listing) in decks {
        let mut shown = Vec::new();
        register.run_deck(deck, &mut shown).unwrap();
        assert_eq!(shown, listing);
    }
    let mut expected = blank_but(3, WITHDRAWN);
    expected[4] = LIVE;
    expected[5] = LIVE;
    assert_eq!(file(&folder.register()), expected);
}

/// A second user who does not ask for the lock is found out at the end.
#[test]
fn a_register_that_someone_else_wrote() {
    let folder = Folder::new();
    let path = folder.register();
    let mut register = KeptRegister::create(&path).unwrap();
    fs::write(&path, blank_but(9, LIVE)).unwrap();
    let mut shown = Vec::new();
    let done = register.run_deck(WORKED_DECK, &mut shown);
    assert!(matches!(done, Err(KeptError::Differs)), "{done:?}");
    // The lines from the last write on are held back.
    assert!(shown.ends_with(b"forward 0 170000000\n"));
    assert!(matches!(register.bytes(), Err(KeptError::InDoubt)));
}

// ---- a store that counts, and fails where it is told to

#[derive(Default)]
struct Told {
    writes: Vec<(usize, u8)>,
    syncs: usize,
    /// The write or sync to fail, counted from 0.
    fails: Option<usize>,
}

impl Told {
    fn next(&mut self) -> io::Result<()> {
        if self.fails == Some(self.writes.len() + self.syncs) {
            return Err(io::Error::other("told to fail"));
        }
        Ok(())
    }
}

#[derive(Clone, Default)]
struct Counting(Rc<RefCell<Told>>);

impl RegisterStore for Counting {
    fn read(&mut self) -> io::Result<Vec<u8>> {
        let mut bytes = BLANK_REGISTER.to_vec();
        for &(at, byte) in &self.0.borrow().writes {
            bytes[at] = byte;
        }
        Ok(bytes)
    }

    fn write(&mut self, at: usize, byte: u8) -> io::Result<()> {
        let mut told = self.0.borrow_mut();
        told.next()?;
        told.writes.push((at, byte));
        Ok(())
    }

    fn sync(&mut self) -> io::Result<()> {
        let mut told = self.0.borrow_mut();
        told.next()?;
        told.syncs += 1;
        Ok(())
    }
}

/// A register of which the opening is no longer counted.
fn counting() -> (Counting, KeptRegister<Counting>) {
    let store = Counting::default();
    let register = KeptRegister::over(store.clone()).unwrap();
    store.0.borrow_mut().writes.clear();
    store.0.borrow_mut().syncs = 0;
    (store, register)
}

#[test]
fn an_opened_register_is_written_as_it_was_read() {
    let store = Counting::default();
    KeptRegister::over(store.clone()).unwrap();
    let told = store.0.borrow();
    let all = BLANK_REGISTER.iter().copied().enumerate();
    assert_eq!(told.writes, all.collect::<Vec<_>>());
    assert_eq!(told.syncs, 1);
}

#[test]
fn an_accepted_call_is_one_write_and_one_sync() {
    let (store, mut register) = counting();
    register.issue(7).unwrap();
    assert_eq!(store.0.borrow().writes, [(7, LIVE)]);
    register.withdraw(7).unwrap();
    assert_eq!(store.0.borrow().writes, [(7, LIVE), (7, WITHDRAWN)]);
    assert_eq!(store.0.borrow().syncs, 2);
    refuses(register.issue(7), Refusal::Withdrawn);
    refuses(register.withdraw(9), Refusal::Unissued);
    assert_eq!(store.0.borrow().writes.len() + store.0.borrow().syncs, 4);
}

/// Write 0, sync 1; either may fail.
#[test]
fn a_register_in_doubt_answers_nothing() {
    for fails in [0, 1] {
        let (store, mut register) = counting();
        store.0.borrow_mut().fails = Some(fails);
        let failed = register.issue(7);
        assert!(matches!(failed, Err(KeptError::Write(_))), "{failed:?}");
        store.0.borrow_mut().fails = None;
        let answers = [
            register.issue(8),
            register.withdraw(7),
            register.bytes().map(|_| ()),
            register.run_deck(WORKED_DECK, &mut Vec::new()),
        ];
        for answer in answers {
            assert!(matches!(answer, Err(KeptError::InDoubt)), "{answer:?}");
        }
        let done = store.0.borrow();
        assert_eq!(done.writes.len() + done.syncs, fails);
        drop(done);
        KeptRegister::over(store).unwrap().withdraw(9).unwrap_err();
    }
}

#[test]
fn a_register_that_can_not_be_forced_is_not_opened() {
    for fails in [0, 255, 256] {
        let store = Counting::default();
        store.0.borrow_mut().fails = Some(fails);
        let opened = KeptRegister::over(store);
        assert!(matches!(opened, Err(KeptError::Write(_))));
    }
}

/// A store of another length than a register.
struct Short;

impl RegisterStore for Short {
    fn read(&mut self) -> io::Result<Vec<u8>> {
        Ok(vec![UNISSUED; 255])
    }

    fn write(&mut self, _: usize, _: u8) -> io::Result<()> {
        panic!("written");
    }

    fn sync(&mut self) -> io::Result<()> {
        panic!("forced");
    }
}

#[test]
fn a_store_of_another_length() {
    let opened = KeptRegister::over(Short).map(|_| ());
    assert!(matches!(opened, Err(KeptError::Length(255))), "{opened:?}");
}

#[test]
fn errors_say_what_to_do() {
    let other = || io::Error::other("full");
    let texts = [
        (KeptError::Refused(Refusal::Live), "refusal 17, live"),
        (KeptError::Length(255), "255 bytes where a register has 256"),
        (KeptError::InUse, "the register is in use"),
        (
            KeptError::Output(other()),
            "output lost: full; the register was written all the same",
        ),
        (
            KeptError::InDoubt,
            "the register is in doubt after a failure: open it again",
        ),
        (
            KeptError::Forked,
            "the register was opened by another process: open it again",
        ),
    ];
    for (error, text) in texts {
        assert_eq!(error.to_string(), text);
    }
}

/// A file that is moved away, replaced or cut is told before any answer.
#[test]
fn a_file_that_is_not_found_again() {
    let spoil: [fn(&Path); 4] = [
        |path| fs::rename(path, path.with_extension("away")).unwrap(),
        |path| {
            let copy = path.with_extension("copy");
            fs::copy(path, &copy).unwrap();
            fs::rename(copy, path).unwrap();
        },
        |path| {
            let file = fs::File::options().write(true).open(path).unwrap();
            file.set_len(7).unwrap();
        },
        |path| {
            let file = fs::File::options().write(true).open(path).unwrap();
            file.set_len(257).unwrap();
        },
    ];
    for spoil in spoil {
        let folder = Folder::new();
        let path = folder.register();
        let mut kept = KeptRegister::create(&path).unwrap();
        kept.issue(7).unwrap();
        spoil(&path);
        assert!(matches!(kept.withdraw(7), Err(KeptError::Write(_))));
        assert!(matches!(kept.bytes(), Err(KeptError::InDoubt)));
    }
}

/// No bit of a register is set by any way, and none behind it written.
#[test]
fn a_register_file_only_loses_bits() {
    let folder = Folder::new();
    let path = folder.register();
    drop(KeptRegister::create(&path).unwrap());
    let mut file = RegisterFile::open(&path).unwrap();
    file.write(7, 0x25).unwrap();
    assert!(file.write(7, 0xA5).is_err());
    assert!(file.write(256, 0).is_err());
    assert_eq!(fs::read(&path).unwrap().len(), 256);
}

/// A deck that writes nothing shows nothing of a file that is moved away.
#[test]
fn a_deck_without_writes_on_a_file_that_is_not_found_again() {
    let folder = Folder::new();
    let path = folder.register();
    let mut kept = KeptRegister::create(&path).unwrap();
    fs::rename(&path, folder.0.join("away")).unwrap();
    let mut shown = Vec::new();
    let done = kept.run_deck(&[0x07, 7], &mut shown);
    assert!(matches!(done, Err(KeptError::Open(_))), "{done:?}");
    assert!(shown.is_empty());
}

/// Turns a link, once what it leads to is copied to where it will lead.
fn turn(link: &Path, to: &Path) {
    fs::remove_file(link).unwrap();
    symlink(to, link).unwrap();
}

/// Whoever opens the name would find the number live.
fn loses_its_name(mut kept: KeptRegister) {
    assert!(matches!(kept.withdraw(7), Err(KeptError::Write(_))));
    assert!(matches!(kept.bytes(), Err(KeptError::InDoubt)));
}

#[test]
fn a_link_that_is_turned_elsewhere() {
    let folder = Folder::new();
    let (one, two) = (folder.0.join("one"), folder.0.join("two"));
    drop(KeptRegister::create(&one).unwrap());
    symlink(&one, folder.register()).unwrap();
    let mut kept = KeptRegister::open(folder.register()).unwrap();
    kept.issue(7).unwrap();
    fs::copy(&one, &two).unwrap();
    turn(&folder.register(), &two);
    loses_its_name(kept);
}

/// Of a register that is made as of one that is opened.
#[test]
fn a_linked_folder_that_is_turned_elsewhere() {
    let from: [fn(&Path) -> KeptRegister; 2] = [
        |path| KeptRegister::create(path).unwrap(),
        |path| {
            drop(KeptRegister::create(path).unwrap());
            KeptRegister::open(path).unwrap()
        },
    ];
    for from in from {
        let folder = Folder::new();
        let [one, two, here] = ["one", "two", "here"].map(|name| folder.0.join(name));
        fs::create_dir(&one).unwrap();
        fs::create_dir(&two).unwrap();
        symlink(&one, &here).unwrap();
        let mut kept = from(&here.join("register"));
        kept.issue(7).unwrap();
        fs::copy(one.join("register"), two.join("register")).unwrap();
        turn(&here, &two);
        loses_its_name(kept);
    }
}

// ---- forks

extern "C" {
    fn fork() -> i32;
    fn kill(process: i32, signal: i32) -> i32;
    fn sleep(seconds: u32) -> u32;
    fn waitpid(process: i32, status: *mut i32, options: i32) -> i32;
    fn _exit(status: i32) -> !;
}

/// A copy of this process, ended with the value.
struct Fork(i32);

impl Fork {
    /// The copy has one thread, and does this and no more.
    fn doing(it: impl FnOnce() -> bool) -> Fork {
        match unsafe { fork() } {
            0 => unsafe { _exit(if it() { 0 } else { 1 }) },
            process => {
                assert!(process > 0);
                Fork(process)
            }
        }
    }

    /// Whether it did what it should.
    fn ended_well(self) -> bool {
        let mut status = -1;
        let ended = unsafe { waitpid(self.0, &mut status, 0) };
        let process = self.0;
        std::mem::forget(self);
        ended == process && status == 0
    }
}

impl Drop for Fork {
    fn drop(&mut self) {
        unsafe {
            kill(self.0, 9);
            waitpid(self.0, std::ptr::null_mut(), 0);
        }
    }
}

/// Both sides have the lock, and it is the opener's to give back.
#[test]
fn a_fork_that_drops_a_register_leaves_it_locked() {
    let folder = Folder::new();
    let mut kept = Some(KeptRegister::create(folder.register()).unwrap());
    let fork = Fork::doing(|| kept.take().is_some());
    assert!(fork.ended_well());
    let second = KeptRegister::open(folder.register());
    assert!(matches!(second, Err(KeptError::InUse)), "{second:?}");
    kept.unwrap().issue(7).unwrap();
}

/// Each would go on with a copy of its own.
#[test]
fn a_fork_is_answered_nothing() {
    let folder = Folder::new();
    let mut kept = KeptRegister::create(folder.register()).unwrap();
    kept.issue(7).unwrap();
    let calls: [fn(&mut KeptRegister) -> Result<(), KeptError>; 4] = [
        |kept| kept.bytes().map(|_| ()),
        |kept| kept.issue(8),
        |kept| kept.withdraw(7),
        |kept| kept.run_deck(&[0x07, 9, 0x07, 7], &mut Full(0)),
    ];
    for call in calls {
        let fork = Fork::doing(|| matches!(call(&mut kept), Err(KeptError::Forked)));
        assert!(fork.ended_well());
    }
    assert_eq!(file(&folder.register()), blank_but(7, LIVE));
    kept.withdraw(7).unwrap();
}

#[test]
fn a_fork_reads_and_writes_no_register_file() {
    let folder = Folder::new();
    let mut kept = RegisterFile::create(&folder.register()).unwrap();
    let calls: [fn(&mut RegisterFile) -> bool; 3] = [
        |kept| kept.read().is_err(),
        |kept| kept.write(7, LIVE).is_err(),
        |kept| kept.sync().is_err(),
    ];
    for call in calls {
        assert!(Fork::doing(|| call(&mut kept)).ended_well());
        assert!(!call(&mut kept));
    }
}

/// A child has the descriptor until it runs its program. One that never does
/// keeps nobody from the register.
#[test]
fn a_register_is_free_though_a_fork_has_its_descriptor() {
    let folder = Folder::new();
    let kept = KeptRegister::create(folder.register()).unwrap();
    let fork = Fork::doing(|| unsafe { sleep(60) } == 0);
    drop(kept);
    let opened = KeptRegister::open(folder.register());
    drop(fork);
    opened.unwrap();
}

// ---- what no test can see without a power loss

/// It is read: a sync reaches the disk, and so do a new name and one that is
/// opened. Which folders are forced is seen by the tests beside the source.
#[test]
fn the_file_is_forced_to_the_disk() {
    let source = include_str!("../src/kept/file.rs");
    let body = |name: &str| {
        let start = source.find(name).unwrap();
        let length = source[start..].find("\n    }\n").unwrap();
        &source[start..start + length]
    };
    assert!(body("fn sync(").contains("self.file.sync_data()?;"));
    assert!(body("fn fill(").contains("written.and_then(|()| self.file.sync_all())"));
    assert!(body("fn fill(").contains("forced.and_then(|()| force_name(&self.path))"));
    assert!(body("pub fn open(").contains("found.force_names().map_err(KeptError::Open)?;"));
    assert!(body("fn force_names(").contains("for name in self.names()? {"));
    assert!(body("fn force_names(").contains("force_where_possible(&name)?;"));
    assert!(body("fn force_where_possible(").contains("match force_name(path) {"));
    assert!(body("fn force_name(").contains("    folder_of(path)?.sync_all()\n"));
}
