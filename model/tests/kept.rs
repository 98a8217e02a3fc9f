//! A kept register under power cuts. Every state that its disk may be found in,
//! at every moment of a run and bit by bit within a write, is one that document
//! 01 says of a cut issue or withdraw; and what was shown holds in each.
#![cfg(feature = "engine")]

mod common;

use common::writes::{told, Write as ByteWrite};
use common::Random;
use lavroudem::{KeptError, KeptRegister, RegisterFile, RegisterStore};
use lavroudem_model::commands::{encode, ISSUE, WITHDRAW};
use lavroudem_model::deck::run_on;
use lavroudem_model::decks;
use lavroudem_model::register::{self, cut_write, status, Status};
use lavroudem_model::register::{LIVE, UNISSUED, WITHDRAWN};
use lavroudem_model::sheet::Sheet;
use lavroudem_model::worked;
use std::cell::RefCell;
use std::collections::BTreeSet;
use std::fs::{self, File};
use std::io::{self, Write};
use std::path::{Path, PathBuf};
use std::process::{Child, Command};
use std::rc::Rc;
use std::thread;
use std::time::Duration;

// ---- a disk and a screen with one journal

#[derive(Clone, Copy, Debug, PartialEq, Eq)]
enum Event {
    Wrote(usize, u8),
    Synced,
    /// Bytes on the screen, in all.
    Shown(usize),
}

#[derive(Clone, Default)]
struct Journal(Rc<RefCell<Vec<Event>>>);

impl Journal {
    fn note(&self, event: Event) {
        self.0.borrow_mut().push(event);
    }

    fn events(&self) -> Vec<Event> {
        self.0.borrow().clone()
    }
}

/// Reads give what was written last, synced or not.
struct Disk {
    bytes: Vec<u8>,
    journal: Journal,
}

impl RegisterStore for Disk {
    fn read(&mut self) -> io::Result<Vec<u8>> {
        Ok(self.bytes.clone())
    }

    fn write(&mut self, at: usize, byte: u8) -> io::Result<()> {
        self.bytes[at] = byte;
        self.journal.note(Event::Wrote(at, byte));
        Ok(())
    }

    fn sync(&mut self) -> io::Result<()> {
        self.journal.note(Event::Synced);
        Ok(())
    }
}

#[derive(Default)]
struct Screen {
    shown: Vec<u8>,
    journal: Journal,
}

impl Write for Screen {
    fn write(&mut self, bytes: &[u8]) -> io::Result<usize> {
        self.shown.extend(bytes);
        self.journal.note(Event::Shown(self.shown.len()));
        Ok(bytes.len())
    }

    fn flush(&mut self) -> io::Result<()> {
        Ok(())
    }
}

// ---- what a disk may be found as

/// A disk after a power loss: what is synced, and the writes since then, of
/// which each bit may be there or not.
#[derive(Clone)]
struct Found {
    synced: Vec<u8>,
    since: Vec<(usize, u8)>,
}

impl Found {
    fn new(register: &[u8]) -> Found {
        Found {
            synced: register.to_vec(),
            since: vec![],
        }
    }

    fn note(&mut self, event: Event) {
        match event {
            // A byte as it stands leaves no bit to be found otherwise.
            Event::Wrote(at, byte) if self.bytes_at(at) == [byte] => {}
            Event::Wrote(at, byte) => self.since.push((at, byte)),
            Event::Synced => {
                for (at, byte) in self.since.drain(..) {
                    self.synced[at] = byte;
                }
            }
            Event::Shown(_) => {}
        }
    }

    /// Every byte that may be found at a place.
    fn bytes_at(&self, at: usize) -> Vec<u8> {
        let (mut set, mut clear) = (self.synced[at], !self.synced[at]);
        for &(_, byte) in self.since.iter().filter(|write| write.0 == at) {
            set |= byte;
            clear |= !byte;
        }
        let may_be = |&byte: &u8| byte & !set == 0 && !byte & !clear == 0;
        (0..=u8::MAX).filter(may_be).collect()
    }

    fn states(&self) -> Vec<Vec<u8>> {
        let mut states = vec![self.synced.clone()];
        let places: BTreeSet<usize> = self.since.iter().map(|write| write.0).collect();
        for at in places {
            let bytes = self.bytes_at(at);
            let with = |state: &Vec<u8>, byte: u8| {
                let mut state = state.clone();
                state[at] = byte;
                state
            };
            let each = |state: &Vec<u8>| bytes.iter().map(|&b| with(state, b)).collect::<Vec<_>>();
            states = states.iter().flat_map(each).collect();
        }
        states
    }
}

// ---- the judge

/// A run as the model has it.
struct Model {
    listing: Vec<u8>,
    writes: Vec<ByteWrite>,
    /// Before the first write, and after each.
    registers: Vec<Vec<u8>>,
}

impl Model {
    fn new(deck: &[u8], register: &[u8]) -> Model {
        let (listing, exit) = run_on(deck, register);
        let writes = told(deck, std::str::from_utf8(&listing).unwrap());
        let mut registers = vec![register.to_vec()];
        for write in &writes {
            let mut next = registers.last().unwrap().clone();
            assert_eq!(next[write.number], write.old);
            next[write.number] = write.new;
            registers.push(next);
        }
        assert_eq!(registers.last(), Some(&exit));
        Model {
            listing,
            writes,
            registers,
        }
    }

    /// How many of the writes have their line on the screen.
    fn shown(&self, bytes: usize) -> usize {
        self.writes.iter().filter(|it| it.shown <= bytes).count()
    }

    /// So many writes returned, and the power failed in the next, or none.
    fn may_be(&self, returned: usize, found: &[u8]) -> bool {
        if self.registers[returned] == found {
            return true;
        }
        let Some(cut) = self.writes.get(returned) else {
            return false;
        };
        let mut before = self.registers[returned].clone();
        before[cut.number] = found[cut.number];
        before == found && cut_write(cut.old, cut.new).contains(&found[cut.number])
    }

    /// Document 01's cut statement, and that no answer that was shown is lost.
    fn judge(&self, shown: usize, found: &[u8]) {
        let least = self.shown(shown);
        let mut cuts = least..=self.writes.len();
        assert!(cuts.any(|returned| self.may_be(returned, found)), "{shown}");
        for write in &self.writes[..least] {
            if write.new == WITHDRAWN {
                judge_withdrawn(write.number, found);
            }
        }
    }
}

/// No call of a sheet of this number is accepted, by the model and by the
/// engine, and none brings it back.
fn judge_withdrawn(number: usize, found: &[u8]) {
    assert_eq!(status(found[number]), Status::Withdrawn);
    let sheet = Sheet {
        number: number as u8,
        ..worked::sheet()
    };
    let refused = b"issue 9\nopen 9\nback 9\nvalue 9\nvalue 9\nforward 9\n";
    let deck = decks::of_sheet(&sheet);
    assert_eq!(run_on(&deck, found), (refused.to_vec(), found.to_vec()));
    let mut register = found.to_vec();
    assert_eq!(lavroudem::run_on(&deck, &mut register), refused);
    assert_eq!(register, found);
}

/// How many states were judged.
fn judge_all(model: &Model, register: &[u8], events: &[Event]) -> usize {
    let mut found = Found::new(register);
    let mut shown = 0;
    let mut judged = BTreeSet::new();
    for moment in 0..=events.len() {
        if moment > 0 {
            found.note(events[moment - 1]);
            if let Event::Shown(bytes) = events[moment - 1] {
                shown = bytes;
            }
        }
        for state in found.states() {
            if judged.insert((shown, state.clone())) {
                model.judge(shown, &state);
            }
        }
    }
    judged.len()
}

// ---- registers and decks by seed

fn random_register(random: &mut Random) -> Vec<u8> {
    let mut register = register::blank();
    for byte in &mut register {
        *byte = [UNISSUED, LIVE, WITHDRAWN, random.draw() as u8][random.below(4)];
    }
    for byte in &mut register[..4] {
        *byte = [UNISSUED, UNISSUED, UNISSUED, LIVE][random.below(4)];
    }
    register
}

/// Many issues and withdraws of few numbers.
fn busy_deck(random: &mut Random) -> Vec<u8> {
    let mut sheet = worked::sheet();
    sheet.number = random.below(4) as u8;
    let mut deck = decks::of_sheet(&sheet);
    for _ in 0..random.below(12) {
        let number = random.below(5) as u64;
        let command = [ISSUE, WITHDRAW][random.below(2)];
        deck.extend(encode(command, &[number]));
    }
    deck.extend(decks::any(random));
    deck
}

fn random_deck(random: &mut Random) -> Vec<u8> {
    match random.below(12) {
        0 => decks::oversized(random),
        1..=3 => decks::any(random),
        _ => busy_deck(random),
    }
}

/// A register on a disk, and a screen, of one journal.
fn opened(register: &[u8]) -> (KeptRegister<Disk>, Screen, Journal) {
    let journal = Journal::default();
    let disk = Disk {
        bytes: register.to_vec(),
        journal: journal.clone(),
    };
    let screen = Screen {
        shown: vec![],
        journal: journal.clone(),
    };
    (KeptRegister::over(disk).unwrap(), screen, journal)
}

// ---- cuts at every moment

#[test]
fn every_cut_of_a_deck_is_covered() {
    let mut random = Random::new(1_414);
    let (mut judged, mut writes) = (0, 0);
    for _ in 0..600 {
        let register = random_register(&mut random);
        let deck = random_deck(&mut random);
        let model = Model::new(&deck, &register);
        let (mut kept, mut screen, journal) = opened(&register);
        kept.run_deck(&deck, &mut screen).unwrap();
        assert_eq!(screen.shown, model.listing, "{deck:?}");
        assert_eq!(
            kept.bytes().unwrap()[..],
            model.registers[model.writes.len()]
        );
        judged += judge_all(&model, &register, &journal.events());
        writes += model.writes.len();
    }
    assert!(writes > 1_000, "{writes}");
    assert!(judged > 16_000, "{judged}");
}

/// One write, forced before the next and before its line. The lines before its
/// own are shown by then: no figure comes out once its sheet is withdrawn.
#[test]
fn a_deck_writes_in_its_order() {
    let mut random = Random::new(4_141);
    for _ in 0..200 {
        let register = random_register(&mut random);
        let deck = busy_deck(&mut random);
        let model = Model::new(&deck, &register);
        let (mut kept, mut screen, journal) = opened(&register);
        journal.0.borrow_mut().clear();
        kept.run_deck(&deck, &mut screen).unwrap();
        let mut shown = 0;
        let mut found = Vec::new();
        for event in journal.events() {
            match event {
                Event::Shown(bytes) => shown = bytes,
                event => found.push((shown, event)),
            }
        }
        let each = |it: &ByteWrite| {
            let events = [Event::Wrote(it.number, it.new), Event::Synced];
            events.map(|event| (it.before, event))
        };
        let expected: Vec<_> = model.writes.iter().flat_map(each).collect();
        assert_eq!(found, expected);
    }
}

/// The same of single calls; the screen shows an answer as a line.
#[test]
fn every_cut_of_a_call_is_covered() {
    let mut random = Random::new(141);
    let mut judged = 0;
    for _ in 0..300 {
        let register = random_register(&mut random);
        let (mut kept, mut screen, journal) = opened(&register);
        let mut deck = Vec::new();
        for _ in 0..random.below(12) {
            let number = random.below(5) as u8;
            let issue = random.one_in(2);
            let (command, word, answer) = match issue {
                true => (ISSUE, "issue", kept.issue(number)),
                false => (WITHDRAW, "withdraw", kept.withdraw(number)),
            };
            deck.extend(encode(command, &[number.into()]));
            writeln!(screen, "{word} {}", number_of(answer)).unwrap();
        }
        let model = Model::new(&deck, &register);
        assert_eq!(screen.shown, model.listing);
        judged += judge_all(&model, &register, &journal.events());
    }
    assert!(judged > 5_000, "{judged}");
}

fn number_of(answer: Result<(), KeptError>) -> u8 {
    match answer {
        Ok(()) => 0,
        Err(KeptError::Refused(refusal)) => refusal.number(),
        Err(error) => panic!("{error}"),
    }
}

// ---- failures, told as errors

/// What a write or a sync that fails has done.
#[derive(Clone, Copy, Debug)]
enum Failure {
    Nothing,
    Everything,
    /// The bits of the byte that were written.
    Bits(u8),
}

/// A disk with a cache in front of it.
#[derive(Clone)]
struct Cached {
    cache: Vec<u8>,
    disk: Vec<u8>,
    dirty: BTreeSet<usize>,
    /// The steps until one fails.
    left: usize,
    failure: Failure,
}

impl Cached {
    fn new(register: &[u8], left: usize, failure: Failure) -> Cached {
        Cached {
            cache: register.to_vec(),
            disk: register.to_vec(),
            dirty: BTreeSet::new(),
            left,
            failure,
        }
    }

    fn fails(&mut self) -> bool {
        let fails = self.left == 0;
        self.left = self.left.wrapping_sub(1);
        fails
    }
}

#[derive(Clone)]
struct Shared(Rc<RefCell<Cached>>);

impl RegisterStore for Shared {
    fn read(&mut self) -> io::Result<Vec<u8>> {
        Ok(self.0.borrow().cache.clone())
    }

    fn write(&mut self, at: usize, byte: u8) -> io::Result<()> {
        let mut disk = self.0.borrow_mut();
        let fails = disk.fails();
        let bits = match disk.failure {
            Failure::Nothing if fails => 0,
            Failure::Bits(bits) if fails => bits,
            _ => u8::MAX,
        };
        disk.cache[at] = disk.cache[at] & !bits | byte & bits;
        disk.dirty.insert(at);
        told_if(fails)
    }

    /// A sync that fails forgets what it should have written.
    fn sync(&mut self) -> io::Result<()> {
        let disk = &mut *self.0.borrow_mut();
        let fails = disk.fails();
        for at in std::mem::take(&mut disk.dirty) {
            if !fails || matches!(disk.failure, Failure::Everything) {
                disk.disk[at] = disk.cache[at];
            }
        }
        told_if(fails)
    }
}

fn told_if(fails: bool) -> io::Result<()> {
    match fails {
        true => Err(io::Error::other("told to fail")),
        false => Ok(()),
    }
}

/// Opening takes a write for each byte, and a sync.
const OPENING: usize = register::REGISTER_LENGTH + 1;

/// A run that fails at a step, a register that is then read again from cache
/// or disk, and a power loss after that.
fn fail_at(deck: &[u8], register: &[u8], step: usize, failure: Failure) {
    let model = Model::new(deck, register);
    let disk = Cached::new(register, OPENING + step, failure);
    let disk = Shared(Rc::new(RefCell::new(disk)));
    let mut kept = KeptRegister::over(disk.clone()).unwrap();
    let mut shown = Vec::new();
    let failed = kept.run_deck(deck, &mut shown);
    assert!(matches!(failed, Err(KeptError::Write(_))), "{failed:?}");
    assert!(matches!(kept.bytes(), Err(KeptError::InDoubt)));
    assert!(model.listing.starts_with(&shown));
    model.judge(shown.len(), &disk.0.borrow().cache);
    model.judge(shown.len(), &disk.0.borrow().disk);

    // What is answered from now on must be on the disk.
    let again = KeptRegister::over(disk.clone()).unwrap();
    let answered = again.bytes().unwrap().to_vec();
    assert_eq!(answered, disk.0.borrow().disk);
    model.judge(shown.len(), &answered);
}

#[test]
fn a_failure_at_every_step_is_told_and_covered() {
    let mut random = Random::new(515);
    let mut failed = 0;
    for _ in 0..60 {
        let register = random_register(&mut random);
        let deck = busy_deck(&mut random);
        let steps = 2 * Model::new(&deck, &register).writes.len();
        for step in 0..steps {
            fail_at(&deck, &register, step, Failure::Nothing);
            fail_at(&deck, &register, step, Failure::Everything);
            fail_at(&deck, &register, step, Failure::Bits(random.draw() as u8));
            failed += 3;
        }
    }
    assert!(failed > 500, "{failed}");
}

// ---- a process that is killed

/// A file that stops its process before a step, for good.
struct Stopping {
    file: RegisterFile,
    left: usize,
    stopped: PathBuf,
}

impl Stopping {
    fn step(&mut self) {
        if self.left == 0 {
            fs::write(&self.stopped, b"").unwrap();
            loop {
                thread::sleep(Duration::from_secs(1));
            }
        }
        self.left -= 1;
    }
}

impl RegisterStore for Stopping {
    fn read(&mut self) -> io::Result<Vec<u8>> {
        self.file.read()
    }

    fn write(&mut self, at: usize, byte: u8) -> io::Result<()> {
        self.step();
        self.file.write(at, byte)
    }

    fn sync(&mut self) -> io::Result<()> {
        self.step();
        self.file.sync()
    }
}

/// Where the two processes meet.
const FOLDER: &str = "LAVROUDEM_TEST_FOLDER";
const STEPS: &str = "LAVROUDEM_TEST_STEPS";

/// Issue, use and withdraw of a sheet, and of two numbers more.
fn killed_deck() -> Vec<u8> {
    let mut deck = decks::of_sheet(&worked::sheet());
    for (command, number) in [(WITHDRAW, 7), (ISSUE, 8), (WITHDRAW, 8), (ISSUE, 9)] {
        deck.extend(encode(command, &[number]));
    }
    deck
}

/// Run by the test below, in a process of its own.
#[test]
#[ignore = "the process that the next test kills"]
fn process_to_be_killed() {
    let (Ok(folder), Ok(steps)) = (std::env::var(FOLDER), std::env::var(STEPS)) else {
        return;
    };
    let folder = Path::new(&folder);
    let store = Stopping {
        file: RegisterFile::open(&folder.join("register")).unwrap(),
        left: steps.parse().unwrap(),
        stopped: folder.join("stopped"),
    };
    let mut screen = File::create(folder.join("screen")).unwrap();
    let mut kept = KeptRegister::over(store).unwrap();
    kept.run_deck(&killed_deck(), &mut screen).unwrap();
}

/// Until it has stopped itself or is done.
fn wait_and_kill(mut child: Child, stopped: &Path) -> bool {
    loop {
        if stopped.exists() {
            child.kill().unwrap();
            child.wait().unwrap();
            return true;
        }
        if let Some(status) = child.try_wait().unwrap() {
            assert!(status.success());
            return stopped.exists();
        }
        thread::sleep(Duration::from_millis(2));
    }
}

/// Whether the process was killed: it has fewer steps than that otherwise.
fn killed_after(steps: usize, folder: &Path) -> bool {
    let path = folder.join("register");
    drop(KeptRegister::create(&path).unwrap());
    let child = Command::new(std::env::current_exe().unwrap())
        .args(["--exact", "process_to_be_killed", "--ignored", "--quiet"])
        .env(FOLDER, folder)
        .env(STEPS, steps.to_string())
        .stdout(std::process::Stdio::null())
        .spawn()
        .unwrap();
    let killed = wait_and_kill(child, &folder.join("stopped"));
    let shown = fs::read(folder.join("screen")).unwrap_or_default();
    let model = Model::new(&killed_deck(), &register::blank());
    assert!(model.listing.starts_with(&shown));
    assert!(killed || shown == model.listing);
    model.judge(shown.len(), &fs::read(&path).unwrap());
    // The lock went with the process.
    let kept = KeptRegister::open(&path).unwrap();
    model.judge(shown.len(), kept.bytes().unwrap());
    killed
}

#[test]
fn a_process_killed_at_every_step_leaves_what_it_showed() {
    let name = format!("lavroudem-killed-{}", std::process::id());
    let folder = std::env::temp_dir().join(name);
    let first = OPENING - 2;
    let mut steps = first;
    loop {
        fs::create_dir(&folder).unwrap();
        let killed = killed_after(steps, &folder);
        fs::remove_dir_all(&folder).unwrap();
        if !killed {
            break;
        }
        steps += 1;
    }
    // Five writes, each with its sync.
    assert_eq!(steps, OPENING + 10);
}
