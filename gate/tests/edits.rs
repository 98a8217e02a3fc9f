//! What counts as a refusal, and what a batch may hold.

use lavroudem_gate::{batch, log};
use std::fs;
use std::path::PathBuf;

/// Lines as the check prints them.
const LOG: &str = "\
./proofs/Losses.antt:26:37: error: `loss_most`: `omega` does not prove it
./proofs/Losses.antt:31:5: error: 2 declarations that depend on `loss_most`, which was rejected, were not checked: loss_least, loss_between
./proofs/half/Answers.antt:24:13: error: `returns`: the two types differ
./proofs/half/Answers.antt:27:64: error: `half-spec`: `returns` was not admitted (it was rejected)
./proofs/Sums.antt:3:1: error: a name is missing
note: src/lib.rt:20:5: it is not proved that the function returns what it ensures (`of-another`)
fn cash::kept: proved
note: src/lib.rt:30:5: it is not proved that the sum does not overflow (`overflow_add-result`); this goal is false
fn cash::part::half: not proved
note: src/lib.rt:40:1: it is not proved that what the function ensures holds when it returns (`returns-clause-is`)
fn cash::whole: no proof: expected answers in ./proofs/whole/Answers.antt; `search` did not prove `returns-clause-is`, `add-size`; it calls `cash::half`, which is not proved
fn cash::other: no proof: expected answers in ./proofs/other/Answers.antt; it calls `cash::half`, which is not proved
logic=not-proved
";

fn failed() -> log::Failed {
    log::read(LOG).unwrap()
}

#[test]
fn errors_of_a_place_are_its_own() {
    let failed = failed();
    assert!(failed.by_itself("proofs/Losses.antt", Some("loss_most")));
    assert!(failed.by_itself("proofs/half/Answers.antt", None));
    assert!(failed.by_itself("proofs/part/half/Answers.antt", Some("overflow_add-result")));
    assert!(failed.by_itself("proofs/whole/Answers.antt", Some("add-size")));
    assert!(failed.by_itself("proofs/whole/Answers.antt", Some("returns-clause-is")));
    assert!(failed.by_itself("proofs/Sums.antt", None));
}

#[test]
fn what_only_follows_does_not_count() {
    let failed = failed();
    assert!(!failed.by_itself("proofs/half/Answers.antt", Some("half-spec")));
    assert!(!failed.by_itself("proofs/other/Answers.antt", None));
    assert!(!failed.by_itself("proofs/kept/Answers.antt", None));
    assert!(!failed.by_itself("proofs/whole/Answers.antt", Some("returns")));
    assert!(!failed.by_itself("proofs/whole/Answers.antt", Some("overflow_add-result")));
    assert!(!failed.by_itself("proofs/Losses.antt", Some("loss_least")));
    assert!(failed.all.contains(&("proofs/half/Answers.antt".into(), "half-spec".into())));
    assert!(failed.all.contains(&("proofs/Losses.antt".into(), "loss_between".into())));
    assert!(failed.all.contains(&("proofs/other/Answers.antt".into(), "*".into())));
}

#[test]
fn a_check_that_passed_is_no_refusal() {
    assert!(log::read(&LOG.replace("not-proved", "proved")).is_none());
    assert!(log::read("").is_none());
    let errors = LOG.lines().filter(|line| line.contains(": error: ") || line.starts_with("logic"));
    let elsewhere = errors.collect::<Vec<_>>().join("\n").replace("./", "../sheet/");
    assert!(log::read(&elsewhere).unwrap().own.is_empty());
}

// ---- batches

const CODE: &str = "\
pub fn half(x: u64) -> u64
{
    x / 2
}

fn whole(x: u64) -> u64
{
    x + 1
}
";

const DEFINITIONS: &str = "\
unfoldable pub half_of : ℕ → ℕ
half_of x = x / 2

unfoldable pub whole_of : ℕ → ℕ
whole_of x = x + 1
";

/// A crate's folder of its own for each test. It lies outside of the
/// repository, since `rt ci` refuses code there that is no crate's.
struct Folder(PathBuf);

impl Folder {
    fn new(name: &str) -> Folder {
        let folder = std::env::temp_dir().join(format!("lavroudem-{name}-{}", std::process::id()));
        fs::create_dir_all(folder.join("src")).unwrap();
        fs::create_dir_all(folder.join("specs")).unwrap();
        fs::write(folder.join("src/lib.rt"), CODE).unwrap();
        fs::write(folder.join("specs/Half.antt"), DEFINITIONS).unwrap();
        Folder(folder)
    }
}

impl Drop for Folder {
    fn drop(&mut self) {
        fs::remove_dir_all(&self.0).unwrap();
    }
}

fn faults(name: &str, text: &str) -> Vec<String> {
    batch::faults(&batch::parse(text).unwrap(), &Folder::new(name).0)
}

const GOOD: &str = "\
# third: a half; refused at: proofs/half/Answers.antt
file: src/lib.rt
old: x / 2
new: x / 3

# more: one more; refused at: proofs/whole/Answers.antt returns
file: src/lib.rt
old: x + 1
new: x + 2
";

#[test]
fn a_good_batch_has_no_fault() {
    assert!(batch::is_batch(GOOD));
    assert!(!batch::is_batch("# third: a half\nfile: src/lib.rt\n"));
    let edits = batch::parse(GOOD).unwrap();
    assert_eq!(edits.len(), 2);
    assert_eq!((edits[1].file.as_str(), edits[1].name.as_deref()), ("proofs/whole/Answers.antt", Some("returns")));
    assert_eq!(edits[1].pairs[0].new, "x + 2");
    assert_eq!(faults("good", GOOD), Vec::<String>::new());
    let definitions = GOOD.replace("src/lib.rt", "specs/Half.antt");
    assert_eq!(faults("definitions", &definitions), Vec::<String>::new());
}

/// Each is the good one, spoilt in one way, and is told so.
#[test]
fn what_spoils_a_batch() {
    let spoilt = [
        ("place", GOOD.replace("proofs/whole/Answers.antt returns", "proofs/half/Answers.antt"), "its place is that of"),
        ("twice", GOOD.replace("# more", "# third"), "stands here twice"),
        ("mixed", GOOD.replacen("src/lib.rt", "specs/Half.antt", 1), "of code alone or of definitions alone"),
        ("absent", GOOD.replace("old: x + 1", "old: x + 9"), "does not stand just once"),
        ("common", GOOD.replace("old: x + 1", "old: (x: u64)"), "does not stand just once"),
        ("left", GOOD.replace("old: x + 1", "old: x / 2"), "does not stand just once"),
        ("item", GOOD.replace("old: x + 1\nnew: x + 2", "old: x / 3\nnew: x / 4"), "is changed by third too"),
        ("nothing", GOOD.replace("old: x + 1\nnew: x + 2\n", ""), "replaces nothing"),
        ("single", GOOD.split("\n\n").next().unwrap().to_string(), "at least two edits"),
    ];
    for (name, text, said) in spoilt {
        let faults = faults(name, &text);
        assert!(faults.iter().any(|fault| fault.contains(said)), "{name}: {faults:?}");
    }
}

#[test]
fn definitions_are_told_apart() {
    let batch = "\
# a: a half; refused at: proofs/A.antt a
file: specs/Half.antt
old: half_of x = x / 2
new: half_of x = x / 3

# b: the same one; refused at: proofs/A.antt b
file: specs/Half.antt
old: pub half_of : ℕ → ℕ
new: pub half_of : ℕ → ℤ
";
    let faults = faults("apart", batch);
    assert!(faults.iter().any(|fault| fault.contains("half_of is changed by a too")), "{faults:?}");
}

#[test]
fn what_cannot_be_read_is_told() {
    assert!(batch::parse("# no place\nfile: src/lib.rt\n").is_err());
    assert!(batch::parse("old: a\nnew: b\n").is_err());
    assert!(batch::parse("# a: b; refused at: proofs/A.antt\nnew: b\n").is_err());
    assert!(batch::parse("# a: b; refused at: proofs/A.antt\nolt: b\n").is_err());
}
