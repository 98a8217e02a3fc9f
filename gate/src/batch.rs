//! A file of edits, and what is wrong with it before any check.

use std::collections::BTreeMap;
use std::fs;
use std::path::Path;

/// Text of a file that is replaced.
#[derive(Clone)]
pub struct Pair {
    pub file: String,
    pub old: String,
    pub new: String,
}

/// An edit of a batch: its name, where it must be refused, what it replaces.
#[derive(Clone)]
pub struct Edit {
    pub label: String,
    pub file: String,
    pub name: Option<String>,
    pub pairs: Vec<Pair>,
}

const PLACE: &str = "refused at: ";

/// Whether a file of edits is a batch.
pub fn is_batch(text: &str) -> bool {
    text.lines().any(|line| line.starts_with('#') && line.contains(PLACE))
}

/// The edits of a batch; or what cannot be read.
pub fn parse(text: &str) -> Result<Vec<Edit>, String> {
    let mut edits: Vec<Edit> = Vec::new();
    let mut file = String::new();
    let mut old = None;
    for line in text.lines() {
        if line.starts_with('#') {
            edits.push(heading(line).ok_or_else(|| format!("no edit and its place: {line}"))?);
        } else if let Some(path) = line.strip_prefix("file: ") {
            file = path.to_string();
        } else if let Some(text) = line.strip_prefix("old: ") {
            old = Some(text.to_string());
        } else if let Some(text) = line.strip_prefix("new:") {
            let edit = edits.last_mut().ok_or("an edit stands under no comment")?;
            let old = old.take().ok_or("a new text stands behind no old one")?;
            let new = text.strip_prefix(' ').unwrap_or(text).to_string();
            edit.pairs.push(Pair { file: file.clone(), old, new });
        } else if !line.is_empty() {
            return Err(format!("not understood: {line}"));
        }
    }
    Ok(edits)
}

/// `# LABEL: why; refused at: FILE NAME`
fn heading(line: &str) -> Option<Edit> {
    let (label, rest) = line.strip_prefix("# ")?.split_once(": ")?;
    let (_, place) = rest.rsplit_once(PLACE)?;
    let mut words = place.split(' ');
    let file = words.next()?.to_string();
    let name = words.next().map(str::to_string);
    let whole = words.next().is_none() && !label.contains(' ') && !file.is_empty();
    let pairs = Vec::new();
    whole.then(|| Edit { label: label.to_string(), file, name, pairs })
}

/// What is wrong with a batch as it is written, for the crate in a folder.
pub fn faults(edits: &[Edit], folder: &Path) -> Vec<String> {
    let mut faults = Vec::new();
    if edits.len() < 2 {
        faults.push("a batch has at least two edits".to_string());
    }
    for (i, edit) in edits.iter().enumerate() {
        if edit.pairs.is_empty() {
            faults.push(format!("{}: replaces nothing", edit.label));
        }
        for other in &edits[..i] {
            if other.label == edit.label {
                faults.push(format!("{}: stands here twice", edit.label));
            }
            if (&other.file, &other.name) == (&edit.file, &edit.name) {
                faults.push(format!("{}: its place is that of {}", edit.label, other.label));
            }
        }
    }
    let parts = ["src/", "specs/"];
    let of = |part: &str| edits.iter().flat_map(|e| &e.pairs).filter(|p| p.file.starts_with(part)).count();
    let pairs: usize = edits.iter().map(|edit| edit.pairs.len()).sum();
    if !parts.iter().any(|part| of(part) == pairs) {
        faults.push("a batch is of code alone or of definitions alone".to_string());
    }
    faults.extend(applied(edits, folder));
    faults
}

/// Texts that do not stand just once in what the edits before left, and items
/// that two edits touch.
fn applied(edits: &[Edit], folder: &Path) -> Vec<String> {
    let mut faults = Vec::new();
    let mut texts: BTreeMap<&str, String> = BTreeMap::new();
    let mut touched: BTreeMap<(&str, String), &str> = BTreeMap::new();
    for edit in edits {
        for pair in &edit.pairs {
            let read = || fs::read_to_string(folder.join(&pair.file)).unwrap_or_default();
            let text = texts.entry(&pair.file).or_insert_with(read);
            if text.matches(&pair.old).count() != 1 {
                faults.push(format!("{}: its text does not stand just once in {}", edit.label, pair.file));
                continue;
            }
            let item = item_of(text, text.find(&pair.old).unwrap());
            let first = touched.entry((&pair.file, item.clone())).or_insert(&edit.label);
            if *first != edit.label {
                faults.push(format!("{}: {item} is changed by {first} too", edit.label));
            }
            *text = text.replacen(&pair.old, &pair.new, 1);
        }
    }
    faults
}

/// The function or definition that a place of a file lies in.
fn item_of(text: &str, at: usize) -> String {
    let end = text[at..].find('\n').map_or(text.len(), |length| at + length);
    let mut last = "";
    for line in text[..end].lines() {
        last = item(line).unwrap_or(last);
    }
    last.to_string()
}

/// The name that a line starts, if it starts an item.
fn item(line: &str) -> Option<&str> {
    let marks = ["pub", "extern", "\"C\"", "fn", "const", "struct", "enum", "abbrev", "unfoldable", "record", "data"];
    let bare = line.trim_start();
    let is_function = bare.starts_with("fn ") || bare.starts_with("pub fn ") || bare.starts_with("pub extern ");
    if !is_function && (bare.len() < line.len() || bare.is_empty()) {
        return None;
    }
    let mut words = bare.split([' ', '(', ':', ';']).filter(|word| !word.is_empty());
    let name = words.find(|word| !marks.contains(word))?;
    let plain = !["--", "//", "use", "ghost", "unfolding", "#", "{", "}"].iter().any(|no| name.starts_with(no));
    plain.then_some(name)
}
