//! The definitions in the engine's `specs/` files, and which of them a
//! statement rests on. Files are read by name alone: a word that may be a
//! definition's name counts as a use of it, so the answer can be too long
//! and never too short.

use std::collections::{BTreeMap, BTreeSet};
use std::fs;
use std::path::{Path, PathBuf};

/// A definition by its file below `crates/` and its name.
pub type Key = (String, String);

struct Definition {
    /// Its lines, without blank ones and comments.
    lines: usize,
    words: Vec<String>,
}

/// What a file brings in from others of the project.
#[derive(Default)]
struct Imports {
    names: BTreeMap<String, Key>,
    files: BTreeMap<String, String>,
}

#[derive(Default)]
pub struct Definitions {
    all: BTreeMap<Key, Definition>,
    /// A constructor stands for its type.
    constructors: BTreeMap<Key, Key>,
    imports: BTreeMap<String, Imports>,
}

impl Definitions {
    /// Reads every file of every `specs/` folder.
    pub fn read(crates: &Path) -> Definitions {
        let mut definitions = Definitions::default();
        for path in spec_files(crates) {
            let file = path.strip_prefix(crates).unwrap().to_str().unwrap();
            definitions.read_file(file, &fs::read_to_string(&path).unwrap());
        }
        definitions
    }

    fn read_file(&mut self, file: &str, text: &str) {
        let mut imports = Imports::default();
        let mut current = String::new();
        for line in text.lines().filter(|line| counts(line)) {
            if let Some(import) = line.strip_prefix("use ") {
                imports.add(import);
            } else if !line.starts_with("pub mod ") {
                if !line.starts_with(' ') {
                    current = declared(line).to_string();
                }
                self.add_line(file, &current, line);
            }
        }
        self.imports.insert(file.to_string(), imports);
    }

    fn add_line(&mut self, file: &str, name: &str, line: &str) {
        let key = (file.to_string(), name.to_string());
        let definition = self.all.entry(key.clone()).or_insert(Definition {
            lines: 0,
            words: Vec::new(),
        });
        definition.lines += 1;
        let is_data = definition.words.iter().any(|word| word == "data");
        let mut words: Vec<String> = split(line).map(str::to_string).collect();
        if line.starts_with("  pub ") {
            words.drain(..2); // a field's own name is no use of another's
        }
        definition.words.extend(words);
        if is_data {
            let constructors = line.split(':').next().unwrap().split_whitespace();
            for constructor in constructors {
                let place = (file.to_string(), constructor.to_string());
                self.constructors.insert(place, key.clone());
            }
        }
    }

    /// The definition that a word of a file names, if it names one of the
    /// project's.
    fn named(&self, file: &str, word: &str) -> Option<Key> {
        let imports = &self.imports[file];
        let own = (file.to_string(), word.to_string());
        let qualified = word.split_once('.').and_then(|(short, name)| {
            let from = imports.files.get(short)?;
            Some((from.clone(), name.to_string()))
        });
        [Some(own), imports.names.get(word).cloned(), qualified]
            .into_iter()
            .flatten()
            .map(|key| self.constructors.get(&key).cloned().unwrap_or(key))
            .find(|key| self.all.contains_key(key))
    }

    /// A definition and all those below it.
    pub fn below(&self, key: Key) -> BTreeSet<Key> {
        assert!(self.all.contains_key(&key), "no definition {key:?}");
        let mut found = BTreeSet::new();
        let mut open = vec![key];
        while let Some(key) = open.pop() {
            if found.insert(key.clone()) {
                let words = self.all[&key].words.iter();
                open.extend(words.filter_map(|word| self.named(&key.0, word)));
            }
        }
        found
    }

    pub fn lines(&self, keys: &BTreeSet<Key>) -> usize {
        keys.iter().map(|key| self.all[key].lines).sum()
    }
}

impl Imports {
    /// One `use` line. What comes from the kit, and the types that the code
    /// declares, have no file below `specs/` and are left out.
    fn add(&mut self, import: &str) {
        if let Some((module, names)) = import.split_once(".{") {
            let Some(file) = file_of(module) else { return };
            for name in names.trim_end_matches('}').split(", ") {
                let (name, local) = name.split_once(" as ").unwrap_or((name, name));
                let key = (file.clone(), name.to_string());
                self.names.insert(local.to_string(), key);
            }
        } else if let Some((module, short)) = import.split_once(" as ") {
            if let Some(file) = file_of(module) {
                self.files.insert(short.to_string(), file);
            }
        }
    }
}

/// `walk/specs/Calls.antt` for `Rattle.walk.specs.Calls`.
fn file_of(module: &str) -> Option<String> {
    let (home, name) = module.strip_prefix("Rattle.")?.split_once(".specs.")?;
    (!name.contains('.')).then(|| format!("{home}/specs/{name}.antt"))
}

/// Whether a line is neither blank nor a comment.
pub fn counts(line: &str) -> bool {
    let line = line.trim_start_matches(' ');
    !line.is_empty() && !line.starts_with("--")
}

/// What an unindented line declares: its first word but for the marks.
fn declared(line: &str) -> &str {
    let marks = ["unfoldable", "abbrev", "pub", "record", "data"];
    let mut words = split(line).skip_while(|word| marks.contains(word));
    words.next().unwrap()
}

fn split(line: &str) -> impl Iterator<Item = &str> {
    let apart = |c: char| c.is_whitespace() || "(){}[];,".contains(c);
    line.split(apart).filter(|word| !word.is_empty())
}

/// Every file of every `specs/` folder below `crates/`.
pub fn spec_files(crates: &Path) -> BTreeSet<PathBuf> {
    let files = |folder: PathBuf| fs::read_dir(folder).into_iter().flatten();
    files(crates.to_path_buf())
        .flat_map(|entry| files(entry.unwrap().path().join("specs")))
        .map(|entry| entry.unwrap().path())
        .collect()
}
