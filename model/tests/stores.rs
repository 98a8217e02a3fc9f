//! Holds the engine's source to what a contract cannot say of the register.
//! A contract sees a register at entry and at exit; that a refused call stores
//! nothing in between is seen in the code. One function stores, one byte, once;
//! issue and withdraw call it only where they accept; every other function that
//! may write a register hands it on. The image of a packed coupon is held to the
//! same, and so are the line of a book, and the table and the list of a call for
//! turns.
//!
//! Nor does a contract say in which form a figure is worked out: that a
//! tranche's loss has three cases, and stands in one function. Or how often:
//! that the period of a step is found once.

use std::collections::BTreeSet;
use std::fs;
use std::path::{Path, PathBuf};

/// The one function that stores into a register.
const STORE: &str = "issuing/src/lib.rt: store";

/// The two that call it, and how: `store` stands behind the `?` that hands a
/// refusal back.
const CALLS: [(&str, &str); 2] = [
    (
        "issuing/src/lib.rt: issue",
        "judge(register, number, Status::Unissued)?;
         store(register, number, LIVE);
         Ok(())",
    ),
    (
        "issuing/src/lib.rt: withdraw",
        "judge(register, number, Status::Live)?;
         store(register, number, CLEARED);
         Ok(())",
    ),
];

/// The one that judges. It may only read.
const JUDGE: &str = "issuing/src/lib.rt: judge";

/// The others that may write a register, and the calls that they hand it to.
const HANDS_ON: [(&str, &[&str]); 11] = [
    (
        "export/src/lib.rt: lavroudem_issue",
        &["issuing::issue(register)"],
    ),
    (
        "export/src/lib.rt: lavroudem_withdraw",
        &["issuing::withdraw(register)"],
    ),
    ("orders/src/lib.rt: issue", &["issuing::issue(register)"]),
    (
        "orders/src/lib.rt: withdraw",
        &["issuing::withdraw(register)"],
    ),
    (
        "orders/src/lib.rt: act",
        &[
            "issue(register)",
            "withdraw(register)",
            "rooms::forward(register)",
            "call(register)",
        ],
    ),
    ("execution/src/lib.rt: obey", &["orders::act(register)"]),
    ("execution/src/lib.rt: execute", &["obey(register)"]),
    (
        "execution/src/lib.rt: execute_and_print",
        &["execute(register)"],
    ),
    (
        "interpreter/src/lib.rt: interpret",
        &["execution::execute_and_print(register)"],
    ),
    (
        "deck/src/lib.rt: run_on",
        &["interpreter::interpret(register)"],
    ),
    (
        "export/src/lib.rt: lavroudem_run_on",
        &["deck::run_on(register)"],
    ),
];

/// The one function of the engine with a register of its own.
const OWNS: (&str, &str) = ("deck/src/lib.rt: run", "run_on(&mut register)");

/// The trials are a caller, and make up registers and steps left of their own.
const TRIALS: [&str; 4] = ["trial/", "trial_calls/", "trial_turns/", "trials/"];

/// So are the tests of a crate, which stand in no build of it.
const TESTS: &str = "execution/src/tests.rt";

// ---- the source, as words

/// A function: its place and name, its parameters as name and type, its body.
struct Function {
    place: String,
    parameters: Vec<(String, String)>,
    body: Vec<String>,
}

fn crates() -> PathBuf {
    Path::new(env!("CARGO_MANIFEST_DIR")).join("../crates")
}

fn sources_below(folder: &Path, found: &mut Vec<PathBuf>) {
    for entry in fs::read_dir(folder).unwrap() {
        let path = entry.unwrap().path();
        if path.is_dir() {
            sources_below(&path, found);
        } else if path.extension().is_some_and(|ending| ending == "rt") {
            found.push(path);
        }
    }
}

fn sources() -> Vec<PathBuf> {
    let mut found = Vec::new();
    for entry in fs::read_dir(crates()).unwrap() {
        let folder = entry.unwrap().path().join("src");
        if folder.is_dir() {
            sources_below(&folder, &mut found);
        }
    }
    found.sort();
    found
}

/// Names and numbers whole, each other mark by itself. Comments and texts are left out.
fn words(text: &str) -> Vec<String> {
    let is_name = |c: char| c.is_alphanumeric() || c == '_';
    let mut words: Vec<String> = Vec::new();
    for line in text.lines() {
        let line = line.split("//").next().unwrap();
        let outside = line.split('"').step_by(2);
        for part in outside {
            let mut joins = false;
            for c in part.chars() {
                if is_name(c) && joins {
                    words.last_mut().unwrap().push(c);
                } else if !c.is_whitespace() {
                    words.push(c.to_string());
                }
                joins = is_name(c);
            }
        }
    }
    words
}

/// The place behind the bracket that closes the one at `open`.
fn behind(words: &[String], open: usize) -> usize {
    let mut depth = 0;
    for (at, word) in words.iter().enumerate().skip(open) {
        match word.as_str() {
            "(" | "[" | "{" => depth += 1,
            ")" | "]" | "}" => depth -= 1,
            _ => {}
        }
        if depth == 0 {
            return at + 1;
        }
    }
    panic!("a bracket is left open");
}

/// Splits at the commas that stand in no bracket.
fn parameters(words: &[String]) -> Vec<(String, String)> {
    let mut parts = vec![String::new()];
    let mut depth = 0;
    let mut before = "";
    for word in words {
        match word.as_str() {
            "(" | "[" | "{" | "<" => depth += 1,
            ")" | "]" | "}" => depth -= 1,
            ">" if before != "-" => depth -= 1,
            _ => {}
        }
        before = word;
        if word == "," && depth == 0 {
            parts.push(String::new());
        } else {
            let part = parts.last_mut().unwrap();
            *part = format!("{part} {word}").trim().to_string();
        }
    }
    let pair = |part: &String| {
        let (name, kind) = part.split_once(" : ").unwrap_or((part, ""));
        (name.to_string(), kind.to_string())
    };
    parts
        .iter()
        .filter(|part| !part.is_empty())
        .map(pair)
        .collect()
}

/// Where the parameters of a function open, whose name stands at a place:
/// behind its type parameters, which may have brackets of their own.
fn opens(words: &[String], name: usize) -> usize {
    let mut depth = 0;
    for at in name + 1..words.len() {
        match words[at].as_str() {
            "<" => depth += 1,
            ">" if words[at - 1] != "-" => depth -= 1,
            "(" if depth == 0 => return at,
            _ => {}
        }
    }
    panic!("a function has no parameters");
}

fn functions_in(file: &str, words: &[String]) -> Vec<Function> {
    let mut found = Vec::new();
    for at in (0..words.len()).filter(|&at| words[at] == "fn") {
        let open = opens(words, at + 1);
        let close = behind(words, open);
        let mut start = close;
        // a contract's clauses have braces too
        loop {
            let mut heads = words[start..].iter();
            start += heads.position(|word| word == "{").unwrap();
            let clause = |word: &String| word == "ensures" || word == "requires";
            if !words[start - 2..start].iter().any(clause) {
                break;
            }
            start = behind(words, start);
        }
        found.push(Function {
            place: format!("{file}: {}", words[at + 1]),
            parameters: parameters(&words[open + 1..close - 1]),
            body: words[start + 1..behind(words, start) - 1].to_vec(),
        });
    }
    found
}

fn functions() -> Vec<Function> {
    let mut found = Vec::new();
    for path in sources() {
        let file = path.strip_prefix(crates()).unwrap().to_str().unwrap();
        if TRIALS.iter().any(|folder| file.starts_with(folder)) || file == TESTS {
            continue;
        }
        let text = fs::read_to_string(&path).unwrap();
        found.extend(functions_in(file, &words(&text)));
    }
    assert!(found.len() > 100, "the engine's functions are not found");
    found
}

fn function<'a>(functions: &'a [Function], place: &str) -> &'a Function {
    let found = functions.iter().find(|function| function.place == place);
    found.unwrap_or_else(|| panic!("no function {place}"))
}

impl Function {
    fn kind_of(&self, name: &str) -> Option<&str> {
        let found = self.parameters.iter().find(|(it, _)| it == name);
        found.map(|(_, kind)| kind.as_str())
    }

    fn may_write_register(&self) -> bool {
        self.kind_of("register") == Some("& mut [ u8 ]")
    }

    fn owns_register(&self) -> bool {
        let own = ["let", "mut", "register"];
        self.body.windows(3).any(|words| words == own)
    }

    /// Where the body names the register, and not the crate of that name.
    fn uses(&self) -> Vec<usize> {
        let named = |&at: &usize| {
            let path = self.body[at + 1..].starts_with(&two(":", ":"));
            let made = self.body[..at].ends_with(&two("let", "mut"));
            self.body[at] == "register" && !path && !made
        };
        (0..self.body.len()).filter(named).collect()
    }

    /// Whether a use is `register[..] = ..`.
    fn stores_at(&self, at: usize) -> bool {
        if self.body.get(at + 1).is_none_or(|word| word != "[") {
            return false;
        }
        let next = &self.body[behind(&self.body, at + 1)..];
        next.first().is_some_and(|word| word == "=") && !next.starts_with(&two("=", "="))
    }

    /// Each use as the call whose whole argument it is.
    fn handed(&self) -> Vec<String> {
        let uses = self.uses();
        uses.into_iter().map(|at| self.handed_at(at)).collect()
    }

    fn handed_at(&self, at: usize) -> String {
        let whole = "the register is used otherwise than as an argument";
        let lent = self.body[..at].ends_with(&two("&", "mut"));
        let start = if lent { at - 2 } else { at };
        let before = self.body[..start].last().map_or("", String::as_str);
        let after = self.body.get(at + 1).map_or("", String::as_str);
        let argument = ["(", ","].contains(&before) && [")", ","].contains(&after);
        assert!(argument, "{}: {whole}", self.place);
        let open = opened(&self.body, start - 1);
        assert_eq!(self.body[open], "(", "{}: {whole}", self.place);
        let lent = if lent { "&mut " } else { "" };
        format!("{}({lent}register)", path_before(&self.body, open))
    }
}

fn two(first: &str, second: &str) -> [String; 2] {
    [first.to_string(), second.to_string()]
}

/// The path of the function that is called at a bracket.
fn path_before(words: &[String], open: usize) -> String {
    let mut start = open - 1;
    while start >= 3 && [":", "."].contains(&words[start - 1].as_str()) {
        start -= if words[start - 1] == ":" { 3 } else { 2 };
    }
    words[start..open].concat()
}

/// The bracket that is open at a place.
fn opened(words: &[String], place: usize) -> usize {
    let mut depth = 0;
    for at in (0..=place).rev() {
        match words[at].as_str() {
            ")" | "]" | "}" => depth += 1,
            "(" | "[" | "{" if depth == 0 => return at,
            "(" | "[" | "{" => depth -= 1,
            _ => {}
        }
    }
    panic!("no bracket is open");
}

// ---- what is held

/// The loss of a tranche, by cases as T-03 has it.
const LOSS: (&str, &str) = (
    "cash/src/lib.rt: tranche_loss",
    "if loss <= lower {
         0
     } else if loss <= upper {
         loss - lower
     } else {
         upper - lower
     }",
);

/// The functions that take it from there; a recovery is a loss from the top.
const LOSS_TAKERS: [&str; 4] = [
    "cash/src/lib.rt: left_to_lose",
    "cash/src/lib.rt: tranche_recovery",
    "tables/src/lib.rt: payment_row",
    "tranches/src/lib.rt: loss_at",
];

#[test]
fn tranche_loss_has_three_cases() {
    let functions = functions();
    assert_eq!(function(&functions, LOSS.0).body, words(LOSS.1));
    let takes = |it: &&Function| it.body.iter().any(|word| word == "tranche_loss");
    let takers: Vec<&str> = functions
        .iter()
        .filter(takes)
        .map(|it| it.place.as_str())
        .collect();
    assert_eq!(takers, LOSS_TAKERS);
}

/// The two that look a period up, in each turn of their loop.
const PERIOD_FINDERS: [&str; 2] = [
    "backward/src/lib.rt: walk_with_tables",
    "forward/src/lib.rt: distribute",
];

#[test]
fn the_period_of_a_step_is_found_once() {
    let mut finders = Vec::new();
    for function in functions() {
        let places = |name: &str| function.body.iter().filter(|&it| it == name).count();
        let loops = places("while") + places("for");
        for _ in 0..places("hazards_from") {
            assert_eq!(loops, 1, "{} has another loop", function.place);
            finders.push(function.place.clone());
        }
    }
    assert_eq!(finders, PERIOD_FINDERS);
}

/// The functions that may write the image of a packed coupon, and how: one
/// stores, after another has judged that it may.
const IMAGE_WRITERS: [(&str, &str); 3] = [
    (
        "export/src/lib.rt: lavroudem_write_packed",
        "match packed::write(image, coupon) {
             Ok(()) => 0,
             Err(refusal) => refusal.into(),
         }",
    ),
    (
        "images/src/lib.rt: store_image",
        "image.copy_from_slice(&[
             digit_pair(coupon / 1_000_000),
             digit_pair(coupon / 10_000 % 100),
             digit_pair(coupon / 100 % 100),
             digit_pair(coupon % 100),
         ]);",
    ),
    (
        "packed/src/lib.rt: write",
        "judge_write(image, coupon)?;
         store_image(image, coupon);
         Ok(())",
    ),
];

/// Their judge. It may only read.
const IMAGE_JUDGE: &str = "packed/src/lib.rt: judge_write";

#[test]
fn a_refused_coupon_stores_nothing() {
    let functions = functions();
    let writes = |it: &&Function| it.kind_of("image") == Some("& mut [ u8 ]");
    let writers: Vec<&str> = functions
        .iter()
        .filter(writes)
        .map(|it| it.place.as_str())
        .collect();
    assert_eq!(writers, IMAGE_WRITERS.map(|(place, _)| place));
    for (place, body) in IMAGE_WRITERS {
        assert_eq!(function(&functions, place).body, words(body), "{place}");
    }
    let stores = |it: &&Function| it.body.iter().any(|word| word == "store_image");
    let callers: Vec<&str> = functions
        .iter()
        .filter(stores)
        .map(|it| it.place.as_str())
        .collect();
    assert_eq!(callers, [IMAGE_WRITERS[2].0]);
    let judge = function(&functions, IMAGE_JUDGE);
    assert_eq!(judge.kind_of("image"), Some("& [ u8 ]"));
}

/// The function that is lent the room of a book's line, and its exported call:
/// lists and room are only read before the line is stored.
const LINE_CALLS: [(&str, &str); 2] = [
    (
        "book/src/lib.rt: total",
        "if out.len() != SIZE {
             return Err(BookRefusal::Length);
         }
         if !totals::is_taken(nominals, values) {
             return Err(BookRefusal::Book);
         }
         Ok(store_line(out, totals::add_up(nominals, values)))",
    ),
    (
        "export/src/lib.rt: lavroudem_book",
        "match book::total(nominals, values, out) {
             Ok(length) => Booked { number: 0, length },
             Err(refusal) => Booked {
                 number: refusal.into(),
                 length: 0,
             },
         }",
    ),
];

/// The one that stores the line.
const LINE_STORE: &str = "book/src/lib.rt: store_line";

#[test]
fn a_refused_book_stores_nothing() {
    let functions = functions();
    for (place, body) in LINE_CALLS {
        assert_eq!(function(&functions, place).body, words(body), "{place}");
    }
    let writes = |it: &&Function| {
        it.place.starts_with("book/") && it.parameters.iter().any(|(_, kind)| kind.contains("mut"))
    };
    let writers: Vec<&str> = functions
        .iter()
        .filter(writes)
        .map(|it| it.place.as_str())
        .collect();
    assert_eq!(writers, [LINE_STORE, LINE_CALLS[0].0]);
    let stores = |it: &&Function| it.body.iter().any(|word| word == "store_line");
    let callers: Vec<&str> = functions
        .iter()
        .filter(stores)
        .map(|it| it.place.as_str())
        .collect();
    assert_eq!(callers, [LINE_CALLS[0].0]);
    for function in functions
        .iter()
        .filter(|it| it.place.starts_with("totals/"))
    {
        let reads = function
            .parameters
            .iter()
            .all(|(_, kind)| !kind.contains("mut"));
        assert!(reads, "{}", function.place);
    }
}

/// The functions that may write a turn table, its steps left or a list of
/// places, and how. `fill` stores, where the call is taken; the steps left are
/// a copy, and as many of it go back as `stored` says, which is none after a
/// refusal.
const TURN_WRITERS: [(&str, &str); 7] = [
    (
        "places/src/lib.rt: fill",
        "let room = list.len();
         let mut last = place;
         for (count, slot) in list.iter_mut().enumerate() {
             let Some(p) = choose(left, last) else {
                 return Served { count, last };
             };
             left[p] -= 1;
             *slot = p as u8;
             last = p;
         }
         Served { count: room, last }",
    ),
    (
        "places/src/lib.rt: serve",
        "if !is_taken(left, place, list.len()) {
             return Err(NotTaken);
         }
         Ok(fill(left, place, list))",
    ),
    (
        "places/src/lib.rt: serve_first",
        "if WALKS < n {
             return Err(NotTaken);
         }
         serve(&mut left[..n], place, list)",
    ),
    (
        "turns/src/lib.rt: copy_out",
        "for i in 0..count {
             left[i] = table[i].left;
         }",
    ),
    (
        "turns/src/lib.rt: copy_in",
        "for at in 0..count {
             table[at].left = left[at];
         }",
    ),
    (
        "turns/src/lib.rt: serve_with",
        "let n = table.len();
         let shown = places::shown(n);
         copy_out(table, left, shown);
         let answer = places::serve_first(left, n, place, list);
         let stored = places::stored(answer, shown);
         copy_in(table, left, stored);
         answer",
    ),
    (
        "turns/src/lib.rt: serve",
        "let mut left = [0; 16];
         serve_with(table, &mut left, place, list)",
    ),
];

/// How many steps left are copied in again.
const TURNS_STORED: (&str, &str) = (
    "places/src/lib.rt: stored",
    "match answer {
         Ok(_) => n,
         Err(_) => 0,
     }",
);

/// Those that judge and choose. They may only read.
const TURN_READERS: [&str; 3] = [
    "places/src/lib.rt: choose",
    "places/src/lib.rt: any_over",
    "places/src/lib.rt: is_taken",
];

/// The exported call. It hands table and list to the engine's.
const TURN_EXPORT: &str = "export/src/lib.rt: lavroudem_turns";

impl Function {
    /// The parameters of a call for turns that this one may write.
    fn turns_written(&self) -> Vec<&str> {
        let kinds = [
            "& mut [ u16 ]",
            "& mut [ Turn ]",
            "& mut [ turns : : Turn ]",
        ];
        let of_turns = |(name, kind): &&(String, String)| {
            kinds.contains(&kind.as_str()) || name == "list" && kind == "& mut [ u8 ]"
        };
        let written = self.parameters.iter().filter(of_turns);
        written.map(|(name, _)| name.as_str()).collect()
    }
}

#[test]
fn a_refused_call_for_turns_stores_nothing() {
    let functions = functions();
    let (mut writers, mut exported): (Vec<&str>, _) = (Vec::new(), 0);
    for function in &functions {
        let written = function.turns_written();
        if written.is_empty() {
            continue;
        }
        if function.place == TURN_EXPORT {
            assert_eq!(written, ["table", "list"]);
            let handed = words("turns::serve(table, place, list)");
            let calls = function.body.windows(handed.len());
            assert_eq!(calls.filter(|call| *call == handed).count(), 1);
            let named = |name: &str| function.body.iter().filter(|&it| it == name).count();
            assert_eq!((named("table"), named("list")), (1, 1));
            exported += 1;
            continue;
        }
        writers.push(&function.place);
    }
    assert_eq!(exported, 1);
    assert_eq!(writers, TURN_WRITERS.map(|(place, _)| place));
    for (place, body) in TURN_WRITERS.iter().chain([&TURNS_STORED]) {
        assert_eq!(function(&functions, place).body, words(body), "{place}");
    }
    for place in TURN_READERS {
        let reads = |(_, kind): &(String, String)| !kind.contains("mut");
        let kinds = &function(&functions, place).parameters;
        assert!(kinds.iter().all(reads), "{place}");
    }
    let fills = two("fill", "(");
    let calls = |it: &&Function| it.body.windows(2).any(|words| words == fills);
    // It is not for other crates.
    let source = fs::read_to_string(crates().join("places/src/lib.rt")).unwrap();
    assert!(source.contains("\nfn fill("));
    let callers: Vec<&str> = functions
        .iter()
        .filter(|it| it.place.starts_with("places/"))
        .filter(calls)
        .map(|it| it.place.as_str())
        .collect();
    assert_eq!(callers, ["places/src/lib.rt: serve"]);
}

/// A writable slice of anything but bytes and numbers of 64 bits is the steps
/// left of a turn table or the table, and called so.
#[test]
fn other_writable_slices_are_called_left_or_table() {
    let mut found = BTreeSet::new();
    for function in functions() {
        for (name, kind) in &function.parameters {
            if kind.contains("mut") && !kind.contains("u8") && !kind.contains("u64") {
                let of_turns = function.turns_written().contains(&name.as_str());
                assert!(of_turns, "{}: {name}: {kind}", function.place);
                found.insert(name.clone());
            }
        }
    }
    assert_eq!(found, BTreeSet::from(["left".into(), "table".into()]));
}

/// What a program's input is read into.
const READS: (&str, &str) = ("listing/src/main.rt: read_all", "input");

/// A writable slice of bytes is a register, the room of a listing or a book's
/// line, the image of a packed coupon or a list of places, and called so, but
/// for what is read into.
#[test]
fn writable_bytes_are_called_register_out_image_or_list() {
    for function in functions() {
        for (name, kind) in &function.parameters {
            let bytes = kind.contains("mut") && kind.contains("u8");
            let called = ["register", "out", "image", "list"].contains(&name.as_str())
                || (function.place.as_str(), name.as_str()) == READS;
            let plain = called && kind == "& mut [ u8 ]";
            assert!(!bytes || plain, "{}: {name}: {kind}", function.place);
            let known = ["& mut [ u8 ]", "& [ u8 ]"].contains(&kind.as_str());
            assert!(name != "register" || known, "{}: {kind}", function.place);
        }
    }
}

#[test]
fn functions_that_may_write_a_register_are_these() {
    let mut expected = BTreeSet::from([STORE]);
    expected.extend(CALLS.map(|(place, _)| place));
    expected.extend(HANDS_ON.map(|(place, _)| place));
    let functions = functions();
    let writing = functions
        .iter()
        .filter(|function| function.may_write_register());
    let found: Vec<&str> = writing.map(|function| function.place.as_str()).collect();
    assert_eq!(found.len(), expected.len(), "{found:?}");
    assert_eq!(BTreeSet::from_iter(found), expected);
}

#[test]
fn one_function_stores_one_byte_once() {
    let functions = functions();
    let store = function(&functions, STORE);
    assert_eq!(store.body, words("register[number as usize] = byte;"));
    let mut stores = Vec::new();
    for function in &functions {
        for at in function.uses() {
            if function.stores_at(at) {
                stores.push(function.place.as_str());
            }
        }
    }
    assert_eq!(stores, [STORE]);
}

#[test]
fn only_an_accepted_call_stores() {
    let functions = functions();
    for (place, body) in CALLS {
        assert_eq!(function(&functions, place).body, words(body), "{place}");
    }
    let calls = two("store", "(");
    let stores = |function: &&Function| function.body.windows(2).any(|words| words == calls);
    let callers: Vec<&str> = functions
        .iter()
        .filter(stores)
        .map(|function| function.place.as_str())
        .collect();
    assert_eq!(callers, CALLS.map(|(place, _)| place));
    let judge = function(&functions, JUDGE);
    assert_eq!(judge.kind_of("register"), Some("& [ u8 ]"));
}

#[test]
fn other_functions_hand_the_register_on() {
    let functions = functions();
    for (place, calls) in HANDS_ON {
        assert_eq!(function(&functions, place).handed(), calls, "{place}");
    }
    let owners: Vec<&Function> = functions.iter().filter(|it| it.owns_register()).collect();
    for owner in &owners {
        assert_eq!(owner.place, OWNS.0);
        assert_eq!(owner.handed(), [OWNS.1], "{}", owner.place);
    }
    assert_eq!(owners.len(), 1);
}

#[test]
fn the_tests_of_a_crate_stand_in_no_build() {
    let root = fs::read_to_string(crates().join("execution/src/lib.rt")).unwrap();
    assert_eq!(root.matches("mod tests").count(), 1);
    assert!(root.contains("\n#[cfg(test)]\nmod tests;\n"));
}

#[test]
fn a_generic_function_is_read_by_its_own_parameters() {
    let text = "fn lend<F: Fn(usize, &mut [u64]) -> bool>(work: F, register: &mut [u8]) -> bool {
        work(1, register)
    }";
    let found = functions_in("any", &words(text));
    assert_eq!(found.len(), 1);
    assert!(found[0].may_write_register());
}
