//! Holds `docs/PROMISES.md` to the tree: every cited file and name is there,
//! every count is right, and the amortisation and the worked hedge have the
//! model's figures.

mod arithmetic;
mod common;
mod definitions;

use arithmetic::commas;
use definitions::{counts, spec_files, Definitions, Key};
use lavroudem_model::cash::{
    default_payment, half, loss_case, outstanding, pool_loss, tranche_loss, LossCase,
};
use lavroudem_model::sheet::{Sheet, B};
use lavroudem_model::tree::{
    default_leg, hedge_ratio, jump, net_value, premium_leg, ratio_in_millionths, roll_back, Rows,
};
use lavroudem_model::worked;
use std::collections::{BTreeMap, BTreeSet};
use std::fs;
use std::path::{Path, PathBuf};

fn root() -> PathBuf {
    Path::new(env!("CARGO_MANIFEST_DIR")).join("..")
}

fn page() -> String {
    fs::read_to_string(root().join("docs/PROMISES.md")).unwrap()
}

// ---- citations

/// A file that the page names, with the names that it is said to declare and
/// the text right behind the citation.
struct Citation<'a> {
    path: &'a str,
    names: Vec<&'a str>,
    behind: &'a str,
}

/// Code spans that name a file: `path` or `path: name, name`.
fn citations(page: &str) -> Vec<Citation<'_>> {
    let parts: Vec<&str> = page.split('`').collect();
    assert_eq!(parts.len() % 2, 1, "a code span is left open");
    let pairs = parts.chunks_exact(2); // prose, then a span
    pairs.filter_map(|pair| cited(page, pair[1])).collect()
}

fn cited<'a>(page: &'a str, span: &'a str) -> Option<Citation<'a>> {
    let (path, names) = span.split_once(": ").unwrap_or((span, ""));
    let ending = Path::new(path).extension()?.to_str()?;
    let is_file = ["antt", "rt", "edit", "rs", "md"].contains(&ending);
    let start = span.as_ptr() as usize - page.as_ptr() as usize;
    (is_file && path.contains('/') && !path.contains(' ')).then(|| Citation {
        path,
        names: names.split(", ").filter(|name| !name.is_empty()).collect(),
        behind: &page[start + span.len() + 1..],
    })
}

/// A path stands below the repository's root, or below `crates/`.
fn place(path: &str) -> PathBuf {
    let at_root = root().join(path);
    if at_root.exists() {
        at_root
    } else {
        root().join("crates").join(path)
    }
}

/// Whether a line declares a name: nothing but marks stands before it.
fn declares(line: &str, name: &str) -> bool {
    let marks = [
        "unfoldable",
        "abbrev",
        "pub",
        "crate",
        "record",
        "data",
        "fn",
        "struct",
        "enum",
        "const",
        "ensures",
        "mod",
        "extern",
        "\"C\"",
    ];
    let apart = |c: char| c.is_whitespace() || "(){}<>;,".contains(c);
    let mut words = line.split(apart).filter(|word| !word.is_empty());
    words.find(|word| !marks.contains(word)) == Some(name)
}

#[test]
fn cited_files_declare_the_cited_names() {
    let page = page();
    let citations = citations(&page);
    assert!(citations.len() > 100, "the page's citations are not found");
    for citation in citations {
        let path = place(citation.path);
        let text = fs::read_to_string(&path);
        let text = text.unwrap_or_else(|_| panic!("no file {}", citation.path));
        for name in citation.names {
            let found = text.lines().any(|line| declares(line, name));
            assert!(found, "{} declares no {name}", citation.path);
        }
    }
}

// ---- counts

/// `(12 definitions, 34 lines)` behind a citation.
fn counted(behind: &str) -> Option<(usize, usize)> {
    let inside = behind.strip_prefix(" (")?.split_once(')')?.0;
    let (definitions, lines) = inside.split_once(" definitions, ")?;
    let lines = lines.strip_suffix(" lines")?;
    Some((definitions.parse().ok()?, lines.parse().ok()?))
}

/// Run with `--nocapture` it prints the definitions below each statement.
#[test]
fn statements_rest_on_as_much_as_is_said() {
    let page = page();
    let definitions = Definitions::read(&root().join("crates"));
    let mut wrong = Vec::new();
    let mut found = 0;
    for citation in citations(&page) {
        let Some(said) = counted(citation.behind) else {
            continue;
        };
        let key = (citation.path.to_string(), citation.names[0].to_string());
        let below = definitions.below(key.clone());
        let is = (below.len(), definitions.lines(&below));
        print_below(&key, is, &below);
        if is != said {
            wrong.push((key, is));
        }
        found += 1;
    }
    assert!(found > 10, "the page's counts are not found");
    assert!(wrong.is_empty(), "other counts: {wrong:?}");
}

fn print_below(key: &Key, count: (usize, usize), below: &BTreeSet<Key>) {
    println!(
        "{}: {} ({} definitions, {} lines)",
        key.0, key.1, count.0, count.1
    );
    let mut files: BTreeMap<&str, Vec<&str>> = BTreeMap::new();
    for (file, name) in below {
        files.entry(file).or_default().push(name);
    }
    for (file, names) in files {
        println!("    {file}: {}", names.join(", "));
    }
}

/// All that the statements with a count on the page rest on: those of the
/// deck and the exported calls, or the others.
fn rested_on(page: &str, definitions: &Definitions, of_the_listing: bool) -> BTreeSet<Key> {
    let counted = citations(page)
        .into_iter()
        .filter(|citation| counted(citation.behind).is_some())
        .map(|citation| (citation.path.to_string(), citation.names[0].to_string()));
    counted
        .filter(|(file, _)| {
            ["deck/", "listings/", "machine/", "returns/", "export/"].iter().any(|owner| file.starts_with(owner)) == of_the_listing
        })
        .flat_map(|key| definitions.below(key))
        .collect()
}

/// Rows of the page's table of files: path, lines, lines under the promise,
/// lines under the listing alone, purpose. With `--nocapture` it prints them.
#[test]
fn table_of_definitions_is_whole() {
    let crates = root().join("crates");
    let page = page();
    let definitions = Definitions::read(&crates);
    let promise = rested_on(&page, &definitions, false);
    let mut listing = rested_on(&page, &definitions, true);
    listing.retain(|key| !promise.contains(key));
    let mut missing = Vec::new();
    let mut totals = [0; 3];
    for path in spec_files(&crates) {
        let file = path.strip_prefix(&crates).unwrap().to_str().unwrap();
        if file.ends_with("/Lib.antt") {
            continue; // names the others, and defines nothing
        }
        let text = fs::read_to_string(&path).unwrap();
        let all = text.lines().filter(|line| counts(line)).count();
        let under = |keys: &BTreeSet<Key>| {
            let here = keys.iter().filter(|key| key.0 == file).cloned().collect();
            definitions.lines(&here)
        };
        let lines = [all, under(&promise), under(&listing)];
        for (total, lines) in totals.iter_mut().zip(lines) {
            *total += lines;
        }
        let row = format!("| `{file}` | {} | {} | {} |", lines[0], lines[1], lines[2]);
        println!("{row}");
        if !page.contains(&row) {
            missing.push(row);
        }
    }
    let [all, promise, listing] = totals;
    let sum = format!(
        "{all} lines in all, {promise} under the promise, {listing} more under the listing"
    );
    println!("{sum}");
    assert!(missing.is_empty(), "the table lacks {missing:#?}");
    assert!(page.contains(&sum), "the page lacks \"{sum}\"");
}

/// Names of the kit's libraries that a definition brings in, without the
/// places of their operands.
fn kit_names(text: &str) -> Vec<&str> {
    let kits = ["use Rattle.std.", "use Rattle.core.", "use Prim.", "use mathlib.", "use lib."];
    let brought = text.lines().filter(|line| kits.iter().any(|kit| line.starts_with(kit)));
    let lists = brought.map(|line| line.split_once(".{").unwrap().1.strip_suffix('}').unwrap());
    let names = lists.flat_map(|list| list.split(", "));
    names.map(|name| name.trim_matches(['_', '◌'])).collect()
}

/// What the kit means by a name must be believed too, so the page has them all.
#[test]
fn names_of_the_kit_are_on_the_page() {
    let page = page();
    let (_, list) = page.split_once("And what the kit's libraries mean by their names").unwrap();
    let (list, _) = list.split_once("\n### ").unwrap();
    let told: BTreeSet<&str> = list.split('`').skip(1).step_by(2).collect();
    let mut brought = BTreeSet::new();
    for path in spec_files(&root().join("crates")) {
        let text = fs::read_to_string(&path).unwrap();
        brought.extend(kit_names(&text).into_iter().map(String::from));
    }
    assert!(brought.len() > 40, "{brought:?}");
    let untold: Vec<_> = brought.iter().filter(|name| !told.contains(name.as_str())).collect();
    assert!(untold.is_empty(), "the page does not name {untold:?}");
}

// ---- the amortisation

/// A pool of 125 with a recovery of 40 %, and tranches of 3 % each.
fn amortised() -> Sheet {
    let mut sheet = common::plain_sheet(125, 1, 2);
    sheet.recovery = 400_000_000;
    sheet.attachments = vec![0, 30_000_000, 60_000_000];
    sheet
}

/// The case of a tranche, its loss and its outstanding nominal.
fn amortised_cells(sheet: &Sheet, tranche: usize, count: usize) -> Vec<String> {
    let [lower, upper] = [tranche, tranche + 1].map(|point| sheet.attachments[point].into());
    let case = match loss_case(pool_loss(sheet, count), lower, upper) {
        LossCase::Below => "below",
        LossCase::Inside => "inside",
        LossCase::Above => "above",
    };
    let figures = [tranche_loss, outstanding].map(|figure| figure(sheet, tranche, count));
    let figures = figures.map(|figure| commas(figure as i128));
    vec![case.into(), figures.join(" | ")]
}

#[test]
fn amortisation_is_the_models() {
    let sheet = amortised();
    let page = page();
    let percent = |point: usize| sheet.attachments[point] / 10_000_000;
    let [low, middle, high] = [0, 1, 2].map(percent);
    let of = |lower, upper| format!("{lower} to {upper} % | M, its loss | O, outstanding");
    let header = format!(
        "| Defaults | L, pool loss | {} | {} |",
        of(low, middle),
        of(middle, high)
    );
    let lines = page.lines().skip_while(|line| *line != header);
    let rows: Vec<&str> = lines
        .skip(2)
        .take_while(|line| line.starts_with('|'))
        .collect();
    let right = |count: usize| {
        let mut cells = vec![count.to_string(), commas(pool_loss(&sheet, count) as i128)];
        cells.extend(amortised_cells(&sheet, 0, count));
        cells.extend(amortised_cells(&sheet, 1, count));
        format!("| {} |", cells.join(" | "))
    };
    let counts = [0, 1, 5, 6, 7, 12, 13, 125];
    assert_eq!(rows, counts.map(right));
    let paid = |tranche| commas(default_payment(&sheet, tranche, 6) as i128);
    let (names, recovered) = (sheet.names, sheet.recovery / 10_000_000);
    let cost = commas(pool_loss(&sheet, 1) as i128);
    assert_on_page(&[
        format!("A pool of {names} names with a recovery of {recovered} %."),
        format!(
            "costs it {} % of one name in {names}, {cost} units; ",
            100 - recovered
        ),
        format!("{} units are 1 % of the pool.", commas(B as i128 / 100)),
        format!("The tranche from {low} to {middle} % is the first to lose;"),
        format!("the one from {middle} to {high} % loses once {middle} % are gone."),
        format!(
            "The seventh default takes {} units from the first tranche, its last, ",
            paid(0)
        ),
        format!("and {} from the second.", paid(1)),
    ]);
}

// ---- the worked hedge

/// Millionths of a euro in euro with so many decimals, which must be enough.
fn euro(millionths: i128, places: u32) -> String {
    let step = 10_i128.pow(6 - places);
    assert_eq!(millionths % step, 0, "more decimals are needed");
    let size = millionths.abs();
    let fraction = size % 1_000_000 / step;
    let sign = if millionths < 0 { "-" } else { "" };
    let width = places as usize;
    format!("{sign}{}.{fraction:0width$}", commas(size / 1_000_000))
}

fn assert_on_page(lines: &[String]) {
    let page = page();
    for line in lines {
        assert!(page.contains(line), "the page lacks: {line}");
    }
}

fn rows_at(sheet: &Sheet, position: usize) -> Rows {
    let mut rows = Rows::zero(sheet);
    roll_back(sheet, &mut rows, sheet.steps, sheet.steps - position);
    rows
}

/// The value that a row of one of the page's two tables ends with.
#[test]
fn rows_of_the_worked_deck_are_the_models() {
    let sheet = worked::sheet();
    let page = page();
    for position in [1, 0] {
        let rows = rows_at(&sheet, position);
        for (name, tranche) in [("tranche", 0), ("index", 1)] {
            for count in [0, 1] {
                let start = format!("| D and A of the {name} at ({position}, {count}) |");
                let line = page.lines().find(|line| line.starts_with(&start));
                let line = line.unwrap_or_else(|| panic!("no row {start}"));
                let cells: Vec<&str> = line.split('|').map(str::trim).collect();
                let last = |cell: &str| cell.rsplit("= ").next().unwrap().to_string();
                let default = default_leg(&sheet, &rows, tranche, count) as i128;
                let premium = premium_leg(&sheet, &rows, tranche, count) as i128;
                assert_eq!(last(cells[2]), commas(default), "{start}");
                assert_eq!(last(cells[3]), commas(premium), "{start}");
            }
        }
    }
}

#[test]
fn losses_of_the_worked_deck_are_the_models() {
    let sheet = worked::sheet();
    let list = |figure: &dyn Fn(usize) -> u128| {
        let figures: Vec<String> = (0..=2).map(|k| commas(figure(k) as i128)).collect();
        figures.join(" | ")
    };
    let mut lines = vec![format!(
        "| L, pool loss | {} |",
        list(&|k| pool_loss(&sheet, k))
    )];
    for (name, tranche) in [("tranche", 0), ("index", 1)] {
        let loss = list(&|k| tranche_loss(&sheet, tranche, k));
        let left = list(&|k| outstanding(&sheet, tranche, k));
        lines.push(format!("| M of the {name}, its loss | {loss} |"));
        lines.push(format!("| O of the {name}, outstanding | {left} |"));
    }
    assert_on_page(&lines);
}

/// J as the page writes it out, from the count 0 at the root.
fn written_jump(name: &str, sheet: &Sheet, rows: &Rows, tranche: usize) -> String {
    let d = |count| commas(default_leg(sheet, rows, tranche, count) as i128);
    let a = |count| commas(premium_leg(sheet, rows, tranche, count) as i128);
    format!(
        "J of the {name} = 10,000,000 × ({} + {} - {}) - {} × ({} - {}) = {}",
        commas(default_payment(sheet, tranche, 0) as i128),
        d(1),
        d(0),
        commas(sheet.coupon(tranche) as i128),
        a(1),
        a(0),
        commas(jump(sheet, rows, tranche, 0)),
    )
}

#[test]
fn jumps_and_ratio_are_the_models() {
    let sheet = worked::sheet();
    let rows = rows_at(&sheet, 0);
    let ratio = hedge_ratio(&sheet, &rows, 0, 0).unwrap();
    let next = hedge_ratio(&sheet, &rows, 0, 1).unwrap();
    let [tranche, index] = [0, 1].map(|tranche| jump(&sheet, &rows, tranche, 0));
    let units = |jump: i128| commas(jump / 10_000_000);
    assert_eq!(ratio * 10 % 3, 0, "the tranche is three tenths of the pool");
    assert_on_page(&[
        written_jump("tranche", &sheet, &rows, 0),
        written_jump("index", &sheet, &rows, 1),
        format!("{} and {} units", units(tranche), units(index)),
        format!("0.{:08}..", tranche * 100_000_000 / index),
        format!("`delta 0 0` answers `delta 0 {ratio}`"),
        format!("`delta 0 1` answers `delta 0 {next}`"),
        format!("0.{ratio} of the pool"),
        format!("{} euro of index nominal", commas(ratio * 1_000)),
        format!("{} euro of index", euro(ratio * 10 / 3, 5)),
    ]);
}

/// The books at the next default: a row of the page for each line of them.
#[test]
fn books_at_the_next_default_are_the_models() {
    let sheet = worked::sheet();
    let rows = rows_at(&sheet, 0);
    let ratio = hedge_ratio(&sheet, &rows, 0, 0).unwrap();
    let row = |name: &str, tranche: i128, index: i128| {
        let sold = -tranche * 1_000_000;
        let bought = index * ratio;
        let cells = [sold, bought, sold + bought].map(|cell| euro(cell, 2));
        format!("| {name} | {} |", cells.join(" | "))
    };
    let paid = |tranche| default_payment(&sheet, tranche, 0) as i128;
    let worth = |tranche, count| net_value(&sheet, &rows, tranche, count) / 10_000_000;
    let gain = |tranche| jump(&sheet, &rows, tranche, 0) / 10_000_000;
    assert_on_page(&[
        row("Paid for the default", paid(0), paid(1)),
        row("Value before it", worth(0, 0), worth(1, 0)),
        row("Value after it", worth(0, 1), worth(1, 1)),
        row("Gain or loss", gain(0), gain(1)),
        format!("at most {} euro", euro(gain(1) / 2, 4)),
    ]);
    for tranche in [0, 1] {
        let change = worth(tranche, 1) - worth(tranche, 0);
        assert_eq!(paid(tranche) + change, gain(tranche));
    }
}

/// The index's premium legs at the root for other outstanding nominals, to
/// show what a wrong rule costs.
fn other_premium_legs(sheet: &Sheet, left: &[u128]) -> Vec<u128> {
    let mut legs = vec![0; left.len()];
    for step in (1..=sheet.steps).rev() {
        let with_payment = |k: usize| legs[k] + half(sheet.accrual(step) * left[k]);
        let expected = |k: usize| {
            let next = if k < sheet.names {
                with_payment(k + 1)
            } else {
                0
            };
            half(sheet.hazard(step, k) * next + sheet.survival(step, k) * with_payment(k))
        };
        let before = (0..left.len()).map(|k| half(sheet.discount(step) * expected(k)));
        legs = before.collect();
    }
    legs
}

#[test]
fn cost_of_wrong_ratios_is_the_models() {
    let sheet = worked::sheet();
    let rows = rows_at(&sheet, 0);
    let left: Vec<u128> = (0..=2).map(|k| B - pool_loss(&sheet, k)).collect();
    let legs = other_premium_legs(&sheet, &left);
    let right = [0, 1].map(|k| premium_leg(&sheet, &rows, 1, k) as i128);
    let moved = (legs[1] as i128 - legs[0] as i128) - (right[1] - right[0]);
    let index = jump(&sheet, &rows, 1, 0);
    let other = index - sheet.coupon(1) as i128 * moved;
    let wrong = ratio_in_millionths(jump(&sheet, &rows, 0, 0), other).unwrap();
    let tranche_loss = jump(&sheet, &rows, 0, 0) / 10_000_000 * 1_000_000;
    let bought = wrong * (index / 10_000_000);
    assert_on_page(&[
        format!("0.{wrong}"),
        format!("{} euro too much", euro(bought - tranche_loss, 2)),
        format!(
            "{} euro, just over four basis points",
            euro(325 * (index / 10_000_000), 3)
        ),
    ]);
    assert!(325 * (index / 10_000_000) > 4 * 300_000_000 / 10_000 * 1_000_000);
}
