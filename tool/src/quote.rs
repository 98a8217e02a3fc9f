//! Words as an error may show them: no control character reaches a terminal,
//! and no long word buries what is said of it.

/// The most characters that are shown of a word.
const MOST_SHOWN: usize = 40;

/// A word of a file, cut and escaped.
pub fn word(word: &str) -> String {
    let mut shown: String = word.chars().take(MOST_SHOWN).flat_map(plain).collect();
    if word.chars().nth(MOST_SHOWN).is_some() {
        shown += "...";
    }
    shown
}

/// A file's name, escaped. It is the user's own, so it stays whole.
pub fn name(name: &str) -> String {
    name.chars().flat_map(plain).collect()
}

/// What a terminal shows stands as it is; all else as `\u{1b}` or `\t`.
fn plain(c: char) -> Vec<char> {
    match c {
        '\'' | '"' | '\\' => vec![c],
        _ => c.escape_debug().collect(),
    }
}
