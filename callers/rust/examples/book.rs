//! Adds up a book and prints its line; with the positions turned round it is
//! the same. Then tries books that are refused, which leave the line as it is.
//! The first two positions are of `hedge.rs`: a tranche, and the index that
//! hedges it.

use lavroudem::{book, BOOK_LENGTH};

const NOMINALS: [i64; 4] = [1_000_000, -724_386, 250_000, -40];
const VALUES: [i64; 4] = [
    324_300_000_000_000,
    194_250_000_000_000,
    -90_000_000_000_000_001,
    -7,
];

fn main() {
    let mut raised = NOMINALS;
    raised[0] += 1;
    let mut buffer = Buffer {
        out: [0; BOOK_LENGTH],
        line: 0,
    };
    buffer.print_book("no positions", &[], &[], BOOK_LENGTH);
    buffer.print_book("four positions", &NOMINALS, &VALUES, BOOK_LENGTH);
    let (nominals, values) = (turned(NOMINALS), turned(VALUES));
    buffer.print_book("turned round", &nominals, &values, BOOK_LENGTH);
    buffer.print_book("one pool more", &raised, &VALUES, BOOK_LENGTH);
    buffer.print_book("a value short", &NOMINALS, &VALUES[..3], BOOK_LENGTH);
    buffer.print_book("a byte short", &NOMINALS, &VALUES, BOOK_LENGTH - 1);
}

fn turned(mut list: [i64; 4]) -> [i64; 4] {
    list.reverse();
    list
}

struct Buffer {
    out: [u8; BOOK_LENGTH],
    /// How much of it the last line takes.
    line: usize,
}

impl Buffer {
    fn print_book(&mut self, what: &str, nominals: &[i64], values: &[i64], room: usize) {
        let stays = match book(nominals, values, &mut self.out[..room]) {
            Ok(length) => {
                self.line = length;
                String::new()
            }
            Err(refusal) => format!("{refusal}; the line stays "),
        };
        let line = str::from_utf8(&self.out[..self.line]).expect("digits, letters and blanks");
        print!("{what}: {stays}{line}");
    }
}
