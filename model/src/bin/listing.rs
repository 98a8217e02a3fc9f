//! Reads a deck from standard input and prints its listing: the twin of the
//! engine's own program.

use lavroudem_model::deck::listing;
use std::io::{self, Read, Write};

fn main() -> io::Result<()> {
    let mut deck = Vec::new();
    io::stdin().read_to_end(&mut deck)?;
    io::stdout().write_all(&listing(&deck))
}
