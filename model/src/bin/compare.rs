//! Compares the listings of engine and model on random decks:
//! `compare --decks N --seed S`. Every hundredth deck is an oversized one
//! and every thousandth the largest tree.

use lavroudem_model::deck::{listing, MAX_DECK};
use lavroudem_model::random::Random;
use lavroudem_model::{decks, engine};
use std::env;
use std::process::ExitCode;

fn main() -> ExitCode {
    let (Some(number), Some(seed)) = (option("--decks", 3_000), option("--seed", 1)) else {
        eprintln!("usage: compare [--decks N] [--seed S]");
        return ExitCode::from(2);
    };
    let mut random = Random::new(seed);
    let mut out = vec![0; engine::deck_room(MAX_DECK)];
    for at in 0..number {
        let deck = match at {
            _ if at % 1_000 == 999 => decks::longest(&mut random),
            _ if at % 100 == 99 => decks::oversized(&mut random),
            _ => decks::any(&mut random),
        };
        if engine::run_deck(&deck, &mut out) != Some(&listing(&deck)) {
            println!("deck {at} of seed {seed} differs: {deck:02X?}");
            return ExitCode::FAILURE;
        }
    }
    println!("{number} decks of seed {seed}: all listings equal");
    ExitCode::SUCCESS
}

/// The number after a word of the command line; none if it is no number.
fn option(word: &str, default: u64) -> Option<u64> {
    let words: Vec<String> = env::args().collect();
    match words.iter().position(|found| found == word) {
        Some(at) => words.get(at + 1)?.parse().ok(),
        None => Some(default),
    }
}
