//! Reference model of the tranche valuation engine.
//!
//! Written from document 01 and the requests that changed it alone, so that
//! it can bear witness about the engine. It prefers wide integers and fresh
//! vectors to speed.
//!
//! - [`refusal`]: the reasons a call can be turned down
//! - [`sheet`]: what the desk brings, and the checks on it
//! - [`cash`]: rounding, losses, outstanding notional, payments
//! - [`tree`]: rolling rows back, net values, hedge ratios, default counts
//! - [`packed`]: coupons as the ledger sends them, in packed decimal
//! - [`book`]: one figure for the positions of a whole book
//! - [`turns`]: whose turn it is among the walks of a terminal
//! - [`register`]: which sheet numbers are live, and what a power loss leaves
//! - [`walk`]: the calls with everything lent to them and all their refusals
//! - [`commands`]: the commands of a deck, by byte and by word
//! - [`deck`]: the command deck and its printed listing
//! - [`natural`]: whole numbers of any size
//! - [`exact`]: unrounded values by brute force over lists of moves
//! - [`trials`]: the trial entries that the engine's program runs
//! - [`worked`]: small sheets: the one whose figures document 01 prints, the
//!   same with premium up to a default, and one of two periods
//! - [`random`]: random sheets by seed
//! - [`decks`]: random decks by seed
//! - [`fast`]: the calls once more, written for speed, for the benchmark
//! - `engine`: the proved engine, with the feature of that name
//!
//! Words: a tranche is a "slice" of document 01, and attachment points are
//! its "cuts". Tranche number r stands for the index throughout.

pub mod book;
pub mod cash;
pub mod commands;
pub mod deck;
pub mod decks;
#[cfg(feature = "engine")]
pub mod engine;
pub mod exact;
pub mod fast;
pub mod natural;
pub mod packed;
pub mod random;
pub mod refusal;
pub mod register;
pub mod sheet;
pub mod tree;
pub mod trials;
pub mod turns;
pub mod walk;
pub mod worked;
