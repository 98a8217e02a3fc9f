//! What stands between people and the engine.
//!
//! - [`input`]: how much of a file is read
//! - [`text`]: a deck as text, and back
//! - [`packed`]: a coupon of a text in packed decimal
//! - [`form`]: text told from a deck, and what is nearly text
//! - [`course`]: a deck command by command, and where it stops
//! - [`listing`]: a listing held to its deck, before a line of it is shown
//! - [`table`]: a deck and its listing as a table for people
//! - [`book`]: a book of positions as text, and the engine's line of it
//! - [`diagnosis`]: why a sheet was refused, with the place in the file
//! - [`quote`]: odd and long words as an error may show them
//! - [`output`]: standard output, where nothing is lost unseen
//! - [`program`]: what the programs share
//! - [`lock`]: one build at a time
//!
//! The commands and the refusals are those of the model, which has them from
//! document 01.

pub mod book;
pub mod course;
pub mod diagnosis;
pub mod form;
pub mod input;
pub mod listing;
pub mod lock;
pub mod output;
pub mod packed;
pub mod program;
pub mod quote;
pub mod table;
pub mod text;
