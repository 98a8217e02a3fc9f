//! Edits that the check must refuse, several in one file.
//!
//! A check of a crate costs the same for one edit as for many, so edits that
//! break different things share a file, a batch. Each stands there under a
//! comment that ends in the place where it must be refused:
//!
//! ```text
//! # one_rounding: the chance is rounded, and then the discount; refused at: proofs/Rolls.antt rolled_entry
//! file: specs/Kernels.antt
//! old: ..
//! new: ..
//! ```
//!
//! A place is a file below the crate's folder, and in it the name of a law or
//! of a need; without a name, any error in that file. The check must say of
//! each place that it fails by itself: a place that only lacks what failed
//! elsewhere does not count. So an edit of a batch that would pass is found.

pub mod batch;
pub mod log;
pub mod trial;
