//! A sheet, its walk and its rows in one piece.

use crate::lent;
use crate::refusal::Refusal;
use crate::sheet::Sheet;
use crate::walk::{Value, Walk};
use std::fmt;

/// A walk that was opened, with its sheet and rows, so that none of them can
/// be exchanged on the way. The register is brought to each call: a number
/// may be withdrawn at any time, and then no figure is shown any more.
///
/// Two walks are equal if they are of equal sheets and stand at the same
/// step; the figures follow from that.
#[derive(Clone)]
pub struct OpenWalk<'a> {
    sheet: &'a Sheet,
    walk: Walk,
    defaults: Vec<u64>,
    premiums: Vec<u64>,
}

impl<'a> OpenWalk<'a> {
    pub(crate) fn open(sheet: &'a Sheet, register: &[u8]) -> Result<OpenWalk<'a>, Refusal> {
        let mut defaults = vec![0; sheet.row_length()];
        let mut premiums = defaults.clone();
        let (walk, answer) = lent::open(Walk::FRESH, sheet, register, &mut defaults, &mut premiums);
        answer.map(|()| OpenWalk {
            sheet,
            walk,
            defaults,
            premiums,
        })
    }

    /// Takes the walk so many steps back, 0 included, and gives its new
    /// position. Refusals 2, 9, 10 and 13.
    pub fn back(&mut self, register: &[u8], steps: usize) -> Result<usize, Refusal> {
        let (walk, answer) = lent::back(
            self.walk,
            self.sheet,
            register,
            &mut self.defaults,
            &mut self.premiums,
            steps,
        );
        self.walk = walk;
        answer
    }

    /// What a tranche, 0 to tranches (the index), is worth at a default
    /// count, 0 to names. Refusals 2, 9, 10 and 14.
    pub fn value(&self, register: &[u8], tranche: usize, count: usize) -> Result<Value, Refusal> {
        let (_, answer) = lent::value(
            self.walk,
            self.sheet,
            register,
            &self.defaults,
            &self.premiums,
            tranche,
            count,
        );
        answer
    }

    /// How much of the index, in millionths of the whole pool's, hedges the
    /// whole tranche against the next default, at a default count below
    /// names. It is negative only where an elapsed fraction of the sheet is
    /// not 0. Refusals 2, 9, 10 and 14 to 16.
    pub fn hedge_ratio(
        &self,
        register: &[u8],
        tranche: usize,
        count: usize,
    ) -> Result<i64, Refusal> {
        let (_, answer) = lent::hedge_ratio(
            self.walk,
            self.sheet,
            register,
            &self.defaults,
            &self.premiums,
            tranche,
            count,
        );
        answer
    }

    /// The step at which the walk stands; 0 is the root.
    pub fn position(&self) -> usize {
        self.walk.position
    }

    pub fn sheet(&self) -> &'a Sheet {
        self.sheet
    }

    /// The default legs, tranche by tranche, the index last, each by default
    /// count from 0 to names. Refusals 2, 9 and 10, as a value call has them.
    ///
    /// The register is borrowed with the figures, so that their number is not
    /// withdrawn while they are looked at:
    ///
    /// ```compile_fail,E0502
    /// fn after_withdrawal(walk: &lavroudem::OpenWalk, register: &mut [u8]) {
    ///     let defaults = walk.defaults(register).unwrap();
    ///     lavroudem::withdraw(register, 7).unwrap();
    ///     println!("{defaults:?}");
    /// }
    /// ```
    pub fn defaults<'b>(&'b self, register: &'b [u8]) -> Result<&'b [u64], Refusal> {
        self.value(register, 0, 0).map(|_| &self.defaults[..])
    }

    /// The premium legs, in the same order.
    ///
    /// ```compile_fail,E0502
    /// fn after_withdrawal(walk: &lavroudem::OpenWalk, register: &mut [u8]) {
    ///     let premiums = walk.premiums(register).unwrap();
    ///     lavroudem::withdraw(register, 7).unwrap();
    ///     println!("{premiums:?}");
    /// }
    /// ```
    pub fn premiums<'b>(&'b self, register: &'b [u8]) -> Result<&'b [u64], Refusal> {
        self.value(register, 0, 0).map(|_| &self.premiums[..])
    }
}

/// No register is at hand here, so no figure of the rows is compared.
impl PartialEq for OpenWalk<'_> {
    fn eq(&self, other: &OpenWalk) -> bool {
        self.sheet == other.sheet && self.walk == other.walk
    }
}

impl Eq for OpenWalk<'_> {}

/// No register is at hand here, so no figure of the rows is shown.
impl fmt::Debug for OpenWalk<'_> {
    fn fmt(&self, f: &mut fmt::Formatter<'_>) -> fmt::Result {
        let mut shown = f.debug_struct("OpenWalk");
        shown.field("number", &self.walk.number);
        shown.field("position", &self.walk.position);
        shown.finish_non_exhaustive()
    }
}
