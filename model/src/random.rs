//! Random sheets by seed, for the trials: a fixed seed gives the same trials
//! on every run.

use crate::sheet::{Sheet, MAX_PERIODS};
use std::collections::BTreeSet;

/// B of document 01, in the type of the sheet's fields.
const B: u64 = 1_000_000_000;

/// SplitMix64.
pub struct Random {
    state: u64,
}

impl Random {
    pub fn new(seed: u64) -> Random {
        Random { state: seed }
    }

    pub fn draw(&mut self) -> u64 {
        self.state = self.state.wrapping_add(0x9E37_79B9_7F4A_7C15);
        let mut z = self.state;
        z = (z ^ (z >> 30)).wrapping_mul(0xBF58_476D_1CE4_E5B9);
        z = (z ^ (z >> 27)).wrapping_mul(0x94D0_49BB_1331_11EB);
        z ^ (z >> 31)
    }

    /// Holds in one of `n` draws.
    pub fn one_in(&mut self, n: u64) -> bool {
        self.draw().is_multiple_of(n)
    }

    /// Below `n`.
    pub fn below(&mut self, n: usize) -> usize {
        (self.draw() % n as u64) as usize
    }

    /// From `low` to `high`, both included.
    pub fn between(&mut self, low: u64, high: u64) -> u64 {
        low + self.draw() % (high - low + 1)
    }

    /// As `between`, but half of the draws lie at an end or beside it.
    pub fn with_edges(&mut self, low: u64, high: u64) -> u64 {
        match self.between(0, 9) {
            0 | 1 => low,
            2 | 3 => high,
            4 => (low + 1).min(high),
            5 => high.saturating_sub(1).max(low),
            _ => self.between(low, high),
        }
    }

    pub fn list(&mut self, length: usize, low: u64, high: u64) -> Vec<u64> {
        (0..length).map(|_| self.with_edges(low, high)).collect()
    }

    fn recovery(&mut self) -> u64 {
        match self.between(0, 2) {
            0 => self.between(B - 30, B), // losses of a few units
            _ => self.with_edges(0, B),
        }
    }

    fn attachments(&mut self, tranches: usize) -> Vec<u64> {
        let highest = [12, 1_000, B][self.between(0, 2) as usize];
        let mut points = BTreeSet::new();
        while points.len() < tranches + 1 {
            points.insert(self.with_edges(0, highest));
        }
        points.into_iter().collect()
    }

    /// The starts of one period, of two or three, or of as many as there may
    /// be. Half of the later ones lie at an end of the tree or beside it.
    fn starts(&mut self, steps: usize) -> Vec<u64> {
        let most = steps.min(MAX_PERIODS) as u64;
        let periods = match self.between(0, 3) {
            0 => 1,
            1 => most,
            _ => self.between(2, 3).min(most),
        };
        let mut starts = BTreeSet::from([1]);
        while starts.len() < periods as usize {
            starts.insert(self.with_edges(2, steps as u64));
        }
        starts.into_iter().collect()
    }

    /// Ten years at most, the last one a premium date.
    fn accruals(&mut self, steps: usize) -> Vec<u64> {
        let highest = B.min(10 * B / steps as u64);
        let mut accruals = self.list(steps, 0, highest);
        accruals[steps - 1] = self.with_edges(1, highest);
        accruals
    }

    /// All zero, all at their limit, or each anywhere from zero to its limit:
    /// the accrual of the next premium date.
    fn elapsed(&mut self, accruals: &[u64]) -> Vec<u64> {
        let kind = self.between(0, 3);
        let mut most = 0;
        let mut backwards = Vec::new();
        for &accrual in accruals.iter().rev() {
            if accrual != 0 {
                most = accrual;
            }
            backwards.push(match kind {
                0 => 0,
                1 => most,
                _ => self.with_edges(0, most),
            });
        }
        backwards.reverse();
        backwards
    }

    /// A sheet small enough for brute force over every list of moves.
    pub fn small_sheet(&mut self) -> Sheet {
        let (names, steps, tranches) = self.small_shape();
        self.sheet(names, steps, tranches)
    }

    /// The same with one period, as a deck brings it.
    pub fn small_one_period_sheet(&mut self) -> Sheet {
        let (names, steps, tranches) = self.small_shape();
        self.one_period_sheet(names, steps, tranches)
    }

    /// Names, steps and tranches.
    fn small_shape(&mut self) -> (usize, usize, usize) {
        let names = self.between(1, 4) as usize;
        let steps = self.between(1, 6) as usize;
        let tranches = self.between(1, 3) as usize;
        (names, steps, tranches)
    }

    /// An accepted sheet of the given shape, of any number of periods.
    pub fn sheet(&mut self, names: usize, steps: usize, tranches: usize) -> Sheet {
        let starts = self.starts(steps);
        self.sheet_of(names, steps, tranches, starts)
    }

    /// The same with one period.
    pub fn one_period_sheet(&mut self, names: usize, steps: usize, tranches: usize) -> Sheet {
        self.sheet_of(names, steps, tranches, vec![1])
    }

    fn sheet_of(&mut self, names: usize, steps: usize, tranches: usize, starts: Vec<u64>) -> Sheet {
        let accruals = self.accruals(steps);
        Sheet {
            number: self.between(0, 255) as u8,
            names,
            steps,
            tranches,
            recovery: self.recovery(),
            attachments: self.attachments(tranches),
            hazards: self.list(names * starts.len(), 0, B),
            starts,
            discounts: self.list(steps, 1, B),
            elapsed: self.elapsed(&accruals),
            accruals,
            coupons: self.list(tranches + 1, 0, 10_000_000),
        }
    }
}
