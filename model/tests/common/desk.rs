//! Everything that the calls are lent or told, in one piece.

use lavroudem_model::deck::Calls;
use lavroudem_model::refusal::Refusal;
use lavroudem_model::register::{blank, issue};
use lavroudem_model::sheet::Sheet;
use lavroudem_model::tree::Rows;
use lavroudem_model::walk::{row_length, Value, Walk};

#[derive(Clone, Copy, Debug, PartialEq, Eq, PartialOrd, Ord)]
pub enum Call {
    Issue,
    Withdraw,
    Open,
    Back,
    Value,
    Ratio,
    Forward,
}

#[derive(Clone, Debug, PartialEq)]
pub struct Desk {
    pub sheet: Sheet,
    pub register: Vec<u8>,
    pub walk: Walk,
    pub default_row: Vec<u64>,
    pub premium_row: Vec<u64>,
    pub forward_row: Vec<u64>,
    /// What issue and withdraw are told.
    pub number: u8,
    pub back_by: usize,
    pub forward_by: usize,
    pub tranche: usize,
    pub count: usize,
}

impl Desk {
    /// A blank register, a fresh walk, and rows of the right length with
    /// this entry everywhere.
    pub fn fresh(sheet: Sheet, entry: u64) -> Desk {
        let row = vec![entry; row_length(&sheet)];
        Desk {
            register: blank(),
            walk: Walk::fresh(),
            default_row: row.clone(),
            premium_row: row,
            forward_row: vec![entry; sheet.names + 1],
            number: sheet.number,
            back_by: 1,
            forward_by: 1,
            tranche: 0,
            count: 0,
            sheet,
        }
    }

    /// The sheet issued, opened and taken back by one step; every call that
    /// brings it is accepted next.
    pub fn walked(sheet: Sheet, calls: &Calls) -> Desk {
        let mut desk = Desk::fresh(sheet, u64::MAX);
        issue(&mut desk.register, desk.number).unwrap();
        desk.ask(calls, Call::Open).unwrap();
        desk.ask(calls, Call::Back).unwrap();
        desk.back_by = desk.walk.position;
        desk
    }

    /// Makes the call, keeps the walk that it hands back, and gives its
    /// figures.
    pub fn ask(&mut self, calls: &Calls, call: Call) -> Result<Vec<i128>, Refusal> {
        let (walk, sheet, number) = (self.walk, &self.sheet, self.number);
        let (tranche, count) = (self.tranche, self.count);
        let (d, a) = (&mut self.default_row, &mut self.premium_row);
        let register = &mut self.register;
        let (walk, answer) = match call {
            Call::Issue => (walk, (calls.issue)(register, number).map(|()| vec![])),
            Call::Withdraw => (walk, (calls.withdraw)(register, number).map(|()| vec![])),
            Call::Open => {
                let (walk, answer) = (calls.open)(walk, sheet, register, d, a);
                (walk, answer.map(|()| vec![]))
            }
            Call::Back => {
                let (walk, answer) = (calls.back)(walk, sheet, register, self.back_by, d, a);
                (walk, answer.map(|position| vec![position as i128]))
            }
            Call::Value => {
                let (walk, answer) = (calls.value)(walk, sheet, register, tranche, count, d, a);
                (walk, answer.map(figures))
            }
            Call::Ratio => {
                let (walk, answer) =
                    (calls.hedge_ratio)(walk, sheet, register, tranche, count, d, a);
                (walk, answer.map(|ratio| vec![ratio]))
            }
            Call::Forward => {
                let row = &mut self.forward_row;
                let answer = (calls.forward)(sheet, register, self.forward_by, row);
                (walk, answer.map(|()| vec![]))
            }
        };
        self.walk = walk;
        answer
    }

    pub fn rows(&self) -> Rows {
        let widened = |row: &[u64]| row.iter().map(|&entry| u128::from(entry)).collect();
        Rows {
            default_row: widened(&self.default_row),
            premium_row: widened(&self.premium_row),
        }
    }
}

fn figures(value: Value) -> Vec<i128> {
    vec![value.default as i128, value.premium as i128, value.net]
}
