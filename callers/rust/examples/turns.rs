//! A terminal that serves five open walks in turns, one of them of 3,650 steps.
//! Prints whose turn it is at the start, and when each walk is at its root: the
//! long one keeps none waiting. Then prints what the tranche of each sheet is
//! worth at the root, which is the same as where the sheet is walked alone.

use lavroudem::{lent, Lists, Pool, Refusal, Sheet, Turn, Value, Walk, MAX_STEPS, ONE};

const STEPS: [usize; 5] = [MAX_STEPS, 2, 40, 10, 120];
const FIRST_NUMBER: u8 = 100;
const LISTED: usize = 6;
const SHOWN: usize = 3;

fn main() -> Result<(), Refusal> {
    // A real register is kept over a power loss; this one starts blank.
    let mut register = lavroudem::BLANK_REGISTER;
    let mut desks = Vec::new();
    let mut table = Vec::new();
    for (steps, number) in STEPS.into_iter().zip(FIRST_NUMBER..) {
        lavroudem::issue(&mut register, number)?;
        let (desk, walk) = Desk::open(sheet(steps, number), &register)?;
        desks.push(desk);
        table.push(Turn {
            walk,
            left: walk.position as u16,
        });
    }
    serve(&mut table, &mut desks, &register)?;
    for (place, (turn, desk)) in table.iter().zip(&desks).enumerate() {
        let value = desk.value(turn.walk, &register)?;
        let alone = walked_alone(&desk.sheet, &register)?;
        assert_eq!((turn.walk.position, value), (0, alone), "walk {place}");
        println!(
            "walk {place}, steps {}: default leg {}, premium leg {}, net value {}, as alone",
            STEPS[place], value.default_leg, value.premium_leg, value.net_value
        );
    }
    Ok(())
}

/// The sheets differ in their steps.
fn sheet(steps: usize, number: u8) -> Sheet {
    let pool = Pool {
        names: 5,
        steps,
        tranches: 1,
        recovery: 400_000_000,
        number,
    };
    let mut accruals = vec![0; steps];
    accruals[steps - 1] = ONE;
    let lists = Lists {
        attachments: &[0, 300_000_000],
        starts: &[1],
        hazards: &[1_000_000; 5],
        discounts: &vec![999_900_000; steps],
        accruals: &accruals,
        elapsed: &vec![0; steps],
        coupons: &[500_000, 500_000],
    };
    Sheet::new(pool, lists)
}

/// What the calls of a walk are lent, besides the register.
struct Desk {
    sheet: Sheet,
    defaults: Vec<u64>,
    premiums: Vec<u64>,
}

impl Desk {
    fn open(sheet: Sheet, register: &[u8]) -> Result<(Desk, Walk), Refusal> {
        let mut defaults = vec![0; sheet.row_length()];
        let mut premiums = defaults.clone();
        let (walk, answer) =
            lent::open(Walk::FRESH, &sheet, register, &mut defaults, &mut premiums);
        answer?;
        let desk = Desk {
            sheet,
            defaults,
            premiums,
        };
        Ok((desk, walk))
    }

    fn back_by_1(&mut self, walk: Walk, register: &[u8]) -> Result<Walk, Refusal> {
        let (defaults, premiums) = (&mut self.defaults, &mut self.premiums);
        let (walk, answer) = lent::back(walk, &self.sheet, register, defaults, premiums, 1);
        answer.map(|_| walk)
    }

    /// Of the tranche, at no default.
    fn value(&self, walk: Walk, register: &[u8]) -> Result<Value, Refusal> {
        let (defaults, premiums) = (&self.defaults, &self.premiums);
        let (_, answer) = lent::value(walk, &self.sheet, register, defaults, premiums, 0, 0);
        answer
    }
}

/// The terminal's loop: takes each walk that is named back by 1, until no turn
/// is left.
fn serve(table: &mut [Turn], desks: &mut [Desk], register: &[u8]) -> Result<(), Refusal> {
    let mut place = table.len() - 1; // so that place 0 comes first
    let mut served = 0;
    for call in 0.. {
        let mut list = [0; LISTED];
        let count = lavroudem::turns(table, &mut place, &mut list)?;
        if count == 0 {
            break;
        }
        if call < SHOWN {
            let places: Vec<String> = list[..count].iter().map(u8::to_string).collect();
            println!("turns: {}", places.join(" "));
        }
        for &named in &list[..count] {
            let walk = &mut table[usize::from(named)].walk;
            *walk = desks[usize::from(named)].back_by_1(*walk, register)?;
            served += 1;
            if walk.position == 0 {
                println!("walk {named} at its root after {served} turns");
            }
        }
    }
    Ok(())
}

/// The same sheet on rows of its own, taken back in one call.
fn walked_alone(sheet: &Sheet, register: &[u8]) -> Result<Value, Refusal> {
    let mut walk = sheet.open(register)?;
    walk.back(register, walk.position())?;
    walk.value(register, 0, 0)
}
