//! Walks the small sheet of the paper to its root, prints what each tranche
//! and the index are worth there and the hedge ratio of the tranche, and
//! withdraws the sheet.

use lavroudem::{Lists, OpenWalk, Pool, Refusal, Sheet};

const POOL: Pool = Pool {
    names: 2,
    steps: 2,
    tranches: 1,
    recovery: 400_000_000,
    number: 7,
};

const LISTS: Lists = Lists {
    attachments: &[0, 300_000_000],
    starts: &[1],
    hazards: &[100_000_000, 200_000_000],
    discounts: &[1_000_000_000, 900_000_000],
    accruals: &[0, 1_000_000_000],
    elapsed: &[0, 0],
    coupons: &[1_000_000, 500_000],
};

fn main() -> Result<(), Refusal> {
    // A real register is kept over a power loss; this one starts blank.
    let mut register = lavroudem::BLANK_REGISTER;
    lavroudem::issue(&mut register, POOL.number)?;

    let sheet = Sheet::new(POOL, LISTS);
    let walk = walk_to_root(&sheet, &register)?;
    for tranche in 0..=POOL.tranches {
        print_value(&walk, &register, tranche)?;
    }
    let ratio = walk.hedge_ratio(&register, 0, 0)?;
    println!("hedge ratio of tranche 0: {ratio} millionths");
    print_default_counts(&sheet, &register)?;

    lavroudem::withdraw(&mut register, POOL.number)?;
    match walk.value(&register, 0, 0) {
        Err(refusal) => println!("value of a withdrawn sheet: {refusal}"),
        Ok(value) => println!("value of a withdrawn sheet: {value:?}"),
    }
    Ok(())
}

/// Opens the sheet and takes its rows to the root, step by step.
fn walk_to_root<'a>(sheet: &'a Sheet, register: &[u8]) -> Result<OpenWalk<'a>, Refusal> {
    let mut walk = sheet.open(register)?;
    while walk.position() > 0 {
        let position = walk.back(register, 1)?;
        println!("back to step {position}");
    }
    Ok(walk)
}

/// At no default.
fn print_value(walk: &OpenWalk, register: &[u8], tranche: usize) -> Result<(), Refusal> {
    let value = walk.value(register, tranche, 0)?;
    if tranche == POOL.tranches {
        print!("index: ");
    } else {
        print!("tranche {tranche}: ");
    }
    println!(
        "default leg {}, premium leg {}, net value {}",
        value.default_leg, value.premium_leg, value.net_value
    );
    Ok(())
}

fn print_default_counts(sheet: &Sheet, register: &[u8]) -> Result<(), Refusal> {
    let steps = POOL.steps;
    for (count, chance) in sheet.forward(register, steps)?.iter().enumerate() {
        println!("chance of default count {count} after {steps} steps: {chance} billionths");
    }
    Ok(())
}
