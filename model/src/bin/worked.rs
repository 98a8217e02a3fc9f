//! Prints the model's figures for the worked sheet of document 01.

use lavroudem_model::refusal::Refusal;
use lavroudem_model::sheet::{check, Sheet};
use lavroudem_model::tree::{
    default_leg, distribution, hedge_ratio, net_value, premium_leg, roll_back, Rows,
};
use lavroudem_model::worked;

fn main() {
    if let Err(refusal) = print_figures(&worked::sheet()) {
        eprintln!("refused: {} {}", refusal.number(), refusal.word());
        std::process::exit(1);
    }
}

fn print_figures(sheet: &Sheet) -> Result<(), Refusal> {
    check(sheet)?;
    let mut rows = Rows::zero(sheet);
    roll_back(sheet, &mut rows, sheet.steps, sheet.steps);
    let ratio = hedge_ratio(sheet, &rows, 0, 0)?;

    print_value("tranche 0", sheet, &rows, 0);
    print_value("index", sheet, &rows, sheet.index());
    println!("hedge ratio of tranche 0: {ratio} millionths");
    let row = distribution(sheet, 2);
    println!(
        "default counts 0, 1, 2 after 2 steps: {}, {}, {}",
        row[0], row[1], row[2]
    );
    Ok(())
}

/// The root value of one tranche, before any default.
fn print_value(name: &str, sheet: &Sheet, rows: &Rows, tranche: usize) {
    let default = default_leg(sheet, rows, tranche, 0);
    let premium = premium_leg(sheet, rows, tranche, 0);
    let net = net_value(sheet, rows, tranche, 0);
    println!("{name}: D {default}, A {premium}, W {net}");
}
