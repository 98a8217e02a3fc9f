//! Reads the coupons of a ledger as it packs them, and prints each, or why it
//! is refused. Then raises the first and the highest and prints the images
//! that go back; the highest may not rise, and its image stays.

use lavroudem::{read_packed, write_packed, Refusal};

/// As they came; the last is cut short.
const LEDGER: [&[u8]; 7] = [
    &[0x01, 0x00, 0x00, 0x00],
    &[0x00, 0x50, 0x00, 0x00],
    &[0x10, 0x00, 0x00, 0x00],
    &[0x00, 0x0A, 0x00, 0x00],
    &[0x10, 0x00, 0x00, 0x01],
    // Too high too, but digits are looked at first.
    &[0x99, 0x99, 0x99, 0x9A],
    &[0x01, 0x00, 0x00],
];

/// 12.5 basis points.
const RISE: u64 = 12_500;

fn main() -> Result<(), Refusal> {
    for image in LEDGER {
        print_coupon(image);
    }
    print_raised(LEDGER[0])?;
    print_raised(LEDGER[2])
}

fn shown(image: &[u8]) -> String {
    let bytes: Vec<String> = image.iter().map(|byte| format!("{byte:02X}")).collect();
    bytes.join(" ")
}

fn print_coupon(image: &[u8]) {
    let shown = shown(image);
    match read_packed(image) {
        Ok(coupon) => println!("{shown}: coupon {coupon}"),
        Err(refusal) => println!("{shown}: {refusal}"),
    }
}

/// In a copy, so that the ledger keeps its own.
fn print_raised(image: &[u8]) -> Result<(), Refusal> {
    let mut image = image.to_vec();
    let coupon = read_packed(&image)? + RISE;
    match write_packed(&mut image, coupon) {
        Ok(()) => println!("coupon {coupon}: {}", shown(&image)),
        Err(refusal) => println!(
            "coupon {coupon}: {refusal}; the image stays {}",
            shown(&image)
        ),
    }
    Ok(())
}
