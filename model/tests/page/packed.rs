//! Coupons in packed decimal: the images on the page, and what is refused.

use super::{cells, same, says, table, Found};
use crate::arithmetic::commas;
use lavroudem_model::packed::{read, write, IMAGE_LENGTH};
use lavroudem_model::refusal::Refusal;
use lavroudem_model::sheet::MAX_COUPON;

/// The bytes of the page's table. A page with others might be right too, but
/// most changes of a refused image leave it refused.
const LENT: [&[u8]; 13] = [
    &[0x00, 0x00, 0x00, 0x00],
    &[0x00, 0x00, 0x00, 0x01],
    &[0x00, 0x02, 0x50, 0x00],
    &[0x01, 0x00, 0x00, 0x00],
    &[0x01, 0x23, 0x45, 0x67],
    &[0x09, 0x99, 0x99, 0x99],
    &[0x10, 0x00, 0x00, 0x00],
    &[0x10, 0x00, 0x00, 0x01],
    &[0x99, 0x99, 0x99, 0x99],
    &[0x99, 0x99, 0x99, 0x9A],
    &[0xA0, 0x00, 0x00, 0x00],
    &[0x01, 0x00, 0x00],
    &[0x99, 0x99, 0x99, 0x99, 0x9A],
];

fn in_hexadecimal(bytes: &[u8], between: &str) -> String {
    let pairs: Vec<String> = bytes.iter().map(|byte| format!("{byte:02X}")).collect();
    pairs.join(between)
}

pub fn packed_coupons_are_the_models(page: &str) -> Found {
    let rows = table(page, "| Bytes lent | Read packed |")?;
    same(rows.len(), LENT.len(), "images")?;
    for (row, lent) in rows.iter().zip(LENT) {
        let [bytes, answer] = cells(row)?;
        same(bytes, &in_hexadecimal(lent, " "), "an image")?;
        let right = match read(lent) {
            Ok(coupon) => commas(coupon.into()),
            Err(refusal) => format!("`{} {}`", refusal.number(), refusal.word()),
        };
        same(answer, &right, bytes)?;
    }
    let most = MAX_COUPON as i128;
    let (images, most) = (commas(most + 1), commas(most));
    let counted =
        format!("So there are {images} images, one for each coupon from 0 to {most}, and no two");
    says(page, &counted)?;
    text_is_described(page)
}

/// The line of a text deck for a coupon of the page.
fn text_is_described(page: &str) -> Found {
    let coupon = 1_000_000;
    let mut image = [0; IMAGE_LENGTH];
    write(&mut image, coupon).map_err(|refusal| format!("{refusal:?}"))?;
    let digits = in_hexadecimal(&image, "");
    let said = format!("such as `coupon packed {digits}` for `coupon {coupon}` (");
    says(page, &said)
}

/// What a reading answers to an image with these faults.
pub fn refused_reading(numbers: &[u8]) -> Option<u8> {
    let mut image = vec![0x01, 0x00, 0x00, 0x00];
    for number in numbers {
        match number {
            2 => image.push(0x00),
            8 => image[0] = 0x11,
            _ => image[3] = 0x0A,
        }
    }
    read(&image).err().map(Refusal::number)
}

/// What a writing answers with these faults.
pub fn refused_writing(numbers: &[u8]) -> Option<u8> {
    let length = IMAGE_LENGTH + usize::from(numbers.contains(&2));
    let over = u64::from(numbers.contains(&8));
    let answer = write(&mut vec![0; length], MAX_COUPON as u64 + over);
    answer.err().map(Refusal::number)
}
