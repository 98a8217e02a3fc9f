//! The calls once more, as one would write them for speed: 64-bit numbers,
//! rows rolled in place, no allocation in a loop.
//!
//! The benchmark sets the engine beside this and not beside the wide, plain
//! model. Refusals are those of the model's own checks where they cost
//! nothing, and loops of its own where they do.

use crate::book::{LINE_ROOM, MAX_NOMINAL, MAX_POSITIONS, MAX_VALUE};
use crate::packed::IMAGE_LENGTH;
use crate::refusal::{refuse_if, Refusal};
use crate::register;
use crate::sheet::{self, Sheet, MAX_NAMES, MAX_STEPS, MAX_TRANCHES};
use crate::turns::{Turn, MAX_LEFT, MAX_PLACES, MAX_WALKS};
use crate::walk::{row_length, Value, Walk};

const B: u64 = 1_000_000_000;
const MAX_COUPON: u64 = 10_000_000;
const ROOM: usize = (MAX_TRANCHES + 1) * (MAX_NAMES + 1);

/// Divides by B; a half goes up.
#[inline(always)]
fn half(y: u64) -> u64 {
    (y + B / 2) / B
}

/// Starts a walk at the last step.
pub fn open(
    walk: Walk,
    sheet: &Sheet,
    register: &[u8],
    default_row: &mut [u64],
    premium_row: &mut [u64],
) -> (Walk, Result<(), Refusal>) {
    if let Err(refusal) = check_for_rows(sheet, register, default_row, premium_row) {
        return (walk, Err(refusal));
    }
    default_row.fill(0);
    premium_row.fill(0);
    let opened = Walk {
        open: true,
        number: sheet.number,
        position: sheet.steps,
    };
    (opened, Ok(()))
}

/// Takes the rows back by `steps`; answers the new position.
pub fn back(
    walk: Walk,
    sheet: &Sheet,
    register: &[u8],
    steps: usize,
    default_row: &mut [u64],
    premium_row: &mut [u64],
) -> (Walk, Result<usize, Refusal>) {
    let mut losses = [0; ROOM];
    let checked = check_for_walk(walk, sheet, register, default_row, premium_row, &mut losses)
        .and_then(|()| refuse_if(steps > walk.position, Refusal::OutOfSteps));
    if let Err(refusal) = checked {
        return (walk, Err(refusal));
    }
    roll_back(
        sheet,
        &losses,
        default_row,
        premium_row,
        walk.position,
        steps,
    );
    let position = walk.position - steps;
    (Walk { position, ..walk }, Ok(position))
}

/// D, A and W of a tranche, or of the index, at a count.
pub fn value(
    walk: Walk,
    sheet: &Sheet,
    register: &[u8],
    tranche: usize,
    count: usize,
    default_row: &[u64],
    premium_row: &[u64],
) -> (Walk, Result<Value, Refusal>) {
    let answer = || {
        let mut losses = [0; ROOM];
        check_for_walk(walk, sheet, register, default_row, premium_row, &mut losses)?;
        let off_tree = tranche > sheet.tranches || count > sheet.names;
        refuse_if(off_tree, Refusal::OffTree)?;
        let place = tranche * (sheet.names + 1) + count;
        let (default, premium) = (default_row[place], premium_row[place]);
        let net = 10_000_000 * default as i64 - sheet.coupons[tranche] as i64 * premium as i64;
        Ok(Value {
            default: default.into(),
            premium: premium.into(),
            net: net.into(),
        })
    };
    (walk, answer())
}

/// Fills the lent row with Q for step `steps`.
pub fn forward(
    sheet: &Sheet,
    register: &[u8],
    steps: usize,
    row: &mut [u64],
) -> Result<(), Refusal> {
    check_pool(sheet)?;
    check_after_pool(sheet, register, row.len() != sheet.names + 1)?;
    refuse_if(steps > sheet.steps, Refusal::OutOfSteps)?;
    row.fill(0);
    row[0] = B;
    for step in 1..=steps {
        push(row, hazards_into(sheet, step));
    }
    Ok(())
}

/// The coupon of a packed image.
pub fn read_packed(image: &[u8]) -> Result<u64, Refusal> {
    refuse_if(image.len() != IMAGE_LENGTH, Refusal::Length)?;
    let is_bad = |&byte: &u8| byte >> 4 > 9 || byte & 15 > 9;
    refuse_if(image.iter().any(is_bad), Refusal::Digit)?;
    let digits = |byte: u8| 10 * u64::from(byte >> 4) + u64::from(byte & 15);
    let coupon = image
        .iter()
        .fold(0, |coupon, &byte| 100 * coupon + digits(byte));
    refuse_if(coupon > MAX_COUPON, Refusal::Coupon)?;
    Ok(coupon)
}

/// Writes the packed image of a coupon.
pub fn write_packed(image: &mut [u8], coupon: u64) -> Result<(), Refusal> {
    refuse_if(image.len() != IMAGE_LENGTH, Refusal::Length)?;
    refuse_if(coupon > MAX_COUPON, Refusal::Coupon)?;
    let mut rest = coupon;
    for byte in image.iter_mut().rev() {
        let digits = (rest % 100) as u8;
        *byte = digits / 10 << 4 | digits % 10;
        rest /= 100;
    }
    Ok(())
}

/// Writes the line of a book and gives its length.
pub fn book(nominals: &[i64], values: &[i64], out: &mut [u8]) -> Result<usize, Refusal> {
    let out: &mut [u8; LINE_ROOM] = out.try_into().map_err(|_| Refusal::Length)?;
    let fault = nominals.len() != values.len()
        || nominals.len() > MAX_POSITIONS
        || beyond(nominals, MAX_NOMINAL)
        || beyond(values, MAX_VALUE);
    refuse_if(fault, Refusal::Book)?;
    let (mut total, mut gains) = (0, 0);
    for (&nominal, &value) in nominals.iter().zip(values) {
        let worth = i128::from(nominal) * i128::from(value);
        total += worth;
        gains += worth.max(0);
    }
    let start = b"book 0";
    out[..start.len()].copy_from_slice(start);
    let mut end = start.len();
    for figure in [total, gains, total - gains] {
        end = put_figure(out, end, figure);
    }
    out[end] = b'\n';
    Ok(end + 1)
}

/// No branch in the loop, so that the compiler takes several at once.
fn beyond(list: &[i64], most: i64) -> bool {
    let most = most.unsigned_abs();
    list.iter().fold(false, |found, number| {
        found | (number.unsigned_abs() > most)
    })
}

/// Puts a space and a figure of up to 36 digits; gives the place behind them.
fn put_figure(out: &mut [u8; LINE_ROOM], start: usize, figure: i128) -> usize {
    const LIMB: u128 = 1_000_000_000_000_000_000;
    let size = figure.unsigned_abs();
    let (high, low) = match u64::try_from(size) {
        Ok(low) => (0, low),
        Err(_) => ((size / LIMB) as u64, (size % LIMB) as u64),
    };
    let mut end = start + 1;
    out[start] = b' ';
    if figure < 0 {
        out[end] = b'-';
        end += 1;
    }
    if high == 0 {
        return put_digits(out, end, low, digit_count(low));
    }
    end = put_digits(out, end, high, digit_count(high));
    put_digits(out, end, low, 18)
}

fn digit_count(number: u64) -> usize {
    number.checked_ilog10().unwrap_or(0) as usize + 1
}

/// So many digits of a number, with zeros in front where it has fewer.
fn put_digits(out: &mut [u8; LINE_ROOM], start: usize, number: u64, count: usize) -> usize {
    let mut rest = number;
    for place in out[start..start + count].iter_mut().rev() {
        *place = b'0' + (rest % 10) as u8;
        rest /= 10;
    }
    start + count
}

/// Writes the places of the walks whose turn it is, and gives how many.
pub fn turns(table: &mut [Turn], place: &mut usize, list: &mut [u8]) -> Result<usize, Refusal> {
    let fault = table.is_empty()
        || table.len() > MAX_WALKS
        || *place >= table.len()
        || table.iter().any(|turn| turn.left > MAX_LEFT)
        || list.len() > MAX_PLACES;
    refuse_if(fault, Refusal::Turns)?;
    let all: usize = table.iter().map(|turn| usize::from(turn.left)).sum();
    let written = all.min(list.len());
    let mut last = *place;
    for entry in &mut list[..written] {
        // No fewer steps are left than turns to write, so this ends.
        let left = loop {
            last = if last + 1 < table.len() { last + 1 } else { 0 };
            if table[last].left > 0 {
                break &mut table[last].left;
            }
        };
        *left -= 1;
        *entry = last as u8;
    }
    *place = last;
    Ok(written)
}

/// The hazards of the moves into a step, for a sheet that passed its checks.
fn hazards_into(sheet: &Sheet, step: usize) -> &[u64] {
    let has_started = |&start: &u64| start <= step as u64;
    let last = sheet.starts.iter().rposition(has_started).unwrap_or(0);
    &sheet.hazards[last * sheet.names..][..sheet.names]
}

/// One step forward, in place. What moves on from a count is kept until the
/// next one, so that every move is taken from the old row.
fn push(row: &mut [u64], hazards: &[u64]) {
    let mut arriving = 0;
    for (held, &hazard) in row.iter_mut().zip(hazards) {
        let moved = half(*held * hazard);
        *held = *held - moved + arriving;
        arriving = moved;
    }
    row[hazards.len()] += arriving;
}

/// Both rows back by so many steps, for a sheet and rows that passed all
/// checks.
fn roll_back(
    sheet: &Sheet,
    losses: &[u64; ROOM],
    default_row: &mut [u64],
    premium_row: &mut [u64],
    position: usize,
    steps: usize,
) {
    let mut paid = [0; ROOM];
    let mut left = [0; ROOM];
    fill_payments(sheet, losses, &mut paid);
    let due = |list: &[u64]| any(&list[position - steps..position], |part| part != 0);
    if due(&sheet.accruals) || due(&sheet.elapsed) {
        fill_outstanding(sheet, losses, &mut left);
    }
    let counts = sheet.names + 1;
    for i in (position - steps..position).rev() {
        let hazards = hazards_into(sheet, i + 1);
        let discount = sheet.discounts[i];
        for (row, paid) in default_row
            .chunks_exact_mut(counts)
            .zip(paid.chunks_exact(counts))
        {
            roll_defaults(row, hazards, discount, paid);
        }
        let accrual = sheet.accruals[i];
        if accrual != 0 {
            for (entry, &left) in premium_row.iter_mut().zip(&left) {
                *entry += half(accrual * left);
            }
        }
        let elapsed = sheet.elapsed[i];
        if elapsed != 0 {
            roll_premiums_earned(premium_row, hazards, discount, elapsed, &left);
            continue;
        }
        for row in premium_row.chunks_exact_mut(counts) {
            roll_premiums(row, hazards, discount);
        }
    }
}

/// A tranche's default legs one step back; `paid` is its default cash.
fn roll_defaults(row: &mut [u64], hazards: &[u64], discount: u64, paid: &[u64]) {
    let names = hazards.len();
    let mut here = row[0];
    for k in 0..names {
        let next = row[k + 1];
        let expected = half(hazards[k] * (next + paid[k]) + (B - hazards[k]) * here);
        row[k] = half(discount * expected);
        here = next;
    }
    row[names] = half(discount * here);
}

/// A tranche's premium legs one step back.
fn roll_premiums(row: &mut [u64], hazards: &[u64], discount: u64) {
    let names = hazards.len();
    let mut here = row[0];
    for k in 0..names {
        let next = row[k + 1];
        let expected = half(hazards[k] * next + (B - hazards[k]) * here);
        row[k] = half(discount * expected);
        here = next;
    }
    row[names] = half(discount * here);
}

/// The same for all tranches, where a default brings what was earned up to it,
/// on what it takes off the outstanding notional. It stands apart, so that the
/// loop of a step without it stays as quick as it was.
#[inline(never)]
fn roll_premiums_earned(
    premium_row: &mut [u64],
    hazards: &[u64],
    discount: u64,
    elapsed: u64,
    left: &[u64; ROOM],
) {
    let names = hazards.len();
    let rows = premium_row.chunks_exact_mut(names + 1);
    for (row, left) in rows.zip(left.chunks_exact(names + 1)) {
        let mut here = row[0];
        for k in 0..names {
            let next = row[k + 1];
            let earned = half(elapsed * (left[k] - left[k + 1]));
            let expected = half(hazards[k] * (next + earned) + (B - hazards[k]) * here);
            row[k] = half(discount * expected);
            here = next;
        }
        row[names] = half(discount * here);
    }
}

/// M(k) of every tranche, and of the index last: one division a count.
fn fill_losses(sheet: &Sheet, losses: &mut [u64]) {
    let names = sheet.names as u64;
    let (tranches, index) = losses.split_at_mut(sheet.tranches * (sheet.names + 1));
    for (k, loss) in index.iter_mut().enumerate() {
        *loss = k as u64 * (B - sheet.recovery) / names;
    }
    let points = sheet.attachments.windows(2);
    for (row, points) in tranches.chunks_exact_mut(sheet.names + 1).zip(points) {
        let width = points[1] - points[0];
        for (own, &loss) in row.iter_mut().zip(&*index) {
            *own = loss.saturating_sub(points[0]).min(width);
        }
    }
}

/// What a default pays, by the count before it.
fn fill_payments(sheet: &Sheet, losses: &[u64; ROOM], paid: &mut [u64; ROOM]) {
    let counts = sheet.names + 1;
    for tranche in 0..=sheet.tranches {
        let first = tranche * counts;
        for place in first..first + sheet.names {
            paid[place] = losses[place + 1] - losses[place];
        }
    }
}

/// What is outstanding, for a walk that meets a premium date or a fraction.
fn fill_outstanding(sheet: &Sheet, losses: &[u64; ROOM], left: &mut [u64; ROOM]) {
    let counts = sheet.names + 1;
    let pool_losses = &losses[sheet.tranches * counts..][..counts];
    let (tranches, index) = left.split_at_mut(sheet.tranches * counts);
    let points = sheet.attachments.windows(2);
    for (k, &loss) in pool_losses.iter().enumerate() {
        // the pool is left between what is lost and what is recovered
        let end = B - k as u64 * sheet.recovery / sheet.names as u64;
        index[k] = end - loss;
        let rows = tranches.chunks_exact_mut(counts).zip(points.clone());
        for (row, points) in rows {
            row[k] = points[1].min(end).saturating_sub(points[0].max(loss));
        }
    }
}

fn width(sheet: &Sheet, tranche: usize) -> u64 {
    if tranche == sheet.tranches {
        B - sheet.recovery
    } else {
        sheet.attachments[tranche + 1] - sheet.attachments[tranche]
    }
}

/// Checks 1 to 12; fills the table of losses on the way.
fn check_for_walk(
    walk: Walk,
    sheet: &Sheet,
    register: &[u8],
    default_row: &[u64],
    premium_row: &[u64],
    losses: &mut [u64; ROOM],
) -> Result<(), Refusal> {
    check_for_rows(sheet, register, default_row, premium_row)?;
    let no_walk = !walk.open || walk.number != sheet.number || walk.position > sheet.steps;
    refuse_if(no_walk, Refusal::NoWalk)?;
    fill_losses(sheet, &mut losses[..row_length(sheet)]);
    let over = is_over_ceiling(sheet, losses, default_row, premium_row, walk.position);
    refuse_if(over, Refusal::OverCeiling)
}

fn is_over_ceiling(
    sheet: &Sheet,
    losses: &[u64; ROOM],
    default_row: &[u64],
    premium_row: &[u64],
    position: usize,
) -> bool {
    let counts = sheet.names + 1;
    for (tranche, row) in default_row.chunks_exact(counts).enumerate() {
        let width = width(sheet, tranche);
        let losses = &losses[tranche * counts..];
        if row.iter().zip(losses).any(|(&d, &loss)| d > width - loss) {
            return true;
        }
    }
    let accruals: u64 = sheet.accruals[position..].iter().sum();
    let lowest = accruals + 2 * (sheet.steps - position) as u64;
    // Entries between the lowest ceiling and their own are rare.
    above(premium_row, lowest) && {
        let over = |(k, &a): (usize, &u64)| a > lowest + (sheet.names - k) as u64;
        let mut rows = premium_row.chunks_exact(counts);
        rows.any(|row| row.iter().enumerate().any(over))
    }
}

/// Checks 1 to 10, for the calls that are lent both rows.
fn check_for_rows(
    sheet: &Sheet,
    register: &[u8],
    default_row: &[u64],
    premium_row: &[u64],
) -> Result<(), Refusal> {
    check_pool(sheet)?;
    let length = row_length(sheet);
    let row_fault = default_row.len() != length || premium_row.len() != length;
    check_after_pool(sheet, register, row_fault)
}

fn check_pool(sheet: &Sheet) -> Result<(), Refusal> {
    let fault = !(1..=MAX_NAMES).contains(&sheet.names)
        || !(1..=MAX_STEPS).contains(&sheet.steps)
        || !(1..=MAX_TRANCHES).contains(&sheet.tranches);
    refuse_if(fault, Refusal::Pool)
}

/// Checks 2 to 10, with 25 and 21. The accruals are summed after each was found
/// small.
fn check_after_pool(sheet: &Sheet, register: &[u8], row_fault: bool) -> Result<(), Refusal> {
    let length_fault = sheet::length_fault(sheet) || register::length_fault(register) || row_fault;
    refuse_if(length_fault, Refusal::Length)?;
    refuse_if(sheet.recovery > B, Refusal::Recovery)?;
    let rising = sheet.attachments.windows(2).all(|pair| pair[0] < pair[1]);
    refuse_if(
        !rising || above(&sheet.attachments, B),
        Refusal::Attachments,
    )?;
    refuse_if(sheet::period_fault(sheet), Refusal::Periods)?;
    refuse_if(above(&sheet.hazards, B), Refusal::Hazard)?;
    let discount_fault = any(&sheet.discounts, |discount| discount == 0 || discount > B);
    refuse_if(discount_fault, Refusal::Discount)?;
    refuse_if(accrual_fault(&sheet.accruals), Refusal::Accrual)?;
    refuse_if(elapsed_fault(sheet), Refusal::Elapsed)?;
    refuse_if(above(&sheet.coupons, MAX_COUPON), Refusal::Coupon)?;
    register::check_live(register, sheet.number)
}

fn above(list: &[u64], most: u64) -> bool {
    any(list, |number| number > most)
}

/// Eight at a time, so that the compiler unrolls the loop.
fn any(list: &[u64], test: impl Fn(u64) -> bool) -> bool {
    let some = |numbers: &[u64]| numbers.iter().any(|&number| test(number));
    let mut eights = list.chunks_exact(8);
    eights.any(some) || some(eights.remainder())
}

fn accrual_fault(accruals: &[u64]) -> bool {
    above(accruals, B) || accruals.iter().sum::<u64>() > 10 * B || accruals.last() == Some(&0)
}

/// Zeros are within any limit, and many of them are found at once.
fn elapsed_fault(sheet: &Sheet) -> bool {
    let bits = sheet.elapsed.iter().fold(0, |bits, elapsed| bits | elapsed);
    if bits == 0 {
        return false;
    }
    let mut most = 0;
    for (&elapsed, &accrual) in sheet.elapsed.iter().zip(&sheet.accruals).rev() {
        if accrual != 0 {
            most = accrual;
        }
        if elapsed > most {
            return true;
        }
    }
    false
}
