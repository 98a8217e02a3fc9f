//! Times the engine beside plain Rust of the same calls (`fast`), in one run
//! and on the same inputs. Prints `NAME engine_ms model_ms ratio`.
//!
//! Each figure is the best of several runs, the two sides taking turns, in
//! processor time of the thread, so that other work on the machine counts
//! little. Rows and walk are made anew before each run, outside the clock.

use lavroudem_model::book::{LINE_ROOM, MAX_NOMINAL, MAX_POSITIONS, MAX_VALUE};
use lavroudem_model::deck::{listing_by, Calls, CALLS, MAX_DECK};
use lavroudem_model::refusal::Refusal;
use lavroudem_model::register;
use lavroudem_model::sheet::{Sheet, MAX_PERIODS};
use lavroudem_model::turns::{Turn, MAX_LEFT, MAX_WALKS};
use lavroudem_model::walk::{row_length, Value, Walk};
use lavroudem_model::{decks, engine, fast};
use std::hint::black_box;

const RUNS: usize = 15;

/// Calls of a kind that takes microseconds, so that the clock can tell.
const SHORT_CALLS: usize = 1_000;

/// Calls of nanoseconds; all through the range of a coupon.
const PACKED_COUPONS: u64 = 100_000;

/// Room for all steps of the largest turn table.
const TURNS: usize = MAX_WALKS * MAX_LEFT as usize;

/// What the calls of one side work on.
struct Desk {
    sheet: Sheet,
    /// The same for the engine, made outside the clock.
    lent: lavroudem::Sheet,
    register: Vec<u8>,
    walk: Walk,
    default_row: Vec<u64>,
    premium_row: Vec<u64>,
    row: Vec<u64>,
    nominals: Vec<i64>,
    values: Vec<i64>,
    table: Vec<Turn>,
    /// The same for the engine.
    lent_table: Vec<lavroudem::Turn>,
    place: usize,
    list: Vec<u8>,
    deck: Vec<u8>,
    out: Vec<u8>,
}

type Answer<T> = (Walk, Result<T, Refusal>);

/// One side of the comparison. Values are asked for at tranche and count 0.
struct Side {
    back: fn(&mut Desk, usize) -> Answer<usize>,
    value: fn(&Desk) -> Answer<Value>,
    forward: fn(&mut Desk, usize) -> Result<(), Refusal>,
    deck: fn(&mut Desk),
    /// Written to the four bytes, and read from them.
    packed: fn(&mut [u8], u64) -> Result<u64, u8>,
    /// The line of a book at the start of the desk's bytes.
    book: fn(&mut Desk) -> Result<usize, u8>,
    turns: fn(&mut Desk) -> Result<usize, u8>,
}

const ENGINE: Side = Side {
    back: |d, steps| {
        let rows = (&mut d.default_row, &mut d.premium_row);
        engine::back(d.walk, &d.lent, &d.register, steps, rows.0, rows.1)
    },
    value: |d| {
        let rows = (&d.default_row, &d.premium_row);
        engine::value(d.walk, &d.lent, &d.register, 0, 0, rows.0, rows.1)
    },
    forward: |d, steps| engine::forward(&d.lent, &d.register, steps, &mut d.row),
    deck: |d| {
        engine::run_deck(&d.deck, &mut d.out).unwrap();
    },
    packed: |image, coupon| {
        lavroudem::write_packed(image, coupon).map_err(|refusal| refusal.number())?;
        lavroudem::read_packed(image).map_err(|refusal| refusal.number())
    },
    book: |d| {
        let out = &mut d.out[..LINE_ROOM];
        lavroudem::book(&d.nominals, &d.values, out).map_err(|refusal| refusal.number())
    },
    turns: |d| {
        let answer = lavroudem::turns(&mut d.lent_table, &mut d.place, &mut d.list);
        answer.map_err(|refusal| refusal.number())
    },
};

const RUST: Side = Side {
    back: |d, steps| {
        let rows = (&mut d.default_row, &mut d.premium_row);
        fast::back(d.walk, &d.sheet, &d.register, steps, rows.0, rows.1)
    },
    value: |d| {
        let rows = (&d.default_row, &d.premium_row);
        fast::value(d.walk, &d.sheet, &d.register, 0, 0, rows.0, rows.1)
    },
    forward: |d, steps| fast::forward(&d.sheet, &d.register, steps, &mut d.row),
    deck: |d| {
        let printed = listing_by(FAST, &d.deck);
        d.out[..printed.len()].copy_from_slice(&printed);
    },
    packed: |image, coupon| {
        fast::write_packed(image, coupon).map_err(|refusal| refusal.number())?;
        fast::read_packed(image).map_err(|refusal| refusal.number())
    },
    book: |d| {
        let out = &mut d.out[..LINE_ROOM];
        fast::book(&d.nominals, &d.values, out).map_err(|refusal| refusal.number())
    },
    turns: |d| {
        let answer = fast::turns(&mut d.table, &mut d.place, &mut d.list);
        answer.map_err(|refusal| refusal.number())
    },
};

const FAST: Calls = Calls {
    open: fast::open,
    back: fast::back,
    value: fast::value,
    forward: fast::forward,
    ..CALLS
};

type Work = fn(&Side, &mut Desk);

/// What is timed, under its name and on its sheet.
type Line<'a> = (&'a str, &'a Sheet, Work);

fn main() {
    println!("NAME engine_ms model_ms ratio");
    let full = sheet(125, 3650, 8);
    let periods = in_periods(&full);
    let elapsed = with_elapsed(&full);
    let lines: [Line; 9] = [
        ("walk_full", &full, walk),
        ("walk_steps", &full, steps),
        ("value_1000", &full, values),
        ("forward_full", &full, forward),
        ("deck_full", &full, deck),
        ("walk_periods", &periods, walk),
        ("walk_steps_periods", &periods, steps),
        ("forward_periods", &periods, forward),
        ("walk_elapsed", &elapsed, walk),
    ];
    let best = compare(&lines);
    for (line, other) in [(1, 0), (5, 0), (6, 1), (7, 3), (8, 0)] {
        let times = best[line] / best[other];
        println!("# {} is {times:.2} times {}", lines[line].0, lines[other].0);
    }
    let floor = floor_ms(2 * 3650 * row_length(&full) as u64);
    println!("# five multiplications a row entry of walk_full, alone: {floor:.3} ms");
    println!("# {SHORT_CALLS} calls each");
    compare(&[
        ("forward_by_0", &full, forward_0),
        ("back_by_0", &full, back_0),
    ]);
    println!("# {PACKED_COUPONS} coupons, each written and read");
    compare(&[("packed", &sheet(1, 1, 1), packed)]);
    println!("# {SHORT_CALLS} books of {MAX_POSITIONS} positions");
    compare(&[("book", &sheet(1, 1, 1), book)]);
    println!("# one call for the {TURNS} turns of a full table");
    compare(&[("turns_full", &sheet(1, 1, 1), turns)]);
    compare_growth();
}

fn compare_growth() {
    println!("# walk_full by names, steps and tranches");
    for names in [1, 25, 50, 75, 100, 125] {
        let name = format!("names_{names}");
        compare(&[(&name, &sheet(names, 3650, 8), walk)]);
    }
    for steps in [365, 730, 1460, 2190, 2920, 3650] {
        let name = format!("steps_{steps}");
        compare(&[(&name, &sheet(125, steps, 8), walk)]);
    }
    for tranches in 1..=8 {
        let name = format!("tranches_{tranches}");
        compare(&[(&name, &sheet(125, 3650, tranches), walk)]);
    }
}

/// A pool of ten years by the day at most, premium every quarter.
fn sheet(names: usize, steps: usize, tranches: usize) -> Sheet {
    let points = [0, 30, 60, 90, 120, 150, 220, 300, 600];
    let accrual = |step: usize| {
        let date = step % 91 == 90 || step == steps - 1;
        if date {
            240_000_000
        } else {
            0
        }
    };
    Sheet {
        number: 7,
        names,
        steps,
        tranches,
        recovery: 400_000_000,
        attachments: points[..=tranches].iter().map(|p| p * 1_000_000).collect(),
        starts: vec![1],
        hazards: (0..names as u64).map(|k| 200_000 + 6_000 * k).collect(),
        discounts: (0..steps as u64)
            .map(|i| 999_900_000 + i % 7 * 10_000)
            .collect(),
        accruals: (0..steps).map(accrual).collect(),
        elapsed: vec![0; steps],
        coupons: (0..=tranches as u64)
            .map(|j| 5_000_000 - 500_000 * j)
            .collect(),
    }
}

/// The same hazards in the most periods there may be, all about as long.
fn in_periods(sheet: &Sheet) -> Sheet {
    let start = |period: usize| (1 + period * sheet.steps / MAX_PERIODS) as u64;
    Sheet {
        starts: (0..MAX_PERIODS).map(start).collect(),
        hazards: sheet.hazards.repeat(MAX_PERIODS),
        ..sheet.clone()
    }
}

/// The same with a fraction on every step: what has been earned since the last
/// premium date.
fn with_elapsed(sheet: &Sheet) -> Sheet {
    let fraction = |step: usize| (1 + step % 91) as u64 * 2_600_000;
    Sheet {
        elapsed: (0..sheet.steps).map(fraction).collect(),
        ..sheet.clone()
    }
}

/// A full book's numbers of either sign, all through their range.
fn through(most: i64, step: i64) -> Vec<i64> {
    let range = 2 * i128::from(most) + 1;
    (1..=MAX_POSITIONS as i128)
        .map(|place| (place * i128::from(step) % range) as i64 - most)
        .collect()
}

/// No deck brings several periods.
fn deck_of(sheet: &Sheet) -> Vec<u8> {
    match sheet.starts[..] {
        [_] => decks::of_sheet(sheet),
        _ => vec![],
    }
}

/// An open walk at the last step, its rows zero.
fn opened(sheet: &Sheet) -> Desk {
    let mut register = register::blank();
    register::issue(&mut register, sheet.number).unwrap();
    let length = row_length(sheet);
    let (mut default_row, mut premium_row) = (vec![0; length], vec![0; length]);
    let (walk, answer) = fast::open(
        Walk::fresh(),
        sheet,
        &register,
        &mut default_row,
        &mut premium_row,
    );
    answer.unwrap();
    let table = [Turn {
        walk,
        left: MAX_LEFT,
    }; MAX_WALKS];
    Desk {
        lent: engine::lend(sheet),
        sheet: sheet.clone(),
        register,
        walk,
        default_row,
        premium_row,
        row: vec![0; sheet.names + 1],
        nominals: through(MAX_NOMINAL, 611_953),
        values: through(MAX_VALUE, 123_456_789_012_345_677),
        lent_table: engine::lend_table(&table),
        table: table.to_vec(),
        place: 0,
        list: vec![0xFF; TURNS],
        deck: deck_of(sheet),
        out: vec![0; engine::deck_room(MAX_DECK)],
    }
}

/// Times both sides of each line, and sees that they leave the same. Prints
/// the lines and gives the engine's milliseconds. Lines take turns too, so
/// that they meet the machine at the same speed.
fn compare(lines: &[Line]) -> Vec<f64> {
    let mut best = vec![(f64::MAX, f64::MAX); lines.len()];
    for _ in 0..RUNS {
        for (best, &(name, sheet, work)) in best.iter_mut().zip(lines) {
            let (engine_ms, engine_desk) = timed(&ENGINE, sheet, work);
            let (model_ms, model_desk) = timed(&RUST, sheet, work);
            assert!(same(&engine_desk, &model_desk), "{name}: results differ");
            *best = (best.0.min(engine_ms), best.1.min(model_ms));
        }
    }
    for ((engine, model), (name, _, _)) in best.iter().zip(lines) {
        println!("{name} {engine:.3} {model:.3} {:.2}", engine / model);
    }
    best.iter().map(|&(engine, _)| engine).collect()
}

fn timed(side: &Side, sheet: &Sheet, work: Work) -> (f64, Desk) {
    let mut desk = opened(sheet);
    let start = cpu_ms();
    work(side, black_box(&mut desk));
    let elapsed = cpu_ms() - start;
    (elapsed, desk)
}

/// Milliseconds that this thread has had a processor.
fn cpu_ms() -> f64 {
    #[repr(C)]
    struct Timespec {
        seconds: i64,
        nanoseconds: i64,
    }
    extern "C" {
        fn clock_gettime(clock: i32, time: *mut Timespec) -> i32;
    }
    const THREAD_CPU_TIME: i32 = 3;
    let mut time = Timespec {
        seconds: 0,
        nanoseconds: 0,
    };
    // SAFETY: the C library writes one struct of this layout on Linux.
    let failed = unsafe { clock_gettime(THREAD_CPU_TIME, &mut time) };
    assert_eq!(failed, 0, "no clock of the thread");
    time.seconds as f64 * 1e3 + time.nanoseconds as f64 / 1e6
}

/// Three products, and the two high products that divisions by B are made
/// of, for so many entries: below this no walk can go.
fn floor_ms(entries: u64) -> f64 {
    let factors = black_box([3, 5, 7, 11, 13].map(|f: u64| f << 40 | 1));
    let high = |x: u64, f: u64| ((u128::from(x) * u128::from(f)) >> 64) as u64;
    let mut best = f64::MAX;
    for _ in 0..RUNS {
        let start = cpu_ms();
        let mut all = 0;
        for x in 0..entries {
            let low = x.wrapping_mul(factors[0])
                ^ x.wrapping_mul(factors[1])
                ^ x.wrapping_mul(factors[2]);
            all ^= low ^ high(x, factors[3]) ^ high(x, factors[4]);
        }
        black_box(all);
        best = best.min(cpu_ms() - start);
    }
    best
}

/// The engine's desk and the other one; each has written its own table.
fn same(one: &Desk, other: &Desk) -> bool {
    let left = one.lent_table.iter().map(|turn| turn.left);
    left.eq(other.table.iter().map(|turn| turn.left))
        && one.place == other.place
        && one.list == other.list
        && one.walk == other.walk
        && one.default_row == other.default_row
        && one.premium_row == other.premium_row
        && one.row == other.row
        && one.out == other.out
}

fn back(side: &Side, desk: &mut Desk, steps: usize) {
    let (walk, answer) = (side.back)(desk, steps);
    answer.unwrap();
    desk.walk = walk;
}

fn walk(side: &Side, desk: &mut Desk) {
    back(side, desk, desk.sheet.steps);
}

fn steps(side: &Side, desk: &mut Desk) {
    for _ in 0..desk.sheet.steps {
        back(side, desk, 1);
    }
}

fn back_0(side: &Side, desk: &mut Desk) {
    for _ in 0..SHORT_CALLS {
        back(side, desk, 0);
    }
}

fn values(side: &Side, desk: &mut Desk) {
    for _ in 0..SHORT_CALLS {
        let (_, answer) = (side.value)(desk);
        black_box(answer).unwrap();
    }
}

fn forward(side: &Side, desk: &mut Desk) {
    (side.forward)(desk, desk.sheet.steps).unwrap();
}

fn forward_0(side: &Side, desk: &mut Desk) {
    for _ in 0..SHORT_CALLS {
        (side.forward)(desk, 0).unwrap();
    }
}

fn deck(side: &Side, desk: &mut Desk) {
    (side.deck)(desk);
}

fn packed(side: &Side, desk: &mut Desk) {
    let images = desk.out.chunks_exact_mut(4);
    for (image, place) in images.zip(1..=PACKED_COUPONS) {
        let coupon = black_box(place * (10_000_000 / PACKED_COUPONS));
        assert_eq!((side.packed)(image, coupon), Ok(coupon));
    }
}

fn book(side: &Side, desk: &mut Desk) {
    for _ in 0..SHORT_CALLS {
        let length = (side.book)(black_box(desk));
        black_box(length).unwrap();
    }
}

fn turns(side: &Side, desk: &mut Desk) {
    let written = (side.turns)(black_box(desk));
    assert_eq!(black_box(written), Ok(TURNS));
}
