//! Hazards that differ from period to period.

use lavroudem::*;

/// The sheet of `callers/c/periods.c`.
const POOL: Pool = Pool {
    names: 2,
    steps: 3,
    tranches: 1,
    recovery: 0,
    number: 7,
};

const LISTS: Lists = Lists {
    attachments: &[0, 1_000_000_000],
    starts: &[1, 3],
    hazards: &[100_000_000, 200_000_000, 300_000_000, 400_000_000],
    discounts: &[1_000_000_000; 3],
    accruals: &[0, 0, 1_000_000_000],
    elapsed: &[0; 3],
    coupons: &[1_000_000, 500_000],
};

const REGISTER: [u8; REGISTER_LENGTH] = [LIVE; REGISTER_LENGTH];

/// Both rows at the positions below the last, from the root on.
fn rows(sheet: &Sheet) -> Vec<[Vec<u64>; 2]> {
    let at = |position| {
        let mut walk = sheet.open(&REGISTER).unwrap();
        walk.back(&REGISTER, sheet.pool().steps - position).unwrap();
        [
            walk.defaults(&REGISTER).unwrap().to_vec(),
            walk.premiums(&REGISTER).unwrap().to_vec(),
        ]
    };
    (0..sheet.pool().steps).map(at).collect()
}

/// The chances of default counts after each number of steps.
fn chances(sheet: &Sheet) -> Vec<Vec<u64>> {
    let after = |steps| sheet.forward(&REGISTER, steps).unwrap();
    (0..=sheet.pool().steps).map(after).collect()
}

fn with_hazards(starts: &[u64], hazards: &[u64]) -> Sheet {
    let lists = Lists {
        starts,
        hazards,
        ..LISTS
    };
    Sheet::new(POOL, lists)
}

/// Each step back, and each step forward, goes by the period of its later end.
#[test]
fn the_figures_of_two_periods() {
    let sheet = Sheet::new(POOL, LISTS);
    let index_defaults = rows(&sheet).into_iter().map(|[defaults, _]| defaults);
    let index_defaults: Vec<Vec<u64>> = index_defaults.map(|row| row[3..].to_vec()).collect();
    let expected = [
        [260_500_000, 308_000_000, 0],
        [205_000_000, 260_000_000, 0],
        [150_000_000, 200_000_000, 0],
    ];
    assert_eq!(index_defaults, expected);
    let expected = [
        [1_000_000_000, 0, 0],
        [900_000_000, 100_000_000, 0],
        [810_000_000, 170_000_000, 20_000_000],
        [567_000_000, 345_000_000, 88_000_000],
    ];
    assert_eq!(chances(&sheet), expected);
    assert_eq!(sheet.lists(), LISTS);
}

/// The same hazards in each of them.
#[test]
fn equal_periods_are_one_period() {
    let hazards = &LISTS.hazards[..2];
    let one = with_hazards(&[1], hazards);
    for starts in [&[1, 2][..], &[1, 3], &[1, 2, 3]] {
        let several = with_hazards(starts, &hazards.repeat(starts.len()));
        assert_eq!(rows(&several), rows(&one), "{starts:?}");
        assert_eq!(chances(&several), chances(&one), "{starts:?}");
    }
    assert_ne!(rows(&Sheet::new(POOL, LISTS)), rows(&one));
}

/// A later start leaves more steps to the hazards before it.
#[test]
fn a_start_is_the_first_step_of_its_period() {
    let first = with_hazards(&[1], &LISTS.hazards[..2]);
    for start in [2, 3] {
        let sheet = with_hazards(&[1, start], LISTS.hazards);
        let start = start as usize;
        assert_eq!(chances(&sheet)[..start], chances(&first)[..start]);
        assert_ne!(chances(&sheet)[start], chances(&first)[start]);
        let second = with_hazards(&[1], &LISTS.hazards[2..]);
        assert_eq!(rows(&sheet)[start - 1..], rows(&second)[start - 1..]);
        assert_ne!(rows(&sheet)[start - 2], rows(&second)[start - 2]);
    }
}

/// A period a step: the most there may be are accepted, and one more is not.
#[test]
fn the_most_periods() {
    let refusals = [
        (MAX_PERIODS, None),
        (MAX_PERIODS + 1, Some(Refusal::Length)),
    ];
    for (periods, refusal) in refusals {
        let pool = Pool {
            steps: periods,
            ..POOL
        };
        let starts: Vec<u64> = (1..).take(periods).collect();
        let lists = Lists {
            starts: &starts,
            hazards: &vec![100_000_000; 2 * periods],
            discounts: &vec![ONE; periods],
            accruals: &vec![100_000_000; periods],
            elapsed: &vec![0; periods],
            ..LISTS
        };
        let sheet = Sheet::new(pool, lists);
        assert_eq!(sheet.open(&REGISTER).err(), refusal);
        assert_eq!(sheet.forward(&REGISTER, periods).err(), refusal);
    }
}
