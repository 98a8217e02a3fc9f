//! Premium that is earned up to a default.

use lavroudem::*;

/// The sheet of `callers/c/elapsed.c`.
const POOL: Pool = Pool {
    names: 2,
    steps: 3,
    tranches: 1,
    recovery: 0,
    number: 7,
};

const LISTS: Lists = Lists {
    attachments: &[0, 500_000_000],
    starts: &[1],
    hazards: &[100_000_000, 200_000_000],
    discounts: &[1_000_000_000, 800_000_000, 1_000_000_000],
    accruals: &[0, 500_000_000, 250_000_000],
    elapsed: &[250_000_000, 500_000_000, 125_000_000],
    coupons: &[1_000_000, 500_000],
};

const REGISTER: [u8; REGISTER_LENGTH] = [LIVE; REGISTER_LENGTH];

fn with_elapsed(elapsed: &[u64]) -> Sheet {
    Sheet::new(POOL, Lists { elapsed, ..LISTS })
}

/// A walk at a position.
fn walked(sheet: &Sheet, position: usize) -> OpenWalk<'_> {
    let mut walk = sheet.open(&REGISTER).unwrap();
    walk.back(&REGISTER, sheet.pool().steps - position).unwrap();
    walk
}

/// A row at the positions below the last, from the root on.
fn rows(sheet: &Sheet, row: impl Fn(&OpenWalk) -> Vec<u64>) -> Vec<Vec<u64>> {
    let at = |position| row(&walked(sheet, position));
    (0..sheet.pool().steps).map(at).collect()
}

fn premiums(sheet: &Sheet) -> Vec<Vec<u64>> {
    rows(sheet, |walk| walk.premiums(&REGISTER).unwrap().to_vec())
}

fn defaults(sheet: &Sheet) -> Vec<Vec<u64>> {
    rows(sheet, |walk| walk.defaults(&REGISTER).unwrap().to_vec())
}

/// Of the tranche, at the root with no default.
fn hedge_ratio(sheet: &Sheet) -> i64 {
    walked(sheet, 0).hedge_ratio(&REGISTER, 0, 0).unwrap()
}

/// The first default takes all of the tranche and half of the index.
#[test]
fn the_figures_of_elapsed_fractions() {
    let expected = [
        [269_450_000, 0, 0, 565_750_000, 242_600_000, 0],
        [285_500_000, 0, 0, 584_500_000, 272_000_000, 0],
        [118_750_000, 0, 0, 243_750_000, 112_500_000, 0],
    ];
    let sheet = Sheet::new(POOL, LISTS);
    assert_eq!(premiums(&sheet), expected);
    assert_eq!(hedge_ratio(&sheet), 690_860);
    assert_eq!(sheet.lists(), LISTS);
}

/// A default pays nothing then; losses and chances are not touched.
#[test]
fn the_figures_without_elapsed_fractions() {
    let expected = [
        [234_900_000, 0, 0, 525_500_000, 179_200_000, 0],
        [261_000_000, 0, 0, 559_000_000, 224_000_000, 0],
        [112_500_000, 0, 0, 237_500_000, 100_000_000, 0],
    ];
    let (with, without) = (Sheet::new(POOL, LISTS), with_elapsed(&[0; 3]));
    assert_eq!(premiums(&without), expected);
    assert_eq!(hedge_ratio(&without), 683_679);
    assert_eq!(defaults(&without), defaults(&with));
    for steps in 0..=3 {
        let chances = with.forward(&REGISTER, steps);
        assert_eq!(without.forward(&REGISTER, steps), chances);
    }
}

/// The fraction of a step is earned by a default into that step.
#[test]
fn a_fraction_counts_at_its_step() {
    let without = premiums(&with_elapsed(&[0; 3]));
    for step in 1..=3 {
        let mut elapsed = [0; 3];
        elapsed[step - 1] = LISTS.elapsed[step - 1];
        let with = premiums(&with_elapsed(&elapsed));
        assert_eq!(with[step..], without[step..], "{step}");
        for position in 0..step {
            // Of tranche and index, each with no default.
            for place in [0, 3] {
                assert!(with[position][place] > without[position][place]);
            }
        }
    }
}

/// Steps 1 and 2 go by the accrual of step 2, and step 3 by its own.
#[test]
fn a_fraction_is_at_most_the_next_accrual() {
    let most = [500_000_000, 500_000_000, 250_000_000];
    for (place, most) in most.into_iter().enumerate() {
        let answers = [
            (most, None),
            (most + 1, Some(Refusal::Elapsed)),
            (u64::MAX, Some(Refusal::Elapsed)),
        ];
        for (fraction, refusal) in answers {
            let mut elapsed = [0; 3];
            elapsed[place] = fraction;
            let sheet = with_elapsed(&elapsed);
            assert_eq!(sheet.open(&REGISTER).err(), refusal, "{elapsed:?}");
            assert_eq!(sheet.forward(&REGISTER, 3).err(), refusal, "{elapsed:?}");
        }
    }
}

/// All is recovered, so nothing is lost, and the first default takes the half
/// above the tranche. The second is sure to follow at once, and pays a whole
/// year a step before the premium date: more than the tranche is worth without
/// any default.
#[test]
fn a_hedge_ratio_may_be_negative() {
    let pool = Pool {
        steps: 2,
        recovery: ONE,
        ..POOL
    };
    let lists = Lists {
        hazards: &[0, ONE],
        discounts: &[ONE, 800_000_000],
        accruals: &[0, ONE],
        elapsed: &[ONE, 0],
        ..LISTS
    };
    let sheet = Sheet::new(pool, lists);
    assert_eq!(
        premiums(&sheet)[0],
        [400_000_000, 500_000_000, 0, 800_000_000, 500_000_000, 0]
    );
    assert_eq!(hedge_ratio(&sheet), -666_667);
    let elapsed = &[0, 0];
    let without = Sheet::new(pool, Lists { elapsed, ..lists });
    assert_eq!(hedge_ratio(&without), 1_000_000);
}

// ---- decks

/// The same sheet as a deck, with so many fractions, walked to its root.
fn deck(elapsed: &[u32]) -> Vec<u8> {
    let mut deck = vec![0x01, 2, 3, 0, 1, 0, 0, 0, 0, 7];
    let mut enter = |command: u8, figures: &[u32]| {
        deck.push(command);
        for figure in figures {
            deck.extend(figure.to_le_bytes());
        }
    };
    enter(0x02, &[0]);
    enter(0x02, &[500_000_000]);
    enter(0x03, &[100_000_000]);
    enter(0x03, &[200_000_000]);
    enter(0x04, &[1_000_000_000, 0]);
    enter(0x04, &[800_000_000, 500_000_000]);
    enter(0x04, &[1_000_000_000, 250_000_000]);
    enter(0x05, &[1_000_000]);
    enter(0x05, &[500_000]);
    for &fraction in elapsed {
        enter(0x0D, &[fraction]);
    }
    deck.extend([0x06, 7, 0x08, 0x09, 3, 0, 0x0A, 0, 0, 0x0A, 1, 0]);
    deck
}

fn listing(elapsed: &[u32]) -> String {
    String::from_utf8(run_deck(&deck(elapsed))).unwrap()
}

#[test]
fn a_deck_enters_its_fractions() {
    let fractions: Vec<u32> = LISTS.elapsed.iter().map(|&e| e as u32).collect();
    let expected = "issue 0\nopen 0\nback 0 0\n\
                    value 0 118400000 269450000 914550000000000\n\
                    value 0 140000000 565750000 1117125000000000\n";
    assert_eq!(listing(&fractions), expected);
}

#[test]
fn a_deck_without_fractions_has_zeros() {
    let expected = "issue 0\nopen 0\nback 0 0\n\
                    value 0 118400000 234900000 949100000000000\n\
                    value 0 140000000 525500000 1137250000000000\n";
    assert_eq!(listing(&[]), expected);
    assert_eq!(listing(&[0; 3]), expected);
}

#[test]
fn a_deck_is_refused_for_its_fractions() {
    let refused = |number: u8| {
        let value = format!("value {number}\n");
        format!("issue 0\nopen {number}\nback {number}\n{value}{value}")
    };
    for elapsed in [&[0][..], &[0; 2], &[0; 4], &[0; MAX_STEPS]] {
        assert_eq!(listing(elapsed), refused(2), "{}", elapsed.len());
    }
    for elapsed in [[500_000_001, 0, 0], [0, 500_000_001, 0], [0, 0, u32::MAX]] {
        assert_eq!(listing(&elapsed), refused(21), "{elapsed:?}");
    }
    let offset = deck(&[]).len() - 12 + 5 * MAX_STEPS;
    assert_eq!(listing(&[0; MAX_STEPS + 1]), format!("deck 20 {offset}\n"));
}
