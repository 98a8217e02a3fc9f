//! Random small trees against brute force: distances, additivity, ceilings,
//! jumps, splits and default counts, at every position.

mod common;

use common::{plain_sheet, spanning_sheet, Random, B};
use lavroudem_model::cash::{
    default_payment, elapsed_payment_over_b, outstanding, premium_payment_over_b,
};
use lavroudem_model::exact::{self, Move};
use lavroudem_model::natural::Natural;
use lavroudem_model::sheet::{check, Sheet};
use lavroudem_model::tree::{
    default_ceiling, default_leg, distribution, first_over_ceiling, hedge_ratio, jump, place,
    premium_ceiling, premium_leg, roll_back, Rows,
};

const TREES: usize = 400;

/// The same trees in every test of this file.
fn trees() -> Vec<Sheet> {
    let mut random = Random::new(2026);
    let mut sheets = Vec::new();
    for _ in 0..TREES {
        let sheet = random.small_sheet();
        assert_eq!(check(&sheet), Ok(()));
        sheets.push(sheet);
    }
    sheets
}

/// The rows at every position, 0 to m, each taken back in one go.
fn rows_by_position(sheet: &Sheet) -> Vec<Rows> {
    let mut all = Vec::new();
    for position in 0..=sheet.steps {
        let mut rows = Rows::zero(sheet);
        let reached = roll_back(sheet, &mut rows, sheet.steps, sheet.steps - position);
        assert_eq!(reached, position);
        all.push(rows);
    }
    all
}

/// Every (tranche, count), the index included.
fn nodes(sheet: &Sheet) -> Vec<(usize, usize)> {
    let mut nodes = Vec::new();
    for tranche in 0..=sheet.index() {
        for count in 0..=sheet.names {
            nodes.push((tranche, count));
        }
    }
    nodes
}

/// Twice the distance of a rounded leg from its exact value, over the
/// denominator.
fn doubled_distance(rounded: u128, exact: &Natural, denominator: &Natural) -> Natural {
    let scaled = Natural::new(rounded).times(denominator);
    scaled.distance(exact).times(&Natural::new(2))
}

fn multiple(number: usize, denominator: &Natural) -> Natural {
    Natural::new(number as u128).times(denominator)
}

type Trait = fn(&Sheet) -> bool;

fn has_inner_accrual(sheet: &Sheet, accrual: u64) -> bool {
    sheet.accruals[..sheet.steps - 1].contains(&accrual)
}

#[test]
fn trees_reach_every_extreme() {
    let extremes: [(&str, Trait); 22] = [
        ("hazard 0", |s| s.hazards.contains(&0)),
        ("hazard B", |s| s.hazards.contains(&B)),
        ("recovery 0", |s| s.recovery == 0),
        ("recovery B", |s| s.recovery == B),
        ("discount 1", |s| s.discounts.contains(&1)),
        ("discount B", |s| s.discounts.contains(&B)),
        ("inner accrual 0", |s| has_inner_accrual(s, 0)),
        ("inner accrual B", |s| has_inner_accrual(s, B)),
        ("attachment 0", |s| s.attachments.contains(&0)),
        ("attachment B", |s| s.attachments.contains(&B)),
        ("most names and steps", |s| s.names == 4 && s.steps == 6),
        ("one period", |s| s.starts.len() == 1 && s.steps > 1),
        ("two periods", |s| s.starts.len() == 2 && s.steps > 2),
        ("three periods", |s| s.starts.len() == 3 && s.steps > 3),
        ("a period a step", |s| s.starts.len() == 6),
        ("a last period of one step", |s| {
            s.steps > 3 && s.starts.len() == 2 && s.starts[1] == s.steps as u64
        }),
        ("fewest names and steps", |s| s.names == 1 && s.steps == 1),
        ("no fraction", |s| s.elapsed == vec![0; s.steps]),
        ("a fraction on each of 6 steps", |s| {
            s.steps == 6 && !s.elapsed.contains(&0)
        }),
        ("fractions on some steps", |s| {
            s.elapsed.contains(&0) && s.elapsed.iter().any(|&fraction| fraction > 1)
        }),
        ("fraction B", |s| s.elapsed.contains(&B)),
        ("a fraction between dates", |s| {
            (1..=s.steps).any(|step| s.elapsed(step) > 0 && !s.is_premium_date(step))
        }),
    ];
    let trees = trees();
    for (name, applies) in extremes {
        let found = trees.iter().filter(|sheet| applies(sheet)).count();
        assert!(found >= 3, "{found} sheets with {name}");
    }
}

/// D within h units and A within h + (q + f)/2 of the exact path sums.
#[test]
fn legs_are_within_their_distances() {
    let mut default_off = 0;
    let mut premium_off = 0;
    for sheet in trees() {
        for (position, rows) in rows_by_position(&sheet).iter().enumerate() {
            let denominator = exact::leg_denominator(&sheet, position);
            let [default_limit, premium_limit] = exact::doubled_distances(&sheet, position);
            for (tranche, count) in nodes(&sheet) {
                let rounded = default_leg(&sheet, rows, tranche, count);
                let exact = exact::default_leg(&sheet, position, tranche, count);
                let off = doubled_distance(rounded, &exact, &denominator);
                assert!(off <= multiple(default_limit, &denominator));
                default_off += usize::from(off >= denominator);

                let rounded = premium_leg(&sheet, rows, tranche, count);
                let exact = exact::premium_leg(&sheet, position, tranche, count);
                let off = doubled_distance(rounded, &exact, &denominator);
                assert!(off <= multiple(premium_limit, &denominator));
                premium_off += usize::from(off >= denominator);
            }
        }
    }
    // The trees do round: many legs are half a unit off or more.
    assert!(default_off > 100);
    assert!(premium_off > 100);
}

/// One step whose roundings all go up and nearly by a half, so that neither
/// distance could be promised smaller.
#[test]
fn distances_can_nearly_be_reached() {
    let mut sheet = plain_sheet(1, 1, 1);
    sheet.recovery = 0;
    sheet.attachments = vec![0, B - 1];
    sheet.hazards = vec![B / 2];
    sheet.discounts = vec![B - 1];
    assert_eq!(check(&sheet), Ok(()));
    let rows = &rows_by_position(&sheet)[0];
    let denominator = exact::leg_denominator(&sheet, 0);
    let exact = exact::default_leg(&sheet, 0, 0, 0);
    let off = doubled_distance(default_leg(&sheet, rows, 0, 0), &exact, &denominator);
    // 0.9999999995 of the one unit allowed.
    assert_eq!(
        off,
        Natural::new(1_999_999_999).times(&Natural::power_of_b(2))
    );

    let mut sheet = plain_sheet(2, 1, 1);
    sheet.recovery = 0;
    sheet.attachments = vec![2, B - 1];
    sheet.hazards = vec![B / 2, 0];
    sheet.discounts = vec![B - 4];
    sheet.accruals = vec![B / 2];
    assert_eq!(check(&sheet), Ok(()));
    let rows = &rows_by_position(&sheet)[0];
    let exact = exact::premium_leg(&sheet, 0, 0, 0);
    let off = doubled_distance(premium_leg(&sheet, rows, 0, 0), &exact, &denominator);
    // 1.499999996 of the one and a half units allowed.
    assert_eq!(
        off,
        Natural::new(2_999_999_992).times(&Natural::power_of_b(2))
    );
}

/// The path sums are not defined by the backward rule; without rounding
/// they agree with it all the same.
#[test]
fn exact_legs_obey_the_unrounded_backward_rule() {
    for sheet in trees().iter().take(100) {
        for position in 0..sheet.steps {
            let step = position + 1;
            let unit = exact::leg_denominator(sheet, step);
            let payment_unit = Natural::power_of_b(2 * (sheet.steps - step));
            for (tranche, count) in nodes(sheet) {
                let default_branch = |next: usize| {
                    let payment = if next > count {
                        default_payment(sheet, tranche, count)
                    } else {
                        0
                    };
                    let later = exact::default_leg(sheet, step, tranche, next);
                    later.plus(&Natural::new(payment).times(&unit))
                };
                let premium_branch = |next: usize| {
                    let mut payment = premium_payment_over_b(sheet, tranche, step, next);
                    if next > count {
                        payment += elapsed_payment_over_b(sheet, tranche, step, count);
                    }
                    let later = exact::premium_leg(sheet, step, tranche, next);
                    later.plus(&Natural::new(payment).times(&payment_unit))
                };
                let default = one_exact_step(sheet, step, count, default_branch);
                assert_eq!(exact::default_leg(sheet, position, tranche, count), default);
                let premium = one_exact_step(sheet, step, count, premium_branch);
                assert_eq!(exact::premium_leg(sheet, position, tranche, count), premium);
            }
        }
    }
}

/// v (p x up + (B - p) x stay), where `branch` tells the worth at a count
/// after the step.
fn one_exact_step(
    sheet: &Sheet,
    step: usize,
    count: usize,
    branch: impl Fn(usize) -> Natural,
) -> Natural {
    let mut sum = branch(count).times(&Natural::new(sheet.survival(step, count)));
    if count < sheet.names {
        let up = branch(count + 1).times(&Natural::new(sheet.hazard(step, count)));
        sum = sum.plus(&up);
    }
    sum.times(&Natural::new(sheet.discount(step)))
}

/// At each count, the exact legs of the tranches add to the leg of the one
/// tranche that spans them; the rounded ones do so within (r + 1) distances.
#[test]
fn tranches_add_to_the_one_that_spans_them() {
    let mut rounded_sums_differ = 0;
    for sheet in trees() {
        let span = spanning_sheet(&sheet);
        assert_eq!(check(&span), Ok(()));
        let span_rows = rows_by_position(&span);
        for (position, rows) in rows_by_position(&sheet).iter().enumerate() {
            for count in 0..=sheet.names {
                let mut exact_default = Natural::zero();
                let mut exact_premium = Natural::zero();
                let mut default = 0;
                let mut premium = 0;
                for tranche in 0..sheet.tranches {
                    let leg = exact::default_leg(&sheet, position, tranche, count);
                    exact_default = exact_default.plus(&leg);
                    let leg = exact::premium_leg(&sheet, position, tranche, count);
                    exact_premium = exact_premium.plus(&leg);
                    default += default_leg(&sheet, rows, tranche, count);
                    premium += premium_leg(&sheet, rows, tranche, count);
                }
                let whole = exact::default_leg(&span, position, 0, count);
                assert_eq!(exact_default, whole);
                let whole = exact::premium_leg(&span, position, 0, count);
                assert_eq!(exact_premium, whole);

                let [default_limit, premium_limit] = exact::doubled_distances(&sheet, position);
                let parts = sheet.tranches + 1;
                let whole = default_leg(&span, &span_rows[position], 0, count);
                assert!(2 * default.abs_diff(whole) <= (parts * default_limit) as u128);
                rounded_sums_differ += usize::from(default != whole);
                let whole = premium_leg(&span, &span_rows[position], 0, count);
                assert!(2 * premium.abs_diff(whole) <= (parts * premium_limit) as u128);
                rounded_sums_differ += usize::from(premium != whole);
            }
        }
    }
    assert!(rounded_sums_differ > 100);
}

/// T-12: where the points run from 0 to B, the premiums of the tranches add to
/// those of the index: what they are paid on and exact values exactly, the rows
/// within (r + 1) distances.
#[test]
fn tranches_of_the_whole_pool_add_to_the_index() {
    let mut rounded_sums_differ = 0;
    for mut sheet in trees() {
        sheet.attachments[0] = 0;
        sheet.attachments[sheet.tranches] = B;
        assert_eq!(check(&sheet), Ok(()));
        let index = sheet.index();
        for (position, rows) in rows_by_position(&sheet).iter().enumerate() {
            let [_, limit] = exact::doubled_distances(&sheet, position);
            for count in 0..=sheet.names {
                let sum = |figure: &dyn Fn(usize) -> u128| (0..index).map(figure).sum::<u128>();
                let left = |tranche| outstanding(&sheet, tranche, count);
                assert_eq!(sum(&left), left(index));
                let exactly = |tranche| exact::premium_leg(&sheet, position, tranche, count);
                let exact_sum = (0..index).map(exactly);
                let exact_sum = exact_sum.fold(Natural::zero(), |sum, leg| sum.plus(&leg));
                assert_eq!(exact_sum, exactly(index));
                let leg = |tranche| premium_leg(&sheet, rows, tranche, count);
                let apart = 2 * sum(&leg).abs_diff(leg(index));
                assert!(apart <= ((index + 1) * limit) as u128);
                rounded_sums_differ += usize::from(apart > 0);
            }
        }
    }
    assert!(rounded_sums_differ > 100);
}

/// Coupons and the number do not enter the rows, and the index row does not
/// depend on the attachment points.
#[test]
fn rows_depend_on_nothing_else() {
    for sheet in trees() {
        let span = spanning_sheet(&sheet);
        let all = rows_by_position(&sheet);
        for (rows, span_rows) in all.iter().zip(rows_by_position(&span)) {
            for count in 0..=sheet.names {
                let here = place(&sheet, sheet.index(), count);
                let there = place(&span, 1, count);
                assert_eq!(rows.default_row[here], span_rows.default_row[there]);
                assert_eq!(rows.premium_row[here], span_rows.premium_row[there]);
            }
        }
        let mut other = sheet.clone();
        other.number = !sheet.number;
        other.coupons = vec![77; sheet.tranches + 1];
        assert_eq!(rows_by_position(&other), all);
    }
}

#[test]
fn walked_rows_keep_their_ceilings() {
    let mut default_ceilings_reached = 0;
    let mut above_the_accruals = 0;
    for sheet in trees() {
        for (position, rows) in rows_by_position(&sheet).iter().enumerate() {
            assert_eq!(first_over_ceiling(&sheet, rows, position), None);
            for (tranche, count) in nodes(&sheet) {
                let default = default_leg(&sheet, rows, tranche, count);
                let limit = default_ceiling(&sheet, tranche, count);
                assert!(default <= limit);
                default_ceilings_reached += usize::from(default == limit && limit > 0);
                let premium = premium_leg(&sheet, rows, tranche, count);
                assert!(premium <= premium_ceiling(&sheet, position, count));
                let ahead = &sheet.accruals[position..];
                above_the_accruals += usize::from(premium > ahead.iter().sum::<u64>().into());
            }
        }
    }
    // No lower ceiling would do for D, and for A not the accruals alone.
    assert!(default_ceilings_reached > 0);
    assert!(above_the_accruals > 0);
}

/// At the ceiling a row is clean, one unit higher it is not, and of two
/// such nodes the first is named.
#[test]
fn search_finds_the_first_entry_over_its_ceiling() {
    for sheet in trees().iter().take(100) {
        for position in 0..=sheet.steps {
            let mut rows = Rows::zero(sheet);
            for (tranche, count) in nodes(sheet) {
                let here = place(sheet, tranche, count);
                rows.default_row[here] = default_ceiling(sheet, tranche, count);
                rows.premium_row[here] = premium_ceiling(sheet, position, count);
            }
            assert_eq!(first_over_ceiling(sheet, &rows, position), None);
            // From the last node to the first, so each find is the first.
            let mut soiled_default = rows.clone();
            let mut soiled_premium = rows.clone();
            let mut soiled_in_turn = rows;
            for (tranche, count) in nodes(sheet).into_iter().rev() {
                let here = place(sheet, tranche, count);
                soiled_default.default_row[here] += 1;
                soiled_premium.premium_row[here] += 1;
                if here.is_multiple_of(2) {
                    soiled_in_turn.default_row[here] += 1;
                } else {
                    soiled_in_turn.premium_row[here] += 1;
                }
                for rows in [&soiled_default, &soiled_premium, &soiled_in_turn] {
                    let found = first_over_ceiling(sheet, rows, position);
                    assert_eq!(found, Some((tranche, count)));
                }
            }
        }
    }
}

/// With a unit for each name that is left, and two for each step.
#[test]
fn premium_ceiling_counts_the_accruals_to_come() {
    let mut sheet = plain_sheet(2, 3, 1);
    sheet.accruals = vec![1_000, 200, 30];
    for (position, ceilings) in [
        (0, [1_238, 1_237, 1_236]),
        (1, [236, 235, 234]),
        (2, [34, 33, 32]),
        (3, [2, 1, 0]),
    ] {
        let found = [0, 1, 2].map(|count| premium_ceiling(&sheet, position, count));
        assert_eq!(found, ceilings);
        // Fractions do not move it.
        sheet.elapsed = vec![30; 3];
        assert_eq!(check(&sheet), Ok(()));
        let found = [0, 1, 2].map(|count| premium_ceiling(&sheet, position, count));
        assert_eq!(found, ceilings);
    }
}

/// Without fractions a default never hurts the holder of protection, on rows
/// of a walk.
#[test]
fn jumps_on_walked_rows_are_never_negative() {
    let mut positive = 0;
    let mut zero = 0;
    for mut sheet in trees() {
        sheet.elapsed.fill(0);
        for rows in rows_by_position(&sheet) {
            for (tranche, count) in nodes(&sheet) {
                if count == sheet.names {
                    continue;
                }
                let jump = jump(&sheet, &rows, tranche, count);
                assert!(jump >= 0);
                positive += usize::from(jump > 0);
                zero += usize::from(jump == 0);
                if let Ok(ratio) = hedge_ratio(&sheet, &rows, tranche, count) {
                    assert!(ratio >= 0);
                }
            }
        }
    }
    assert!(positive > 0 && zero > 0);
}

/// With fractions the premium may make a jump negative, but what is paid for
/// defaults still never falls by more than the next one pays.
#[test]
fn default_halves_of_jumps_are_never_negative() {
    let mut negative = 0;
    for sheet in trees() {
        for rows in rows_by_position(&sheet) {
            for (tranche, count) in nodes(&sheet) {
                if count == sheet.names {
                    continue;
                }
                let next = default_leg(&sheet, &rows, tranche, count + 1);
                let paid = next + default_payment(&sheet, tranche, count);
                assert!(paid >= default_leg(&sheet, &rows, tranche, count));
                negative += usize::from(jump(&sheet, &rows, tranche, count) < 0);
            }
        }
    }
    assert!(negative > 20, "{negative}");
}

/// Every way to write `total` as a list of positive parts.
fn splits(total: usize) -> Vec<Vec<usize>> {
    if total == 0 {
        return vec![Vec::new()];
    }
    let mut all = Vec::new();
    for first in 1..=total {
        for mut rest in splits(total - first) {
            rest.insert(0, first);
            all.push(rest);
        }
    }
    all
}

#[test]
fn any_split_of_the_steps_gives_the_same_rows() {
    assert_eq!(splits(3), [vec![1, 1, 1], vec![1, 2], vec![2, 1], vec![3]]);
    for sheet in trees() {
        let at_once = rows_by_position(&sheet);
        for split in splits(sheet.steps) {
            let mut rows = Rows::zero(&sheet);
            let mut position = sheet.steps;
            for part in split {
                position = roll_back(&sheet, &mut rows, position, part);
                assert_eq!(rows, at_once[position]);
                // Going back by nothing changes nothing.
                assert_eq!(roll_back(&sheet, &mut rows, position, 0), position);
                assert_eq!(rows, at_once[position]);
            }
            assert_eq!(position, 0);
        }
    }
}

#[test]
fn distribution_totals_one_and_stays_near_the_exact_one() {
    let mut rows_off = 0;
    for sheet in trees() {
        for steps in 0..=sheet.steps {
            let row = distribution(&sheet, steps);
            assert_eq!(row.len(), sheet.names + 1);
            assert_eq!(row.iter().sum::<u128>(), u128::from(B));

            let one = Natural::power_of_b(steps);
            let exact = exact::distribution(&sheet, steps);
            let mut total = Natural::zero();
            let mut error = Natural::zero();
            for (rounded, exact) in row.iter().zip(&exact) {
                // Chances are in billionths: Q over B against X over B^i.
                let scaled = Natural::new(*rounded).times(&one);
                let exact = exact.times(&Natural::new(u128::from(B)));
                error = error.plus(&scaled.distance(&exact));
                total = total.plus(&exact);
            }
            assert_eq!(total, Natural::power_of_b(steps + 1));
            assert!(error <= multiple(sheet.names * steps, &one));
            rows_off += usize::from(error >= one);
        }
    }
    // Many rows are off by a whole unit in total.
    assert!(rows_off > 100);
}

/// The largest tree: nothing overflows, ceilings and totals hold, without
/// fractions and with the highest.
#[test]
fn largest_tree_walks_to_its_root() {
    let mut sheet = plain_sheet(125, 3_650, 8);
    sheet.attachments = (0..9).map(|point| B / 8 * point).collect();
    sheet.hazards = (0..125).map(|k| 3_000_000 + 700_000 * k).collect();
    for fraction in [0, 2_000_000] {
        sheet.elapsed.fill(fraction);
        assert_eq!(check(&sheet), Ok(()));
        let mut rows = Rows::zero(&sheet);
        let mut position = sheet.steps;
        while position > 0 {
            position = roll_back(&sheet, &mut rows, position, 365);
            assert_eq!(first_over_ceiling(&sheet, &rows, position), None);
            for (tranche, count) in nodes(&sheet) {
                let no_jump = fraction > 0 || count == 125;
                assert!(no_jump || jump(&sheet, &rows, tranche, count) >= 0);
            }
            let row = distribution(&sheet, sheet.steps - position);
            assert_eq!(row.iter().sum::<u128>(), u128::from(B));
        }
    }
    // Without discount and with certain defaults, the index loses its width.
    sheet.discounts = vec![B; 3_650];
    sheet.hazards = vec![B; 125];
    let mut rows = Rows::zero(&sheet);
    roll_back(&sheet, &mut rows, 3_650, 3_650);
    let index = sheet.index();
    assert_eq!(default_leg(&sheet, &rows, index, 0), 600_000_000);
    assert_eq!(distribution(&sheet, 3_650)[125], u128::from(B));
}

#[test]
fn move_lists_are_all_and_only_the_allowed_ones() {
    let (stay, default) = (Move::Stay, Move::Default);
    let sheet = plain_sheet(1, 1, 1);
    assert_eq!(exact::move_lists(&sheet, 0, 0), [vec![]]);
    let from_none = [vec![stay, stay], vec![stay, default], vec![default, stay]];
    assert_eq!(exact::move_lists(&sheet, 0, 2), from_none);
    assert_eq!(exact::move_lists(&sheet, 1, 2), [vec![stay, stay]]);
    // From none of 4 names in 6 moves: 64 lists less 6 and 1 with 5 and 6.
    assert_eq!(exact::move_lists(&plain_sheet(4, 6, 1), 0, 6).len(), 57);
}
