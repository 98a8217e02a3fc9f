//! The page's formulas, worked out on random sheets beside the model.

use super::worked::{figure, rows_at};
use super::{between, blocks, cells, ensure, same, says, section, table, Found};
use crate::arithmetic::{commas, work_out, Ratio};
use crate::common::{plain_sheet, Random};
use lavroudem_model::cash::{
    elapsed_payment, half, outstanding, pool_loss, premium_payment, recovered, tranche_loss,
    tranche_recovery, width,
};
use lavroudem_model::sheet::{Sheet, B};
use lavroudem_model::tree::{
    default_ceiling, default_leg, distribution, jump, net_value, place, premium_ceiling,
    premium_leg, ratio_in_millionths, Rows,
};
use lavroudem_model::worked;

/// What the page's letters mean: at a tranche and a count of a sheet, with
/// rows that stand at a position.
struct Scene<'a> {
    sheet: &'a Sheet,
    tranche: usize,
    count: usize,
    /// i of the formula.
    step: usize,
    /// Where the rows stand.
    position: usize,
    rows: &'a Rows,
    /// Further letters.
    letters: Vec<(&'a str, i128)>,
}

impl Scene<'_> {
    fn work_out(&self, text: &str) -> Result<i128, String> {
        let found = work_out(text, &|name, places| self.meaning(name, places));
        let found = found.ok_or(format!("no formula: {text}"))?;
        found.as_whole().ok_or(format!("not whole: {text}"))
    }

    fn meaning(&self, name: &str, places: &[Ratio]) -> Option<Ratio> {
        let places: Option<Vec<usize>> = places
            .iter()
            .map(|place| usize::try_from(place.as_whole()?).ok())
            .collect();
        let number = match places?.as_slice() {
            [] => self.letter(name)?,
            &[place] => self.at(name, place)?,
            &[step, count] if name == "p" => self.chance(step, count)?,
            &[step, count] if step == self.position => self.leg(name, count)?,
            _ => return None,
        };
        Some(Ratio::whole(number))
    }

    fn letter(&self, name: &str) -> Option<i128> {
        let sheet = self.sheet;
        let point = |place: usize| sheet.attachments.get(place).map(|&point| i128::from(point));
        if let Some(&(_, number)) = self.letters.iter().find(|(letter, _)| *letter == name) {
            return Some(number);
        }
        match name {
            "B" => Some(B as i128),
            "R" => Some(sheet.recovery.into()),
            "n" => Some(sheet.names as i128),
            "m" => Some(sheet.steps as i128),
            "k" => Some(self.count as i128),
            "j" => Some(self.tranche as i128),
            "i" => Some(self.step as i128),
            "lower" => point(self.tranche),
            "upper" => point(self.tranche + 1),
            "width" => Some(width(sheet, self.tranche) as i128),
            "coupon" => Some(sheet.coupon(self.tranche) as i128),
            "D" | "A" => self.leg(name, self.count),
            _ => None,
        }
    }

    /// These past the last count are 0: there p is 0 too.
    fn at(&self, name: &str, place: usize) -> Option<i128> {
        let (sheet, tranche) = (self.sheet, self.tranche);
        if place > sheet.names && ["L", "Z", "M", "T", "O"].contains(&name) {
            return Some(0);
        }
        let is_step = (1..=sheet.steps).contains(&place);
        let number = match name {
            "L" => pool_loss(sheet, place),
            "Z" => recovered(sheet, place),
            "M" => tranche_loss(sheet, tranche, place),
            "T" => tranche_recovery(sheet, tranche, place),
            "O" => outstanding(sheet, tranche, place),
            "v" if is_step => sheet.discount(place),
            "a" if is_step => sheet.accrual(place),
            "e" if is_step => sheet.elapsed(place),
            _ => return None,
        };
        Some(number as i128)
    }

    /// p into a step.
    fn chance(&self, step: usize, count: usize) -> Option<i128> {
        let sheet = self.sheet;
        let on_tree = (1..=sheet.steps).contains(&step) && count <= sheet.names;
        on_tree.then(|| sheet.hazard(step, count) as i128)
    }

    fn leg(&self, name: &str, count: usize) -> Option<i128> {
        if count > self.sheet.names {
            return Some(0);
        }
        let leg = match name {
            "D" => default_leg(self.sheet, self.rows, self.tranche, count),
            "A" => premium_leg(self.sheet, self.rows, self.tranche, count),
            _ => return None,
        };
        Some(leg as i128)
    }
}

/// Pools whose one name loses as much as an attachment point, or a unit less
/// or more.
fn losses_beside_points() -> Vec<Sheet> {
    let plain = plain_sheet(1, 1, 2);
    let losses = plain.attachments[1..]
        .iter()
        .flat_map(|point| [point - 1, *point, point + 1]);
    let sheet = |loss| Sheet {
        recovery: (B - u128::from(loss)) as u64,
        ..plain.clone()
    };
    losses.map(sheet).collect()
}

/// Runs a check at every tranche and count of some sheets, with their rows at
/// every position.
fn everywhere(check: &dyn Fn(Scene) -> Found) -> Found {
    let mut random = Random::new(14);
    let sizes = [(1, 1, 1), (2, 5, 1), (3, 4, 2), (4, 3, 3)];
    let mut sheets = sizes.map(|(n, m, r)| random.sheet(n, m, r)).to_vec();
    sheets.extend(losses_beside_points());
    sheets.extend([worked::two_periods(), worked::earned()]);
    for sheet in sheets {
        let (names, steps, tranches) = (sheet.names, sheet.steps, sheet.tranches);
        for position in 0..=steps {
            let rows = rows_at(&sheet, position);
            for node in 0..(tranches + 1) * (names + 1) {
                check(Scene {
                    sheet: &sheet,
                    tranche: node / (names + 1),
                    count: node % (names + 1),
                    step: position,
                    position,
                    rows: &rows,
                    letters: Vec::new(),
                })?;
            }
        }
    }
    Ok(())
}

/// The right side of the formula with this left side, and the line behind it.
fn formula<'a>(page: &'a str, left: &str) -> Result<(&'a str, &'a str), String> {
    let start = format!("    {left} = ");
    let mut lines = page.lines().skip_while(|line| !line.starts_with(&start));
    let line = lines.next().ok_or(format!("no formula for {left}"))?;
    Ok((&line[start.len()..], lines.next().unwrap_or("")))
}

pub fn loss_formulas_are_the_models(page: &str) -> Found {
    let (loss, _) = formula(page, "L(k)")?;
    let (got, _) = formula(page, "Z(k)")?;
    let rows = table(page, "| | Tranche | Index |")?;
    let signs: Vec<&str> = rows.iter().map(|row| row[0]).collect();
    same(signs, vec!["width", "M(k)", "T(k)", "O(k)"], "signs")?;
    everywhere(&|scene| {
        let (sheet, tranche, count) = (scene.sheet, scene.tranche, scene.count);
        let of_index = tranche == sheet.index();
        let cell = |row: usize| rows[row][1 + usize::from(of_index)];
        let [size, lost, taken, left] = [0, 1, 2, 3].map(cell);
        let most = width(sheet, tranche) as i128;
        same(
            scene.work_out(loss)?,
            pool_loss(sheet, count) as i128,
            "L(k)",
        )?;
        same(
            scene.work_out(got)?,
            recovered(sheet, count) as i128,
            "Z(k)",
        )?;
        same(scene.work_out(size)?, most, "width")?;
        let lost = if of_index {
            scene.work_out(lost)?
        } else {
            by_cases(&scene, lost)?
        };
        same(lost, tranche_loss(sheet, tranche, count) as i128, "M(k)")?;
        let taken = match taken.strip_suffix(", but never below 0 or above the width") {
            Some(text) => scene.work_out(text)?.clamp(0, most),
            None => scene.work_out(taken)?,
        };
        let right = tranche_recovery(sheet, tranche, count) as i128;
        same(taken, right, "T(k)")?;
        let right = outstanding(sheet, tranche, count) as i128;
        same(scene.work_out(left)?, right, "O(k)")
    })
}

/// `FIGURE if LESS ≤ MORE; else FIGURE if LESS ≤ MORE; else FIGURE`.
fn by_cases(scene: &Scene, cases: &str) -> Result<i128, String> {
    for case in cases.split("; else ") {
        let Some((figure, test)) = case.split_once(" if ") else {
            return scene.work_out(case);
        };
        let (less, more) = test.split_once(" ≤ ").ok_or(format!("no test: {test}"))?;
        if scene.work_out(less)? <= scene.work_out(more)? {
            return scene.work_out(figure);
        }
    }
    Err(format!("no case holds: {cases}"))
}

pub fn half_is_the_models(page: &str) -> Found {
    let (rounded, _) = formula(page, "half(y)")?;
    for y in [
        0,
        1,
        B / 2 - 1,
        B / 2,
        B,
        3 * B / 2 - 1,
        3 * B / 2,
        7 * B + 123,
    ] {
        let names = |name: &str, _: &[Ratio]| {
            let number = if name == "B" { B } else { y };
            Some(Ratio::whole(number as i128))
        };
        let right = Some(Ratio::whole(half(y) as i128));
        same(work_out(rounded, &names), right, "half(y)")?;
    }
    Ok(())
}

/// D and A one step before the rows, each by its Y.
pub fn leg_formulas_are_the_models(page: &str) -> Found {
    for leg in ["D", "A"] {
        let (before, chance) = formula(page, &format!("{leg}(i, k)"))?;
        let chance = chance.strip_prefix("    Y = ").ok_or("no formula for Y")?;
        everywhere(&|mut scene| {
            if scene.position == 0 {
                return Ok(());
            }
            scene.step = scene.position - 1;
            scene.letters = vec![("Y", scene.work_out(chance)?)];
            let place = (scene.step, scene.tranche, scene.count);
            let right = figure(scene.sheet, leg, place).unwrap();
            same(scene.work_out(before)?, right, leg)
        })?;
    }
    Ok(())
}

/// Where the hazard of a move stands in the list. The period of a step is the
/// last that has started.
pub fn hazard_formula_is_the_models(page: &str) -> Found {
    let start = "In period j, counted from 0, it is the entry ";
    let entry = between(page, start, " of the list, counted from 0.")?;
    everywhere(&|mut scene| {
        let (sheet, step, count) = (scene.sheet, scene.step, scene.count);
        if step == 0 || count == sheet.names {
            return Ok(());
        }
        let later = |&&start: &&u64| start > step as u64;
        let period = sheet.starts.len() - 1 - sheet.starts.iter().filter(later).count();
        scene.letters = vec![("j", period as i128)];
        let found = sheet.hazards.get(scene.work_out(entry)? as usize).copied();
        same(found, Some(sheet.hazard(step, count) as u64), "p(s, k)")
    })
}

pub fn figure_formulas_are_the_models(page: &str) -> Found {
    let (net, _) = formula(page, "W")?;
    let (leap, _) = formula(page, "J")?;
    let (size, _) = formula(page, "size of the ratio")?;
    let most = ratio_in_millionths(1_000_000_000_000_000 - 1, 1_000_000_000).unwrap();
    says(
        page,
        &format!("may round to {} and is answered", commas(most)),
    )?;
    everywhere(&|scene| {
        let (sheet, rows, tranche, count) = (scene.sheet, scene.rows, scene.tranche, scene.count);
        same(
            scene.work_out(net)?,
            net_value(sheet, rows, tranche, count),
            "W",
        )?;
        if count < sheet.names {
            same(
                scene.work_out(leap)?,
                jump(sheet, rows, tranche, count),
                "J",
            )?;
            same_ratios(scene, size)?;
        }
        Ok(())
    })
}

/// Where an entry stands in its row, its ceilings, and both premium payments.
pub fn entry_formulas_are_the_models(page: &str) -> Found {
    let start = "the entry of tranche j and count k is at ";
    let entry = between(page, start, ", counted from 0, the index last")?;
    let paid = between(page, "The rows take it as ", ";")?;
    says(
        page,
        "is P(i, k) = a(i) × O(k) / B, for the count that the step has led to.",
    )?;
    let earned = between(page, "In the rows it is ", ", rounded by itself;")?;
    says(
        page,
        "E(i, k) = e(i) × (O(k) - O(k + 1)) / B, where k is the count before it.",
    )?;
    let ceilings = table(page, "| Entry | Ceiling |")?.concat();
    let [_, most, _, premium] = cells(&ceilings)?;
    same(
        [ceilings[0], ceilings[2]],
        ["D(i, k)", "A(i, k)"],
        "entries",
    )?;
    let units = premium.strip_prefix("a(i + 1) + ... + a(m) + ");
    let units = units.ok_or("another ceiling of A")?;
    everywhere(&|scene| {
        let (sheet, tranche, count) = (scene.sheet, scene.tranche, scene.count);
        let right = place(sheet, tranche, count) as i128;
        same(scene.work_out(entry)?, right, "an entry")?;
        let right = default_ceiling(sheet, tranche, count) as i128;
        same(scene.work_out(most)?, right, "a ceiling")?;
        let accruals: u64 = sheet.accruals[scene.position..].iter().sum();
        let right = premium_ceiling(sheet, scene.position, count) as i128;
        let found = i128::from(accruals) + scene.work_out(units)?;
        same(found, right, "a ceiling")?;
        if scene.step == 0 {
            return Ok(());
        }
        let right = premium_payment(sheet, tranche, scene.step, count) as i128;
        same(scene.work_out(paid)?, right, "P(i, k)")?;
        if count == sheet.names {
            return Ok(());
        }
        let right = elapsed_payment(sheet, tranche, scene.step, count) as i128;
        same(scene.work_out(earned)?, right, "E(i, k)")
    })
}

/// The ratio by the sizes of both jumps, t and x.
fn same_ratios(mut scene: Scene, size: &str) -> Found {
    let jumps = |tranche| jump(scene.sheet, scene.rows, tranche, scene.count);
    let (tranche, index) = (jumps(scene.tranche), jumps(scene.sheet.index()));
    let cases = [
        (tranche, index),
        (1, 2_000_000),
        (-3, 2_000_000),
        (7, -9),
        (0, 5),
    ];
    for (t, x) in cases {
        let Ok(right) = ratio_in_millionths(t, x) else {
            continue;
        };
        scene.letters = vec![("t", t.abs()), ("x", x.abs())];
        same(scene.work_out(size)?, right.abs(), "ratio")?;
        let signs = right.signum() == t.signum() * x.signum() || right == 0;
        ensure(signs, || "a sign".into())?;
    }
    Ok(())
}

/// Moves by the page's expression give the model's rows.
pub fn forward_formula_is_the_models(page: &str) -> Found {
    let lines = blocks(section(page, "## Forward")?).concat();
    let [start, step] = lines[..] else {
        return Err("the rule of forward is not found".into());
    };
    same(start, "at step 0: Q(0) = B, all others 0", "start")?;
    let rest = step.strip_prefix("in each step s, for every k below n: ");
    let moved = rest.and_then(|rest| rest.strip_suffix(" moves from Q(k) to Q(k + 1)"));
    let moved = moved.ok_or("another step")?;
    let mut random = Random::new(15);
    let sheets = [
        worked::sheet(),
        worked::two_periods(),
        random.sheet(4, 6, 1),
        random.sheet(3, 9, 1),
    ];
    sheets
        .iter()
        .try_for_each(|sheet| moves_are_the_models(sheet, moved))
}

fn moves_are_the_models(sheet: &Sheet, moved: &str) -> Found {
    let mut row = vec![0; sheet.names + 1];
    row[0] = B as i128;
    for done in 1..=sheet.steps {
        let old = row.clone();
        for k in 0..sheet.names {
            let size = forward_move(sheet, moved, (done, k), &old)?;
            row[k] -= size;
            row[k + 1] += size;
        }
        let right = distribution(sheet, done);
        let right = right.iter().map(|&q| q as i128).collect();
        same(row.clone(), right, "Q")?;
    }
    Ok(())
}

fn forward_move(
    sheet: &Sheet,
    text: &str,
    (s, k): (usize, usize),
    row: &[i128],
) -> Result<i128, String> {
    let names = |name: &str, places: &[Ratio]| {
        let place = |at: usize| usize::try_from(places[at].as_whole()?).ok();
        let number = match (name, places.len()) {
            ("s", 0) => s as i128,
            ("k", 0) => k as i128,
            ("Q", 1) => *row.get(place(0)?)?,
            ("p", 2) if (1..=sheet.steps).contains(&place(0)?) && place(1)? <= sheet.names => {
                sheet.hazard(place(0)?, place(1)?) as i128
            }
            _ => return None,
        };
        Some(Ratio::whole(number))
    };
    let found = work_out(text, &names).and_then(Ratio::as_whole);
    found.ok_or(format!("no move: {text}"))
}
