//! Refusals 1 to 16, 21 and 25 of the calls that bring a sheet: each at both
//! sides of its limit, their order, and that a refused call leaves all as it was.

mod common;

use common::desk::Call::{self, Back, Ratio, Value};
use common::desk::Desk;
use common::edges::{base, edges, lone_edges, walked, Change, Edge, ALL, ON_A_WALK, VALUE};
use common::Random;
use lavroudem_model::deck::CALLS;
use lavroudem_model::refusal::Refusal;
use lavroudem_model::tree::{default_ceiling, place, premium_ceiling};
use lavroudem_model::walk::row_length;

fn assert_accepted(desk: &Desk, call: Call, about: &str) {
    let answer = desk.clone().ask(&CALLS, call);
    assert!(answer.is_ok(), "{call:?}, {about}: {answer:?}");
}

/// Only the number comes back, and nothing is changed.
fn assert_refused(desk: &Desk, call: Call, refusal: Refusal, about: &str) {
    let mut asked = desk.clone();
    assert_eq!(asked.ask(&CALLS, call), Err(refusal), "{call:?}, {about}");
    assert_eq!(&asked, desk, "{call:?}, {about}");
}

/// The base desk with a change.
fn changed(change: Change) -> Desk {
    let mut desk = base();
    change(&mut desk);
    desk
}

#[test]
fn base_desk_is_accepted_by_every_call() {
    for &call in ALL {
        assert_accepted(&base(), call, "base");
    }
}

#[test]
fn every_call_heeds_both_sides_of_each_limit() {
    for edge in edges().iter().chain(&lone_edges()) {
        for &call in edge.calls {
            assert_accepted(&changed(edge.inside), call, edge.name);
            assert_refused(&changed(edge.outside), call, edge.refusal, edge.name);
        }
    }
}

/// Open looks at no walk and no row content, forward at neither row; what
/// is not asked of a call does not refuse it.
#[test]
fn no_call_heeds_a_limit_of_others() {
    for edge in edges() {
        for &call in ALL {
            // A count above n is off the tree for a ratio too.
            let shared = call == Ratio && edge.calls == VALUE;
            if !edge.calls.contains(&call) && !shared {
                assert_accepted(&changed(edge.outside), call, edge.name);
            }
        }
    }
}

/// Two faults that cannot be made on one desk, because each undoes the
/// other: two of one number, two bytes of the register, two pairs of jumps.
fn exclude_each_other(first: Refusal, second: Refusal) -> bool {
    let both = (first, second);
    first == second
        || both == (Refusal::Withdrawn, Refusal::Unissued)
        || both == (Refusal::FlatHedge, Refusal::OffScale)
}

/// Every pair of faults from the whole table.
#[test]
fn of_any_two_faults_the_first_is_named() {
    let edges = edges();
    let mut pairs = 0;
    for (at, first) in edges.iter().enumerate() {
        for second in &edges[at..] {
            if exclude_each_other(first.refusal, second.refusal) {
                continue;
            }
            let mut desk = base();
            (first.outside)(&mut desk);
            (second.outside)(&mut desk);
            let about = format!("{} and {}", first.name, second.name);
            for &call in ALL {
                if first.calls.contains(&call) && second.calls.contains(&call) {
                    assert_refused(&desk, call, first.refusal, &about);
                    pairs += 1;
                }
            }
        }
    }
    assert!(pairs > 3_000);
}

/// One fault for each refusal, and every set of those a call can meet.
#[test]
fn of_any_set_of_faults_the_first_is_named() {
    for &call in ALL {
        let mut faults: Vec<Edge> = Vec::new();
        for edge in edges() {
            // One of each two that exclude each other.
            let taken = faults.iter().any(|f| f.refusal == edge.refusal);
            let unfit = edge.refusal == Refusal::Unissued || edge.refusal == Refusal::OffScale;
            if edge.calls.contains(&call) && !taken && !unfit {
                faults.push(edge);
            }
        }
        assert!(faults.len() >= 9);
        for set in 1_usize..1 << faults.len() {
            let mut desk = base();
            for (bit, fault) in faults.iter().enumerate() {
                if set >> bit & 1 == 1 {
                    (fault.outside)(&mut desk);
                }
            }
            let first = &faults[set.trailing_zeros() as usize];
            assert_refused(&desk, call, first.refusal, first.name);
        }
    }
}

#[test]
fn every_register_byte_decides_for_its_own_number_only() {
    for byte in 0..=255 {
        let mut desk = base();
        desk.register = vec![byte; 256];
        for &call in ALL {
            match byte {
                0xA5 => assert_accepted(&desk, call, "live"),
                0xFF => assert_refused(&desk, call, Refusal::Unissued, "unissued"),
                _ => assert_refused(&desk, call, Refusal::Withdrawn, "withdrawn"),
            }
        }
        desk.register[1] = 0xA5;
        for &call in ALL {
            assert_accepted(&desk, call, "others differ");
        }
    }
}

#[test]
fn every_entry_has_its_ceiling_at_every_position() {
    let mut random = Random::new(12);
    for _ in 0..30 {
        let sheet = random.small_sheet();
        let mut desk = walked(sheet.clone());
        for position in 0..=sheet.steps {
            desk.walk.position = position;
            desk.back_by = position;
            for tranche in 0..=sheet.index() {
                for count in 0..=sheet.names {
                    let here = place(&sheet, tranche, count);
                    desk.default_row[here] = default_ceiling(&sheet, tranche, count) as u64;
                    desk.premium_row[here] = premium_ceiling(&sheet, position, count) as u64;
                }
            }
            for call in [Back, Value] {
                assert_accepted(&desk, call, "at the ceilings");
            }
            for here in 0..row_length(&sheet) {
                for more in [1, u64::MAX] {
                    let mut over = desk.clone();
                    over.default_row[here] = over.default_row[here].saturating_add(more);
                    let mut also = desk.clone();
                    also.premium_row[here] = also.premium_row[here].saturating_add(more);
                    for &call in ON_A_WALK {
                        assert_refused(&over, call, Refusal::OverCeiling, "default leg");
                        assert_refused(&also, call, Refusal::OverCeiling, "premium leg");
                    }
                }
            }
        }
    }
}
