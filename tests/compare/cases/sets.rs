// Cases about set rules, and about the pairs of variables that are touched.

use std::collections::BTreeSet;

use tinshrew_tests::generate::sets::{filling, plan_of_pairs};
use tinshrew_tests::generate::{guided_turns, plan_of_counts, random_turns, Size, SMALL};
use tinshrew_tests::reference::plan::{Constraint, Plan};
use tinshrew_tests::reference::scope::MOST_PAIRS;
use tinshrew_tests::reference::version::{Version, ONE, TWO};
use tinshrew_tests::rng::Rng;

use super::{case, changed, with_sets};
use crate::case::Case;

/// How many variables the plans have in which a set rule is damaged.
const VARIABLES: usize = 32;

/// A version and a kind in it. Only the first is that of a set rule.
const KINDS: [(Version, u8); 3] = [(TWO, 2), (TWO, 3), (ONE, 2)];
const FIRST_TWO: [[u8; 2]; 2] = [[1, 2], [2, 1]];
const LENGTHS: [usize; 12] = [3, 4, 5, 6, 7, 8, 9, 10, 11, 12, 13, 14];
/// How many further variables are named.
const COUNTS: [u8; 6] = [0, 1, 5, 6, 7, 255];
/// The last of them is as it should be, the same as the one before it, or none
/// of the plan.
const LAST: usize = 3;
/// As many pairs as there may be are touched before, or none.
const BEFORE: usize = 2;

const PARTS: [usize; 6] = [KINDS.len(), FIRST_TWO.len(), LENGTHS.len(), COUNTS.len(), LAST, BEFORE];
pub const SECTIONS: usize = PARTS[0] * PARTS[1] * PARTS[2] * PARTS[3] * PARTS[4] * PARTS[5];

/// A set rule's section with each of these together with each other.
pub fn section(at: usize, rng: &mut Rng) -> Case {
    let mut rest = at;
    let [kind, first_two, length, count, last, before] = PARTS.map(|part| {
        let place = rest % part;
        rest /= part;
        place
    });
    let (version, kind) = KINDS[kind];
    let mut content = vec![kind, 4, 176, COUNTS[count]];
    content.splice(0..0, FIRST_TWO[first_two]);
    content.extend(3..=10);
    content.truncate(LENGTHS[length]);
    match (&mut content[..], last) {
        ([_, second, _, _, _, _, only], 1) => *only = *second,
        ([_, _, _, _, _, _, .., before, last], 1) => *last = *before,
        ([_, _, _, _, _, _, .., last], 2) => *last = VARIABLES as u8 + 1,
        _ => {}
    }
    let plan = plan_before(rng, version, before == 1);
    let mut bytes = plan.encode();
    // One constraint more than the head says.
    bytes[5] += 1;
    bytes.extend([0, content.len() as u8]);
    bytes.extend(content);
    let turns = random_turns(rng, plan.workers, 4);
    case("a set rule's section", rng, bytes, turns)
}

/// A plan of few values. With `full` it touches as many pairs as it may, but not
/// that of its first two variables; version 1 has too few constraints for that.
fn plan_before(rng: &mut Rng, version: Version, full: bool) -> Plan {
    let counts: Vec<usize> = (0..VARIABLES).map(|_| rng.below(3)).collect();
    let mut plan = plan_of_counts(rng, Size { version, constraints: 0, ..SMALL }, &counts, false);
    if full && version == TWO {
        let none = BTreeSet::new();
        plan.constraints = filling(rng, &plan.variables, none, MOST_PAIRS, Some((1, 2)));
    }
    plan
}

/// How many pairs are touched, about the limit.
const COUNTS_OF_PAIRS: [usize; 7] = [124, 125, 126, 127, 128, 129, 130];
pub const TOUCHED: usize = 20 * COUNTS_OF_PAIRS.len();

pub fn touched(at: usize, rng: &mut Rng) -> Case {
    let plan = plan_of_pairs(rng, COUNTS_OF_PAIRS[at % COUNTS_OF_PAIRS.len()]);
    let turns = random_turns(rng, plan.workers, 4);
    case("pairs touched", rng, plan.encode(), turns)
}

pub fn some_touched(_: &str, rng: &mut Rng) -> Case {
    let at = rng.below(TOUCHED);
    touched(at, rng)
}

/// A byte of one constraint changed, its length's too.
pub fn byte_changed(kind: &str, rng: &mut Rng) -> Case {
    let plan = with_sets(rng);
    let turns = guided_turns(rng, &plan, 20, false);
    let mut bytes = plan.encode();
    let length = |one: &Constraint| 2 + one.encode(plan.version).len();
    let one = rng.below(plan.constraints.len());
    let behind: usize = plan.constraints[one..].iter().map(length).sum();
    let at = bytes.len() - behind + rng.below(length(&plan.constraints[one]));
    bytes[at] = changed(rng, bytes[at]);
    case(kind, rng, bytes, turns)
}
