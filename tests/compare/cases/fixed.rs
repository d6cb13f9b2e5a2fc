// The fixed cases: worked plans, buffers and turn lists of all lengths of
// interest, every damage of a kind to some plans, every count of values about a
// limit, every bit of a row, every damage of a set rule, pairs of variables
// about their limit, and every pair of faults.

use std::sync::OnceLock;

use tinshrew_tests::fast::{FORMER_LISTS, FORMER_WORK};
use tinshrew_tests::generate::{
    guided_turns, plan_of_counts, random_plan, random_turns, Size, SMALL,
};
use tinshrew_tests::reference::plan::{Constraint, Relation};
use tinshrew_tests::reference::version::{MOST_LABELS, TWO, VERSIONS};
use tinshrew_tests::reference::worked::sets::plan_w_with_set;
use tinshrew_tests::reference::worked::wide::{of_counts, plan_p_in_two, plan_q, seventeen};
use tinshrew_tests::reference::worked::{no_values, plan_p, turns_t, worked};
use tinshrew_tests::reference::{LIST_CELLS, WORK_CELLS};
use tinshrew_tests::rng::Rng;

use super::{case, competing, of_either, sets, PAIRS};
use crate::case::Case;

/// How many cases a group has, and its case of each number.
type Group = (usize, fn(usize, &mut Rng) -> Case);

/// The groups in order.
fn groups() -> [Group; 13] {
    [
        (worked_plans().len(), worked_plan),
        (PLANS_FOR_BUFFERS * BUFFERS, buffers),
        (PLANS_FOR_BUFFERS * SWEEP_BUFFERS, sweep_buffers),
        (2 * LENGTHS.len(), turn_list_length),
        (places(BEHIND), cut),
        (places(0) * CHANGES, byte_changed),
        (3 * ACTORS * ACTIONS, every_turn),
        (VERSIONS.len() * COUNTS.len() * LENGTH_CHANGES.len(), values_of_a_variable),
        (SUMS.len() * ARRANGEMENTS, labels_together),
        (VERSIONS.len() * COLUMNS.len() * TWO.values, bit_of_a_row),
        (sets::SECTIONS, sets::section),
        (sets::TOUCHED, sets::touched),
        (2 * VERSIONS.len() * PAIRS, pair_of_faults),
    ]
}

pub fn case_of(number: usize, rng: &mut Rng) -> Option<Case> {
    let mut at = number;
    for (count, make) in groups() {
        if at < count {
            return Some(make(at, rng));
        }
        at -= count;
    }
    None
}

fn worked_plans() -> &'static [(Vec<u8>, Vec<u8>)] {
    static WORKED: OnceLock<Vec<(Vec<u8>, Vec<u8>)>> = OnceLock::new();
    WORKED.get_or_init(worked)
}

fn worked_plan(at: usize, rng: &mut Rng) -> Case {
    let (plan, turns) = worked_plans()[at].clone();
    case("worked", rng, plan, turns)
}

/// About what is needed, and what was when there was version 1 alone.
const WORK_SIZES: [usize; 7] =
    [0, 1, FORMER_WORK, WORK_CELLS - 1, WORK_CELLS, WORK_CELLS + 1, WORK_CELLS + 500];
const LIST_SIZES: [usize; 9] =
    [0, 1, 3, FORMER_LISTS - 1, FORMER_LISTS, LIST_CELLS - 1, LIST_CELLS, LIST_CELLS + 1, 90];
const BUFFERS: usize = WORK_SIZES.len() * LIST_SIZES.len();

const SWEEP_BUFFERS: usize = LIST_SIZES.len() * LIST_SIZES.len();

const PLANS_FOR_BUFFERS: usize = 4;

/// One of each version, a wrong one, and one without labels.
fn plan_for_buffers(at: usize) -> Vec<u8> {
    let plans: [Vec<u8>; PLANS_FOR_BUFFERS] = [plan_p(), plan_q().encode(), vec![3], no_values()];
    plans[at].clone()
}

/// Buffers of all sizes of interest, with each of these plans.
fn buffers(at: usize, rng: &mut Rng) -> Case {
    let size = at % BUFFERS;
    let (work, lists) = (WORK_SIZES[size / LIST_SIZES.len()], LIST_SIZES[size % LIST_SIZES.len()]);
    let plan = plan_for_buffers(at / BUFFERS);
    Case { work, lists, ..case("buffers", rng, plan, turns_t()) }
}

/// The same of the two buffers of the sweeps.
fn sweep_buffers(at: usize, rng: &mut Rng) -> Case {
    let size = at % SWEEP_BUFFERS;
    let sweep_lists = [size / LIST_SIZES.len(), size % LIST_SIZES.len()].map(|at| LIST_SIZES[at]);
    let plan = plan_for_buffers(at / SWEEP_BUFFERS);
    Case { sweep_lists, ..case("buffers of the sweeps", rng, plan, turns_t()) }
}

/// Turn lists of all lengths of interest.
const LENGTHS: [usize; 14] =
    [0, 1, 2, 3, 33, 34, 35, 65_534, 65_535, 65_536, 65_537, 65_538, 65_540, 131_072];

fn turn_list_length(at: usize, rng: &mut Rng) -> Case {
    let length = LENGTHS[at % LENGTHS.len()];
    let plan = [plan_p(), vec![]][at / LENGTHS.len()].clone();
    let mut turns = turns_t();
    while turns.len() < length + 2 {
        turns.extend_from_within(..turns.len().min(length + 2 - turns.len()));
    }
    let turns_after = turns.split_off(length);
    Case { turns_after, ..case("turn list length", rng, plan, turns) }
}

/// The plans that are damaged at every place.
fn to_damage() -> &'static [Vec<u8>; 4] {
    static PLANS: OnceLock<[Vec<u8>; 4]> = OnceLock::new();
    PLANS.get_or_init(|| [plan_p(), plan_p_in_two(), seventeen(), plan_w_with_set()])
}

/// How many places they have together: their bytes, and so many behind each.
fn places(behind: usize) -> usize {
    to_damage().iter().map(|plan| plan.len() + behind).sum()
}

/// The plan that place `at` belongs to, and which of its own places it is.
fn place(mut at: usize, behind: usize) -> (Vec<u8>, usize) {
    let mut plans = to_damage().iter();
    loop {
        let plan = plans.next().expect("a place of some plan");
        if at < plan.len() + behind {
            return (plan.clone(), at);
        }
        at -= plan.len() + behind;
    }
}

/// Behind a plan's bytes: where it is whole, and where it has a byte more.
const BEHIND: usize = 2;

/// A plan cut at every place, whole, and with a byte behind it.
fn cut(at: usize, rng: &mut Rng) -> Case {
    let (mut plan, at) = place(at, BEHIND);
    let whole = plan.len();
    let plan_after = plan.split_off(at.min(whole));
    if at > whole {
        plan.push(0);
    }
    Case { plan_after, ..case("cut", rng, plan, turns_t()) }
}

/// Each bit of a byte, and five more.
const CHANGES: usize = 8 + 5;

/// Each byte of a plan set to a number of values.
fn byte_changed(at: usize, rng: &mut Rng) -> Case {
    let (mut plan, byte) = place(at / CHANGES, 0);
    let byte = &mut plan[byte];
    *byte = match at % CHANGES {
        8 => byte.wrapping_add(1),
        9 => byte.wrapping_sub(1),
        10 => 0,
        11 => 255,
        12 => rng.byte(),
        bit => *byte ^ 1 << bit,
    };
    case("one byte changed", rng, plan, turns_t())
}

const ACTORS: usize = 11;
const ACTIONS: usize = 15;

/// Each turn of a low actor and action, behind some allowed ones.
fn every_turn(at: usize, rng: &mut Rng) -> Case {
    let workers = [1, 2, 8][at / (ACTORS * ACTIONS)];
    let (actor, action) = ((at / ACTIONS % ACTORS) as u8, (at % ACTIONS) as u8);
    let size = of_either(rng, SMALL);
    let mut plan = random_plan(rng, size, true);
    plan.workers = workers;
    for variable in &mut plan.variables {
        variable.owner = rng.between(1, workers);
    }
    let most = rng.below(4);
    let mut turns = guided_turns(rng, &plan, most, false);
    turns.extend([actor, action]);
    turns.extend(random_turns(rng, workers, 2));
    case("every turn", rng, plan.encode(), turns)
}

/// Counts of a variable's values, about the limit of each version.
const COUNTS: [usize; 12] = [0, 1, 15, 16, 17, 18, 31, 32, 33, 34, 64, 255];
/// What is added to the last byte of its section's length.
const LENGTH_CHANGES: [u8; 3] = [0, 1, 255];

/// A variable with each of these counts, between two others.
fn values_of_a_variable(at: usize, rng: &mut Rng) -> Case {
    let (version, at) = (VERSIONS[at % VERSIONS.len()], at / VERSIONS.len());
    let (count, change) = (COUNTS[at % COUNTS.len()], LENGTH_CHANGES[at / COUNTS.len()]);
    let mut plan = of_counts(version, &[1, count, 2]);
    // Its section is behind one of 2 + 6 bytes, which starts at 6.
    plan[15] = plan[15].wrapping_add(change);
    let turns = random_turns(rng, 1, 4);
    case("values of a variable", rng, plan, turns)
}

/// How many labels a plan has, about the limit.
const SUMS: [usize; 5] =
    [MOST_LABELS - 2, MOST_LABELS - 1, MOST_LABELS, MOST_LABELS + 1, MOST_LABELS + 2];
const ARRANGEMENTS: usize = 4;

/// The counts of variables that have so many labels together: full ones and the
/// rest, the rest first, 32 of about the same count, or with empty ones between.
fn counts_of(sum: usize, arrangement: usize) -> Vec<usize> {
    let mut full = vec![TWO.values; sum / TWO.values];
    full.push(sum % TWO.values);
    match arrangement {
        0 => full,
        1 => full.into_iter().rev().collect(),
        2 => [vec![16; 31], vec![sum - 16 * 31]].concat(),
        _ => full.chunks(2).flat_map(|two| [two, &[0]].concat()).collect(),
    }
}

fn labels_together(at: usize, rng: &mut Rng) -> Case {
    let counts = counts_of(SUMS[at % SUMS.len()], at / SUMS.len());
    let turns = random_turns(rng, 1, 4);
    case("labels together", rng, of_counts(TWO, &counts), turns)
}

/// Counts of a table's second variable.
const COLUMNS: [usize; 8] = [0, 1, 15, 16, 17, 18, 31, 32];

/// Each bit of the last row of a table, the others being 0. In version 1 a
/// count is at most 16, and the bits of a row are counted twice.
fn bit_of_a_row(at: usize, rng: &mut Rng) -> Case {
    let (version, at) = (VERSIONS[at % VERSIONS.len()], at / VERSIONS.len());
    let columns = COLUMNS[at / TWO.values].min(version.values);
    let bit = at % TWO.values % version.values;
    let size = Size { version, constraints: 0, ..SMALL };
    let mut plan = plan_of_counts(rng, size, &[2, columns], false);
    let relation = Relation::Table(vec![0, 1 << bit]);
    plan.constraints.push(Constraint { first: 1, second: 2, relation });
    let turns = guided_turns(rng, &plan, 4, false);
    case("bit of a row", rng, plan.encode(), turns)
}

/// Each ordered pair of faults in either version, in the same sections and in
/// others.
fn pair_of_faults(at: usize, rng: &mut Rng) -> Case {
    let version = VERSIONS[at / PAIRS / 2];
    competing(rng, version, at % PAIRS, at / PAIRS % 2 == 1)
}
