// Random plans and turn lists, shared by the test program and the benchmark.

pub mod sets;

use std::collections::BTreeSet;

use crate::reference::plan::{Constraint, Plan, Relation, Value, Variable, NOT_RECORDED};
use crate::reference::run::Run;
use crate::reference::scope::MOST_PAIRS;
use crate::reference::state::Turn;
use crate::reference::version::{Version, MOST_LABELS, ONE, TWO};
use crate::rng::Rng;

/// The most a random plan may have of each.
#[derive(Clone, Copy, Debug)]
pub struct Size {
    pub version: Version,
    pub workers: usize,
    pub variables: usize,
    pub values: usize,
    pub constraints: usize,
}

pub const SMALL: Size = Size { version: ONE, workers: 3, variables: 4, values: 4, constraints: 5 };
pub const MEDIUM: Size =
    Size { version: ONE, workers: 8, variables: 12, values: 10, constraints: 30 };
pub const FULL: Size = full(ONE);
pub const FULL_IN_TWO: Size = full(TWO);

/// As many values as there may be, in a variable and in all together.
const fn full(version: Version) -> Size {
    let variables = MOST_LABELS / version.values;
    Size { version, workers: 8, variables, values: version.values, constraints: 128 }
}

/// The lowest `count` bits.
fn low_bits(count: usize) -> u32 {
    ((1u64 << count) - 1) as u32
}

/// The bits from `place` on.
fn bits_from(place: usize) -> u32 {
    !low_bits(place.min(32))
}

fn codes(rng: &mut Rng, count: usize) -> Vec<u16> {
    let narrow = rng.chance(1, 2);
    let mut codes: Vec<u16> = Vec::new();
    while codes.len() < count {
        let code = match rng.below(8) {
            0 => rng.pick(&[0, 65_535, 1, 256, 255]),
            _ if narrow => rng.below(40) as u16,
            _ => rng.word(),
        };
        if !codes.contains(&code) {
            codes.push(code);
        }
    }
    codes
}

/// The figures of a plan: mostly up to the scale, and some perhaps missing.
#[derive(Clone, Copy)]
struct Figures {
    scale: u16,
    unrecorded: bool,
}

fn figure(rng: &mut Rng, Figures { scale, unrecorded }: Figures) -> u16 {
    match rng.below(10) {
        0 if unrecorded => NOT_RECORDED,
        1 => 0,
        2 => rng.pick(&[1, 65_534, 32_767, 32_768]),
        3 => rng.word(),
        _ => rng.below(usize::from(scale) + 1) as u16,
    }
}

fn variable(rng: &mut Rng, owner: usize, count: usize, figures: Figures) -> Variable {
    let values =
        codes(rng, count).into_iter().map(|code| Value { code, sodium: figure(rng, figures) });
    Variable { owner, values: values.collect() }
}

/// A row of `columns` bits, each set in `part` of `whole` cases.
fn row(rng: &mut Rng, columns: usize, part: usize, whole: usize) -> u32 {
    (0..columns).filter(|_| rng.chance(part, whole)).fold(0, |row, bit| row | 1 << bit)
}

fn table(rng: &mut Rng, rows: usize, columns: usize, part: usize) -> Vec<u32> {
    let style = rng.below(5);
    let mask = low_bits(columns);
    (0..rows)
        .map(|a| match style {
            // Strictly less, equal, and one column each: relations that
            // delete one value after the other.
            0 => mask & bits_from(a + 1),
            1 => mask & 1 << a,
            2 if columns > 0 => 1 << rng.below(columns),
            _ => row(rng, columns, part, 16),
        })
        .collect()
}

/// Two of `n` variables, the first below the second.
fn pair(rng: &mut Rng, n: usize) -> (usize, usize) {
    let first = rng.between(1, n - 1);
    (first, rng.between(first + 1, n))
}

fn limit(rng: &mut Rng, one: &Variable, other: &Variable, scale: u16) -> u16 {
    match rng.below(8) {
        0 => rng.pick(&[0, 65_535, 65_534]),
        // The very sum of two figures, or one less.
        1..=3 => {
            let one = one.values.first().map_or(0, |value| value.sodium);
            let other = other.values.last().map_or(0, |value| value.sodium);
            one.wrapping_add(other).wrapping_sub(rng.below(2) as u16)
        }
        // Not below the scale: more plans would end bare.
        _ => rng.between(usize::from(scale), 2 * usize::from(scale)).min(65_535) as u16,
    }
}

/// How the constraints of a plan are drawn.
#[derive(Clone, Copy)]
struct Manner {
    /// Of 16 pairs of values, how many a table allows.
    part: usize,
    tables_only: bool,
    /// Of 8 constraints, how many are set rules.
    sets: usize,
    scale: u16,
}

/// Two variables of a constraint.
fn two_of(rng: &mut Rng, constraint: &Constraint) -> (usize, usize) {
    match constraint.scope()[..] {
        [first, second] => (first, second),
        ref scope => {
            let (first, second) = pair(rng, scope.len());
            (scope[first - 1], scope[second - 1])
        }
    }
}

/// A constraint, sometimes over variables of the last one before it.
fn random_constraint(
    rng: &mut Rng,
    variables: &[Variable],
    last: Option<&Constraint>,
    manner: Manner,
) -> Constraint {
    if manner.sets > 0 && rng.chance(manner.sets, 8) {
        return sets::random_set(rng, variables, last, manner.scale);
    }
    let (first, second) = match last {
        Some(last) if rng.chance(1, 6) => two_of(rng, last),
        _ => pair(rng, variables.len()),
    };
    let (one, other) = (&variables[first - 1], &variables[second - 1]);
    let relation = if manner.tables_only || rng.chance(1, 2) {
        Relation::Table(table(rng, one.values.len(), other.values.len(), manner.part))
    } else {
        Relation::Sodium(limit(rng, one, other, manner.scale))
    };
    Constraint { first, second, relation }
}

fn random_constraints(
    rng: &mut Rng,
    variables: &[Variable],
    size: Size,
    exactly: bool,
    scale: u16,
) -> Vec<Constraint> {
    let part = rng.between(2, 14);
    let count = match variables.len() {
        1 => 0,
        _ if exactly => size.constraints,
        _ => rng.between(0, size.constraints),
    };
    let tables_only = rng.chance(1, 3);
    // Half of the plans of version 2 have no set rule.
    let sets = if size.version == TWO { rng.pick(&[0, 0, 2, 6]) } else { 0 };
    let manner = Manner { part, tables_only, sets, scale };
    let mut constraints: Vec<Constraint> = Vec::new();
    let mut touched = BTreeSet::new();
    while constraints.len() < count {
        let one = random_constraint(rng, variables, constraints.last(), manner);
        let with_it = &touched | &one.pairs();
        if with_it.len() <= MOST_PAIRS {
            touched = with_it;
            constraints.push(one);
        }
    }
    constraints
}

/// A valid plan of at most that size; `exactly` takes the full size.
pub fn random_plan(rng: &mut Rng, size: Size, exactly: bool) -> Plan {
    let n = if exactly { size.variables } else { rng.between(1, size.variables) };
    let least = usize::from(!rng.chance(1, 6));
    let mut left = MOST_LABELS;
    let counts: Vec<usize> = (0..n)
        .map(|_| {
            let drawn = if exactly { size.values } else { rng.between(least, size.values) };
            let count = drawn.min(left);
            left -= count;
            count
        })
        .collect();
    plan_of_counts(rng, size, &counts, exactly)
}

/// A valid plan whose variables have so many values.
pub fn plan_of_counts(rng: &mut Rng, size: Size, counts: &[usize], exactly: bool) -> Plan {
    let workers = if exactly { size.workers } else { rng.between(1, size.workers) };
    let scale = rng.pick(&[4, 40, 1_000, 40_000, 65_534]);
    // Under a sodium rule each value without a figure is deleted; half of the
    // plans have hardly one.
    let figures = Figures { scale, unrecorded: rng.chance(1, 2) };
    let spread = if rng.chance(1, 6) { 1 } else { workers };
    let variables: Vec<Variable> = counts
        .iter()
        .map(|&count| {
            let owner = rng.between(1, spread);
            variable(rng, owner, count, figures)
        })
        .collect();
    let constraints = random_constraints(rng, &variables, size, exactly, scale);
    Plan { version: size.version, workers, variables, constraints }
}

fn tabled(first: usize, second: usize, rows: Vec<u32>) -> Constraint {
    Constraint { first, second, relation: Relation::Table(rows) }
}

/// Variables of equal size, mostly owned by one worker after the other.
fn even_variables(rng: &mut Rng, size: Size) -> Vec<Variable> {
    let workers = size.workers;
    (0..size.variables)
        .map(|s| {
            let owner = if rng.chance(1, 8) { rng.between(1, workers) } else { s % workers + 1 };
            variable(rng, owner, size.values, Figures { scale: 1_000, unrecorded: true })
        })
        .collect()
}

/// Such variables, with these constraints.
fn even_plan(size: Size, variables: Vec<Variable>, constraints: Vec<Constraint>) -> Plan {
    Plan { version: size.version, workers: size.workers, variables, constraints }
}

/// A chain or ring of relations that deletes its values one after the other,
/// from worker to worker.
pub fn chain_plan(rng: &mut Rng, size: Size) -> Plan {
    let Size { variables: n, values, .. } = size;
    let variables = even_variables(rng, size);
    let mut constraints = Vec::new();
    let mask = low_bits(values);
    // Mostly strictly less; sometimes at most, or less by at most two.
    let style = rng.below(4);
    let rise = move |a: usize| -> u32 {
        match style {
            0 => mask & 6 << a,
            1 if a % 3 == 0 => mask & bits_from(a),
            _ => mask & bits_from(a + 1),
        }
    };
    for first in 1..n {
        let rows = (0..values).map(rise).collect();
        constraints.push(tabled(first, first + 1, rows));
    }
    // Close rings: the last of some variables below an earlier one.
    if n >= 3 {
        for _ in 0..rng.below(3) {
            let first = rng.between(1, n - 2);
            let second = rng.between(first + 2, n);
            constraints.push(tabled(first, second, (0..values).map(low_bits).collect()));
        }
    }
    even_plan(size, variables, constraints)
}

/// A ring of at least three variables that loses its labels one by one: each
/// value goes with the same one of the next variable, and each of the last
/// variable with the next one of the first. So the first value of the first
/// variable has no support, and each deletion takes the only support of one
/// other label. The last values also go with each other, and stay.
pub fn ring_plan(rng: &mut Rng, size: Size) -> Plan {
    let Size { variables: n, values, .. } = size;
    let variables = even_variables(rng, size);
    let same: Vec<u32> = (0..values).map(|a| 1 << a).collect();
    let mut one_less: Vec<u32> = same.iter().map(|row| row >> 1).collect();
    one_less[values - 1] |= same[values - 1];
    let mut constraints: Vec<Constraint> =
        (1..n).map(|first| tabled(first, first + 1, same.clone())).collect();
    constraints.push(tabled(1, n, one_less));
    even_plan(size, variables, constraints)
}

/// Makes each figure recorded and any two of them less than 65,535.
fn record_all(plan: &mut Plan) {
    for value in plan.variables.iter_mut().flat_map(|variable| &mut variable.values) {
        value.sodium /= 4;
    }
}

/// Two variables for one constraint more of a full plan. Where there is room
/// for one over every two variables, two that have none yet come first.
fn pair_to_fill(rng: &mut Rng, size: Size, constraints: &[Constraint]) -> (usize, usize) {
    let n = size.variables;
    if n * (n - 1) / 2 <= size.constraints {
        let touched = |pair| constraints.iter().any(|one| (one.first, one.second) == pair);
        let pairs = (1..=n).flat_map(|first| (first + 1..=n).map(move |second| (first, second)));
        let untouched: Vec<(usize, usize)> = pairs.filter(|&pair| !touched(pair)).collect();
        if !untouched.is_empty() {
            return rng.pick(&untouched);
        }
    }
    pair(rng, n)
}

/// Adds constraints up to the full number: sodium rules that allow every two
/// recorded figures, and tables of these rows.
fn fill_up(rng: &mut Rng, size: Size, plan: &mut Plan, rows: impl Fn(usize) -> u32) {
    while plan.constraints.len() < size.constraints {
        let (first, second) = pair_to_fill(rng, size, &plan.constraints);
        let relation = if rng.chance(1, 3) {
            Relation::Sodium(65_535)
        } else {
            Relation::Table((0..size.values).map(&rows).collect())
        };
        plan.constraints.push(Constraint { first, second, relation });
    }
}

/// A full plan with such a ring through all variables, where every deletion
/// takes a sweep of its own; the other constraints allow everything.
pub fn full_ring(rng: &mut Rng, size: Size) -> Plan {
    let mut plan = ring_plan(rng, size);
    record_all(&mut plan);
    fill_up(rng, size, &mut plan, |_| low_bits(size.values));
    plan
}

/// The full plan of the benchmark: a chain through all variables that alone
/// deletes hundreds of labels, and constraints up to the full number. With
/// `strictly` no label is left.
pub fn full_plan(rng: &mut Rng, size: Size, strictly: bool) -> Plan {
    let Size { variables: n, values, .. } = size;
    let at_least = |a: usize| low_bits(values) & bits_from(a);
    // From step to step values rise by so much that they run out; or by one at
    // so many steps that they rise by about half of a variable's values.
    let rise = |first: usize| match strictly {
        true => values / (n - 1) + 1,
        false => usize::from(first % (2 * n / values) == 0),
    };
    let step = |first: usize| {
        tabled(first, first + 1, (0..values).map(|a| at_least(a + rise(first))).collect())
    };
    let variables = even_variables(rng, size);
    let mut plan = even_plan(size, variables, (1..n).map(step).collect());
    record_all(&mut plan);
    // At least as large, which the chain implies already.
    fill_up(rng, size, &mut plan, at_least);
    plan
}

/// A full plan of tables with even density, `part` of 256 pairs allowed. In
/// version 1 it mostly loses every label below about 90, above about 100 only
/// some; with 32 values in a variable below about 55 and above about 65.
pub fn scattered_plan(rng: &mut Rng, size: Size, part: usize) -> Plan {
    let variables = even_variables(rng, size);
    let mut constraints = Vec::new();
    while constraints.len() < size.constraints {
        let (first, second) = pair_to_fill(rng, size, &constraints);
        let rows = (0..size.values).map(|_| row(rng, size.values, part, 256)).collect();
        constraints.push(tabled(first, second, rows));
    }
    even_plan(size, variables, constraints)
}

/// Allowed turns drawn evenly.
pub fn random_turns(rng: &mut Rng, workers: usize, count: usize) -> Vec<u8> {
    let all = Turn::all(workers);
    (0..count).flat_map(|_| rng.pick(all).encode()).collect()
}

/// Rounds with some turns left out, repeated or exchanged.
pub fn round_like_turns(rng: &mut Rng, workers: usize, rounds: usize) -> Vec<u8> {
    let round = Turn::round(workers);
    let (skip, again, swap) = (rng.below(5), rng.below(3), rng.below(4));
    let mut turns = Vec::new();
    for _ in 0..rounds {
        for &turn in &round {
            if rng.chance(skip, 16) {
                continue;
            }
            turns.push(turn);
            if rng.chance(again, 16) {
                turns.push(turn);
            }
        }
    }
    for at in 1..turns.len() {
        if rng.chance(swap, 16) {
            turns.swap(at - 1, at);
        }
    }
    turns.into_iter().flat_map(Turn::encode).collect()
}

/// How often each turn is drawn in a list, by weights of its own.
fn turn_weights(rng: &mut Rng, all: &[Turn]) -> Vec<usize> {
    let mut weights: Vec<usize> = all.iter().map(|_| 1 << rng.below(8)).collect();
    // Sometimes workers seldom read each other's lists while all else goes
    // on, so that counts of lists agree though the lists differ.
    if rng.chance(1, 4) {
        for (turn, weight) in all.iter().zip(&mut weights) {
            *weight = match *turn {
                Turn::Read { by, from } if by > 0 && from > 0 => 1,
                _ => 16 << rng.below(3),
            };
        }
    }
    weights
}

/// Leaves a whole actor out, or some actions.
fn starve(rng: &mut Rng, workers: usize, all: &[Turn], weights: &mut [usize]) {
    let actor = rng.between(0, workers) as u8;
    let whole = rng.chance(1, 2);
    for (turn, weight) in all.iter().zip(weights) {
        if whole && turn.encode()[0] == actor || !whole && rng.chance(1, 5) {
            *weight = 0;
        }
    }
}

/// Turns drawn by weights of this list's own, mostly such as have something
/// to do. With `starving`, some actions do not come at all for a long part.
pub fn guided_turns(rng: &mut Rng, plan: &Plan, most: usize, starving: bool) -> Vec<u8> {
    let all = Turn::all(plan.workers);
    let full = turn_weights(rng, all);
    let mut starved = full.clone();
    if starving {
        starve(rng, plan.workers, all, &mut starved);
    }
    let release = if rng.chance(1, 3) { most } else { rng.below(most + 1) };
    let idle = rng.below(5);
    let mut run = Run::load(plan.clone());
    let mut turns = Vec::new();
    let mut after = rng.below(6);
    for step in 0..most {
        if run.closed() {
            if after == 0 {
                break;
            }
            after -= 1;
        }
        let weights = if step < release { &starved } else { &full };
        let any = rng.chance(idle, 16);
        let useful = |at: usize| any || run.state.has_use(all[at]);
        let weight_of = |at: usize| if useful(at) { weights[at] } else { 0 };
        let drawn = rng.weighted((0..all.len()).map(weight_of));
        let other = rng.pick(all);
        let turn = drawn.map_or(other, |at| all[at]);
        run.turn_uncounted(turn);
        turns.extend(turn.encode());
    }
    turns
}

#[cfg(test)]
mod tests {
    use super::*;
    use crate::reference::lists::{cells, Lists};
    use crate::reference::plan::{decode, Network};
    use crate::reference::sweep::sweeps;

    /// How many labels each sweep deletes.
    fn deletions(plan: &Plan) -> Vec<u32> {
        let listed = |lists: &Lists| -> u32 {
            cells(plan.version, lists).iter().map(|cell| cell.count_ones()).sum()
        };
        let all = sweeps(plan, &Network::new(plan));
        let counts: Vec<u32> = all.iter().map(listed).collect();
        counts.windows(2).map(|pair| pair[0] - pair[1]).collect()
    }

    #[test]
    fn full_plans_are_accepted_and_full() {
        let mut rng = Rng::new(1);
        for size in [FULL, FULL_IN_TWO] {
            for plan in [
                random_plan(&mut rng, size, true),
                full_plan(&mut rng, size, true),
                full_plan(&mut rng, size, false),
                full_ring(&mut rng, size),
                scattered_plan(&mut rng, size, 64),
            ] {
                assert_eq!(decode(&plan.encode()).as_ref(), Ok(&plan));
                assert_eq!((plan.labels(), plan.constraints.len()), (512, 128));
            }
        }
    }

    #[test]
    fn full_plans_of_version_2_tie_every_two_variables() {
        let mut rng = Rng::new(1);
        for plan in [
            full_plan(&mut rng, FULL_IN_TWO, false),
            full_ring(&mut rng, FULL_IN_TWO),
            scattered_plan(&mut rng, FULL_IN_TWO, 64),
        ] {
            let network = Network::new(&plan);
            let tied = |one| (one + 1..=16).filter(|&other| network.tied(one, other)).count();
            assert_eq!((1..=16).map(tied).sum::<usize>(), 120);
        }
    }

    #[test]
    fn rings_lose_one_label_a_sweep() {
        let mut rng = Rng::new(1);
        let least = Size { workers: 2, variables: 3, values: 2, ..SMALL };
        for (plan, lost) in [
            (ring_plan(&mut rng, least), 3),
            (full_ring(&mut rng, FULL), 32 * 15),
            (full_ring(&mut rng, FULL_IN_TWO), 16 * 31),
        ] {
            assert_eq!(deletions(&plan), [vec![1; lost], vec![0]].concat());
        }
    }
}
