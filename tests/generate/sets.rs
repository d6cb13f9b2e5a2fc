// Random set rules, and plans that touch so many pairs of variables.

use std::collections::BTreeSet;

use super::{limit, plan_of_counts, random_constraint, random_plan, Manner, Size};
use crate::reference::plan::{Constraint, Plan, Value, Variable};
use crate::reference::version::TWO;
use crate::rng::Rng;

/// The most variables of a set rule.
const MOST_IN_SET: usize = 8;

/// Two to eight of `n` variables, ascending; sometimes next to each other.
fn scope(rng: &mut Rng, n: usize) -> Vec<usize> {
    let count = rng.between(2, n.min(MOST_IN_SET));
    if rng.chance(1, 4) {
        let first = rng.between(1, n + 1 - count);
        return (first..first + count).collect();
    }
    let mut scope: Vec<usize> = (1..=n).collect();
    while scope.len() > count {
        scope.remove(rng.below(scope.len()));
    }
    scope
}

/// A set rule, sometimes over the variables of the last constraint.
pub fn random_set(
    rng: &mut Rng,
    variables: &[Variable],
    last: Option<&Constraint>,
    scale: u16,
) -> Constraint {
    let scope = match last {
        Some(last) if rng.chance(1, 6) => last.scope(),
        _ => scope(rng, variables.len()),
    };
    let [one, other] = [0, 1].map(|_| &variables[rng.pick(&scope) - 1]);
    Constraint::set(&scope, limit(rng, one, other, scale))
}

/// A valid plan of version 2 of at most that size, with a set rule.
pub fn plan_with_sets(rng: &mut Rng, size: Size) -> Plan {
    loop {
        let plan = random_plan(rng, Size { version: TWO, ..size }, false);
        if plan.has_sets() {
            return plan;
        }
    }
}

/// Constraints of all kinds.
const MIXED: Manner = Manner { part: 12, tables_only: false, sets: 4, scale: 1_000 };

/// Constraints that bring the pairs that are touched to so many, without the
/// pair `not`.
pub fn filling(
    rng: &mut Rng,
    variables: &[Variable],
    mut touched: BTreeSet<(usize, usize)>,
    count: usize,
    not: Option<(usize, usize)>,
) -> Vec<Constraint> {
    let mut constraints = Vec::new();
    while touched.len() < count {
        let one = random_constraint(rng, variables, constraints.last(), MIXED);
        let pairs = one.pairs();
        let with_it = &touched | &pairs;
        // Few that touch nothing new, so that there are not too many.
        let taken = with_it.len() > touched.len() || rng.chance(1, 16);
        if taken && with_it.len() <= count && !not.is_some_and(|not| pairs.contains(&not)) {
            touched = with_it;
            constraints.push(one);
        }
    }
    constraints
}

/// A plan of version 2 with constraints that touch so many pairs, which may be
/// more than the limit, and at most two behind them that touch any.
pub fn plan_of_pairs(rng: &mut Rng, count: usize) -> Plan {
    let n = rng.between(17, 32);
    let counts: Vec<usize> = (0..n).map(|_| rng.below(4)).collect();
    let size = Size { version: TWO, workers: 3, variables: n, values: 3, constraints: 0 };
    let mut plan = plan_of_counts(rng, size, &counts, false);
    plan.constraints = filling(rng, &plan.variables, BTreeSet::new(), count, None);
    for _ in 0..rng.below(3) {
        let one = random_constraint(rng, &plan.variables, plan.constraints.last(), MIXED);
        plan.constraints.push(one);
    }
    plan
}

/// Two plans of version 2 that give the same: eight full variables with 128 set
/// rules over all of them, and with a sodium rule for every two. Loading deletes
/// the upper half of all but the last variable, whose figures are the highest.
pub fn eight_in_two_ways(rng: &mut Rng) -> [Plan; 2] {
    const LOWEST_LIMIT: u16 = 1_000;
    let of = |rng: &mut Rng, owner: usize| {
        let (least, step) = if owner == 8 { (500, 15) } else { (0, 32) };
        let mut values: Vec<Value> =
            (0..32).map(|code| Value { code, sodium: least + step * code }).collect();
        rng.shuffle(&mut values);
        Variable { owner, values }
    };
    let variables: Vec<Variable> = (1..=8).map(|owner| of(rng, owner)).collect();
    let set = |above| Constraint::set(&[1, 2, 3, 4, 5, 6, 7, 8], LOWEST_LIMIT + above);
    let mut sets: Vec<Constraint> = (0..128).map(set).collect();
    rng.shuffle(&mut sets);
    let plan =
        |constraints| Plan { version: TWO, workers: 8, variables: variables.clone(), constraints };
    [plan(sets), plan(vec![set(0)]).written_out()]
}

#[cfg(test)]
mod tests {
    use super::*;
    use crate::generate::MEDIUM;
    use crate::reference::plan::{decode, Network};
    use crate::reference::sweep::sweeps;

    #[test]
    fn plans_touch_as_many_pairs_as_asked() {
        let mut rng = Rng::new(1);
        for count in [1, 60, 127, 128, 129, 130].repeat(20) {
            let mut plan = plan_of_pairs(&mut rng, 0);
            let (none, not) = (BTreeSet::new(), (1, 2));
            plan.constraints = filling(&mut rng, &plan.variables, none, count, Some(not));
            let touched = plan.touched();
            assert_eq!((touched.len(), touched.contains(&not)), (count, false));
            // Room for the two that `plan_of_pairs` may put behind them.
            assert!(plan.constraints.len() <= 126);
        }
    }

    #[test]
    fn sets_of_every_size_are_drawn() {
        let mut rng = Rng::new(1);
        let mut sizes = BTreeSet::new();
        for _ in 0..100 {
            let plan = plan_with_sets(&mut rng, MEDIUM);
            assert_eq!(decode(&plan.encode()).as_ref(), Ok(&plan));
            let sets = plan.constraints.iter().filter(|one| one.kind() == 2);
            sizes.extend(sets.map(|set| set.scope().len()));
        }
        assert_eq!(sizes, (2..=MOST_IN_SET).collect());
    }

    #[test]
    fn eight_variables_lose_the_same_in_two_ways() {
        let lists = eight_in_two_ways(&mut Rng::new(1)).map(|plan| {
            assert_eq!(decode(&plan.encode()).as_ref(), Ok(&plan));
            sweeps(&plan, &Network::new(&plan))
        });
        assert_eq!(lists[0], lists[1]);
        let left = |list: &Vec<bool>| list.iter().filter(|&&listed| listed).count();
        let left: Vec<usize> = lists[0][1].iter().map(left).collect();
        assert_eq!(left, [16, 16, 16, 16, 16, 16, 16, 32]);
    }
}
