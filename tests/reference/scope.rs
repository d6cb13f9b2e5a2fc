// The variables that a constraint is over, the pairs of variables that
// constraints touch, and set rules written out by hand.

use std::collections::BTreeSet;

use super::plan::{Constraint, Plan, Relation};

/// The most pairs of variables that a plan touches.
pub const MOST_PAIRS: usize = 128;

impl Constraint {
    /// A set rule over these variables, of which there are at least two.
    pub fn set(scope: &[usize], limit: u16) -> Constraint {
        let relation = Relation::Set { limit, further: scope[2..].to_vec() };
        Constraint { first: scope[0], second: scope[1], relation }
    }

    /// Its variables, ascending.
    pub fn scope(&self) -> Vec<usize> {
        let mut scope = vec![self.first, self.second];
        if let Relation::Set { further, .. } = &self.relation {
            scope.extend(further);
        }
        scope
    }

    pub fn is_over(&self, variable: usize) -> bool {
        match &self.relation {
            Relation::Set { further, .. } if further.contains(&variable) => true,
            _ => variable == self.first || variable == self.second,
        }
    }

    /// Every two of its variables, the lower one first.
    pub fn pairs(&self) -> BTreeSet<(usize, usize)> {
        let scope = self.scope();
        let of = |&one: &usize| scope.iter().map(move |&other| (one, other));
        scope.iter().flat_map(of).filter(|(one, other)| one < other).collect()
    }

    /// A set rule as a sodium rule for every two of its variables; any other
    /// constraint as it is.
    fn written_out(&self) -> Vec<Constraint> {
        let Relation::Set { limit, .. } = self.relation else {
            return vec![self.clone()];
        };
        let relation = Relation::Sodium(limit);
        let over = |(first, second)| Constraint { first, second, relation: relation.clone() };
        self.pairs().into_iter().map(over).collect()
    }
}

impl Plan {
    /// The pairs of variables that its constraints touch.
    pub fn touched(&self) -> BTreeSet<(usize, usize)> {
        self.constraints.iter().flat_map(Constraint::pairs).collect()
    }

    pub fn has_sets(&self) -> bool {
        self.constraints.iter().any(|one| matches!(one.relation, Relation::Set { .. }))
    }

    /// The copy with its set rules written out. It may have more constraints
    /// than a plan may have.
    pub fn written_out(&self) -> Plan {
        let constraints = self.constraints.iter().flat_map(Constraint::written_out).collect();
        Plan { constraints, ..self.clone() }
    }
}

#[cfg(test)]
mod tests {
    use super::super::plan::decode;
    use super::super::worked::sets::plan_w_with_set;
    use super::*;

    #[test]
    fn set_rules_are_written_out() {
        let plan = decode(&plan_w_with_set()).unwrap();
        let [ref set, ref table] = plan.constraints[..] else { panic!("{plan:?}") };
        assert_eq!((set.kind(), set.scope(), table.scope()), (2, vec![1, 2, 3], vec![1, 4]));
        let sodium =
            |first, second| Constraint { first, second, relation: Relation::Sodium(1_200) };
        let typed = [sodium(1, 2), sodium(1, 3), sodium(2, 3), table.clone()];
        assert_eq!(plan.written_out().constraints, typed);
        assert_eq!(plan.touched(), [(1, 2), (1, 3), (1, 4), (2, 3)].into());
        assert_eq!(plan.written_out().touched(), plan.touched());
    }
}
