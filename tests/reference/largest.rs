// The largest arc-consistent lists, by the naive fixpoint: delete a label
// without a listed support against some tied variable until nothing changes.

use super::lists::{loaded, supported, Lists};
use super::plan::{Network, Plan};

pub fn largest_lists(plan: &Plan, network: &Network) -> Lists {
    let mut listed = loaded(plan);
    loop {
        let mut changed = false;
        for one in 1..=plan.variables.len() {
            for a in 0..plan.variables[one - 1].values.len() {
                if listed[one - 1][a] && !supported(plan, network, &listed, one, a) {
                    listed[one - 1][a] = false;
                    changed = true;
                }
            }
        }
        if !changed {
            return listed;
        }
    }
}
