// The lists of a plan, and what supports a label on them.

use super::plan::{Network, Plan};
use super::version::Version;

/// By variable and value, both from 0: whether the label is listed.
pub type Lists = Vec<Vec<bool>>;

/// All labels listed.
pub fn loaded(plan: &Plan) -> Lists {
    plan.variables.iter().map(|variable| vec![true; variable.values.len()]).collect()
}

/// Whether a label (its variable from 1) has, against every variable it is
/// tied to, a support on these lists.
pub fn supported(plan: &Plan, network: &Network, lists: &Lists, one: usize, a: usize) -> bool {
    (1..=plan.variables.len()).filter(|&other| network.tied(one, other)).all(|other| {
        (0..plan.variables[other - 1].values.len())
            .any(|b| lists[other - 1][b] && network.allowed(one, a, other, b))
    })
}

/// How many values a list cell holds.
const CELL_VALUES: usize = 16;

/// The cells of each variable in turn, lowest bit for its first value. Where
/// there are two, the first holds the higher half.
pub fn cells(version: Version, lists: &Lists) -> Vec<u16> {
    let listed = |list: &[bool], value: usize| list.get(value) == Some(&true);
    let cell = |list: &[bool], lowest: usize| {
        (0..CELL_VALUES).map(|bit| u16::from(listed(list, lowest + bit)) << bit).sum()
    };
    let parts = |list| (0..version.cells).rev().map(move |part| cell(list, CELL_VALUES * part));
    lists.iter().flat_map(|list| parts(list)).collect()
}
