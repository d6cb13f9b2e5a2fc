// A plan with set rules beside its copy with each of them written out as sodium
// rules: both must give the same.

use tinshrew_tests::reference::plan::{decode, Plan};
use tinshrew_tests::rng::Rng;

use super::{same_cells, Case, GUARD};

/// What a call gave: the answer, and all cells of the two arenas that it was
/// lent a part of, with their names.
pub struct Given {
    pub what: String,
    pub out: Vec<usize>,
    pub cells: [(&'static str, Vec<u16>); 2],
}

impl Case {
    /// The case with such a copy, its constraints in another order. Nothing when
    /// the plan has no set rule, or when the copy would not be accepted.
    pub fn written_out(&self) -> Option<Case> {
        let mut copy = decode(&self.plan).ok().filter(Plan::has_sets)?.written_out();
        Rng::new(self.fill).shuffle(&mut copy.constraints);
        let plan = copy.encode();
        (decode(&plan) == Ok(copy)).then(|| Case { plan, ..self.clone() })
    }
}

/// Compares what a plan and its copy gave, call by call.
pub fn same(given: &[Given], for_copy: &[Given]) -> Result<(), String> {
    if given.len() != for_copy.len() {
        return Err(format!("{} calls before, now {}", given.len(), for_copy.len()));
    }
    for (one, other) in given.iter().zip(for_copy) {
        let what = &one.what;
        if one.out != other.out {
            return Err(format!("{what}: {:?} before, now {:?}", one.out, other.out));
        }
        for ((name, cells), (_, of_copy)) in one.cells.iter().zip(&other.cells) {
            same_cells(&format!("{what}: {name}"), cells.len() - 2 * GUARD, cells, of_copy)?;
        }
    }
    Ok(())
}
