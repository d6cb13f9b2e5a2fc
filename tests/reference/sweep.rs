// The slow engine: sweeps over two lent buffers, and the part of them that
// holds the last sweep.

use super::lists::{cells, loaded, supported, Lists};
use super::plan::{decode, Network, Plan};
use super::{decline, Decline, LIST_CELLS};

/// Keeps each label that was listed before the sweep and has, against every
/// variable it is tied to, a support that was.
fn sweep(plan: &Plan, network: &Network, before: &Lists) -> Lists {
    let kept = |one: usize, list: &Vec<bool>| -> Vec<bool> {
        let values = list.iter().enumerate();
        values.map(|(a, &listed)| listed && supported(plan, network, before, one, a)).collect()
    };
    (1..).zip(before).map(|(one, list)| kept(one, list)).collect()
}

/// The loaded lists and those after each sweep, up to the first sweep that
/// deletes nothing.
pub fn sweeps(plan: &Plan, network: &Network) -> Vec<Lists> {
    let mut before = loaded(plan);
    let mut all = vec![before.clone()];
    loop {
        let after = sweep(plan, network, &before);
        all.push(after.clone());
        if after == before {
            return all;
        }
        before = after;
    }
}

/// Sweeps that have come to their end.
#[derive(Clone, Debug)]
pub struct Swept {
    pub plan: Plan,
    pub network: Network,
    /// How many there were.
    pub sweeps: usize,
}

/// The first buffer gets the loaded lists, and then the second and the first
/// in turn get those after each sweep.
pub fn run_sweeps(plan: &[u8], first: &mut [u16], second: &mut [u16]) -> Result<Swept, Decline> {
    if first.len() < LIST_CELLS || second.len() < LIST_CELLS {
        return decline(10, 0);
    }
    let plan = decode(plan)?;
    let network = Network::new(&plan);
    let all = sweeps(&plan, &network);
    for (number, lists) in all.iter().enumerate() {
        let buffer = if number % 2 == 0 { &mut *first } else { &mut *second };
        let written = cells(plan.version, lists);
        buffer[..written.len()].copy_from_slice(&written);
    }
    Ok(Swept { plan, network, sweeps: all.len() - 1 })
}

/// The number of the buffer that holds the last of so many sweeps, and of the
/// cells of its part: `count`, or none when the buffer is shorter.
pub fn last_sweep(first: &[u16], second: &[u16], sweeps: usize, count: usize) -> [usize; 2] {
    let (number, buffer) = if sweeps % 2 == 1 { (2, second) } else { (1, first) };
    if buffer.len() < count {
        return [number, 0];
    }
    [number, count]
}
