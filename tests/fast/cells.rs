// The lists of variables in list cells.

use super::fault::{Fault, Faults};
use super::plan::Net;
use super::row::{Row, HALF};
use super::MAX;

/// Where the list of variable `s` stands: its higher half, where it has a cell
/// of its own, and its lower one.
#[inline(always)]
fn places<F: Faults, R: Row>(f: F, net: &Net<R>, s: usize) -> (Option<usize>, usize) {
    let two = R::CELLS == 2 && !f.has(Fault::OneCellInTwo) || f.has(Fault::TwoCellsInOne);
    if !two {
        return (None, s);
    }
    if f.has(Fault::HalvesApart) {
        return (Some(s), net.n + s);
    }
    if f.has(Fault::HalvesSwapped) {
        return (Some(2 * s + 1), 2 * s);
    }
    if f.has(Fault::EmptyHalfKept) && usize::from(net.size[s]) <= HALF {
        return (None, 2 * s + 1);
    }
    (Some(2 * s), 2 * s + 1)
}

/// Writes the list of each variable; the number of cells that they take.
pub fn put<F: Faults, R: Row>(f: F, net: &Net<R>, lists: &[u32], cells: &mut [u16]) -> usize {
    for (s, &list) in lists.iter().enumerate().take(net.n) {
        let (high, low) = places(f, net, s);
        cells[low] = list as u16;
        if let Some(high) = high {
            cells[high] = (list >> HALF) as u16;
        }
    }
    net.n * R::CELLS
}

/// The list of each variable.
pub fn get<F: Faults, R: Row>(f: F, net: &Net<R>, cells: &[u16]) -> [u32; MAX] {
    let mut lists = [0; MAX];
    for (s, list) in lists.iter_mut().enumerate().take(net.n) {
        let (high, low) = places(f, net, s);
        let high = high.map_or(0, |high| u32::from(cells[high]) << HALF);
        *list = high | u32::from(cells[low]);
    }
    lists
}
