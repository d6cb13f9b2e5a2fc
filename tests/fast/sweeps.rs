// The sweeps with bit masks: what the list of a tied variable supports is
// gathered from the rows of its values.

use std::mem::swap;

use super::cells;
use super::fault::{Fault, Faults};
use super::plan::{decode, Net, Plan};
use super::row::{Row, HALF, LOW_HALF, WIDEST};
use super::{below, bits, lists_needed, Declined, MAX};

/// The values of variable `s` with a support against each tied variable.
fn supported<F: Faults, R: Row>(f: F, net: &Net<R>, lists: &[u32], s: usize) -> u32 {
    if f.has(Fault::SupportsByConstraint) {
        return supported_singly(f, net, lists, s);
    }
    let by = |t: usize| gather(lists[t], |e| net.row(R::VALUES * t + e, s));
    let tied = bits(net.tied[s]).map(by);
    if f.has(Fault::SupportAgainstSome) && net.tied[s] != 0 {
        return tied.fold(0, |some, one| some | one);
    }
    tied.fold(u32::MAX, |all, one| all & one)
}

/// The union of a list's rows.
fn gather(list: u32, row: impl Fn(usize) -> u32) -> u32 {
    bits(list).fold(0, |union, e| union | row(e))
}

/// The values with a support under each constraint by itself, as no sound
/// variant has it.
fn supported_singly<F: Faults, R: Row>(f: F, net: &Net<R>, lists: &[u32], s: usize) -> u32 {
    let by = |&(a, b, rows): &(usize, usize, [R; WIDEST])| {
        let row = |d: usize| -> u32 { rows[d].into() };
        if s == a {
            gather(below(f, net.size[a]), |d| u32::from(row(d) & lists[b] != 0) << d)
        } else if s == b {
            gather(lists[a], row)
        } else {
            u32::MAX
        }
    };
    net.single.iter().map(by).fold(u32::MAX, |all, one| all & one)
}

fn sweep<F: Faults, R: Row>(f: F, net: &Net<R>, before: &[u32; MAX]) -> [u32; MAX] {
    let mut after = *before;
    for s in 0..net.n {
        let read = if f.has(Fault::SweepReadsItself) { &after } else { before };
        let mut kept = supported(f, net, read, s);
        if f.has(Fault::SweepKeepsHighHalf) {
            kept |= !LOW_HALF;
        }
        after[s] &= kept;
    }
    after
}

/// Whether this sweep is the last; a sound one is when it deletes nothing.
fn is_last<F: Faults, R: Row>(
    f: F,
    net: &Net<R>,
    sweeps: usize,
    before: &[u32; MAX],
    after: &[u32; MAX],
) -> bool {
    let low_halves = |lists: &[u32; MAX]| lists.map(|list| list & LOW_HALF);
    after == before
        || f.has(Fault::EndsByLowHalf) && low_halves(after) == low_halves(before)
        || f.has(Fault::EndsAtEmptyList) && after[..net.n].contains(&0)
        || f.has(Fault::AsManyAsLabels) && sweeps == net.labels()
}

/// Lists with their halves exchanged where the fault is there.
fn turned<F: Faults, R: Row>(f: F, fault: Fault, lists: [u32; MAX]) -> [u32; MAX] {
    if f.has(fault) && R::CELLS == 2 {
        return lists.map(|list| list.rotate_left(HALF as u32));
    }
    lists
}

/// Writes lists into a buffer.
fn write<F: Faults, R: Row>(f: F, net: &Net<R>, lists: [u32; MAX], buffer: &mut [u16]) {
    cells::put(f, net, &turned::<F, R>(f, Fault::SweepHalvesSwapped, lists), buffer);
}

/// Reads the lists of a buffer.
fn read<F: Faults, R: Row>(f: F, net: &Net<R>, buffer: &[u16]) -> [u32; MAX] {
    let lists = turned::<F, R>(f, Fault::SweepHalvesSwapped, cells::get(f, net, buffer));
    turned::<F, R>(f, Fault::SweepReadsSwapped, lists)
}

/// Plays the sweeps from the lists that `from` holds; their number.
fn play<'a, F: Faults, R: Row>(
    f: F,
    net: &Net<R>,
    mut from: &'a mut [u16],
    mut to: &'a mut [u16],
) -> usize {
    let mut sweeps = 0;
    loop {
        let before = read(f, net, from);
        let after = sweep(f, net, &before);
        sweeps += 1;
        let last = is_last(f, net, sweeps, &before, &after);
        let unwritten = f.has(Fault::LastUnwritten) || f.has(Fault::EndsBeforeLast);
        if !(last && unwritten) {
            write(f, net, after, to);
        }
        if last {
            return counted(f, sweeps);
        }
        swap(&mut from, &mut to);
    }
}

/// The number that is given for so many sweeps.
fn counted<F: Faults>(f: F, sweeps: usize) -> usize {
    let less = f.has(Fault::LastUncounted) || f.has(Fault::EndsBeforeLast);
    sweeps - usize::from(less) + usize::from(f.has(Fault::OneSweepMore))
}

/// The sweeps over two lent buffers; their number.
pub fn run_sweeps<F: Faults>(
    f: F,
    plan: &[u8],
    first: &mut [u16],
    second: &mut [u16],
) -> Result<[usize; 1], Declined> {
    let need = lists_needed(f, plan, Fault::SweepListsByVersion)
        + usize::from(f.has(Fault::SweepListsOneMore));
    let short = first.len() < need || second.len() < need;
    if f.has(Fault::ShortListsClear) && short {
        first.fill(0);
        second.fill(0);
    }
    if short && !f.has(Fault::PlanBeforeSweepLists) {
        return Err((10, 0));
    }
    let decoded = decode(f, plan);
    if f.has(Fault::DeclinedPlanClears) && decoded.is_err() {
        first.fill(0);
    }
    let plan = decoded?;
    if short {
        return Err((10, 0));
    }
    Ok([match &plan {
        Plan::One(net) => sweep_all(f, net, first, second),
        Plan::Two(net) => sweep_all(f, net, first, second),
    }])
}

/// The sweeps of a plan that was accepted, over buffers that are long enough.
fn sweep_all<F: Faults, R: Row>(
    f: F,
    net: &Net<R>,
    first: &mut [u16],
    second: &mut [u16],
) -> usize {
    let later = net.n * R::CELLS;
    if f.has(Fault::LaterFirstCleared) {
        first[later..].fill(0);
    }
    if f.has(Fault::LaterSecondCleared) {
        second[later..].fill(0);
    }
    let mut loaded = [0; MAX];
    for (list, &size) in loaded.iter_mut().zip(&net.size[..net.n]) {
        *list = below(f, size);
    }
    if f.has(Fault::SweepsAfterLoading) {
        loaded = sweep(f, net, &loaded);
    }
    write(f, net, loaded, first);
    if f.has(Fault::RolesExchanged) {
        play(f, net, second, first)
    } else {
        play(f, net, first, second)
    }
}

/// The number of the buffer that holds the last of so many sweeps, and of the
/// cells of its part, by the lengths of both buffers.
pub fn last_sweep<F: Faults>(f: F, lengths: [usize; 2], sweeps: usize, count: usize) -> [usize; 2] {
    let mut held = sweeps & 1;
    if f.has(Fault::OtherParity) || f.has(Fault::NoSweepIsSecond) && sweeps == 0 {
        held ^= 1;
    }
    let measured = if f.has(Fault::OtherLength) { held ^ 1 } else { held };
    [held + 1, part(f, lengths[measured], count)]
}

/// What is given of a buffer of that length when so many cells are wanted.
fn part<F: Faults>(f: F, length: usize, wanted: usize) -> usize {
    let wanted = if f.has(Fault::CountCut) { wanted & 0xFFFF } else { wanted };
    if f.has(Fault::ShorterPart) {
        return wanted.min(length);
    }
    let longer = f.has(Fault::PartOneLonger) && wanted == length + 1;
    let empty = f.has(Fault::WholePartEmpty) && wanted == length;
    if wanted <= length && !empty || longer {
        wanted
    } else {
        0
    }
}
