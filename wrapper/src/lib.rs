//! Safe calls of Tinshrew, which strikes dishes from the lists of a plan, between kitchens.
//!
//! A plan has slots, each with a list of dishes and owned by a kitchen, and rules that say which dish of one slot may
//! stand with which dish of another. [`check_plan`] checks a plan, [`run_turns`] plays a list of turns on it, and
//! [`run_round`] plays rounds until it is closed. [`run_sweeps`] gives the lists of the closed plan by a slower method,
//! which can be followed on paper, and [`last_sweep`] finds them in its buffers. `docs/FORMAT.md` has the bytes of a
//! plan and of a turn list, what each turn does, the sweeps, and the declines with their order; `include/tinshrew.h` is
//! the same interface for C. A plan of version 1 has up to 16 dishes in a slot. One of version 2 has up to 32, and may
//! have set rules, which put one sodium limit on every two of up to eight slots. Every call takes both.
//!
//! From the bytes of a plan to its lists:
//!
//! ```
//! use tinshrew::{check_plan, run_round, Status, LIST_CELLS, WORK_CELLS};
//!
//! let plan = [
//!     1,                                        // version
//!     0, 3, 2, 2, 1,                            // head: 2 kitchens, 2 slots, 1 rule
//!     0, 10, 1, 2, 0, 11, 1, 44, 0, 12, 3, 132, // slot 1, kitchen 1: dish 11 with 300 mg, dish 12 with 900 mg
//!     0, 10, 2, 2, 0, 21, 1, 244, 0, 22, 3, 32, // slot 2, kitchen 2: dish 21 with 500 mg, dish 22 with 800 mg
//!     0, 5, 1, 2, 1, 4, 176,                    // slots 1 and 2: at most 1,200 mg together
//! ];
//! let counts = check_plan(&plan)?;
//! assert_eq!((counts.slots, counts.dishes), (2, 4));
//!
//! let mut work = vec![0; WORK_CELLS];
//! let mut lists = [0; LIST_CELLS];
//! let report = run_round(&plan, &mut work, &mut lists)?;
//! assert_eq!(report.status, Status::Closed);
//!
//! // In version 1 a cell for each slot, lowest bit for its first dish. Slot 1 has lost its second, which is too salty for
//! // both of slot 2.
//! assert_eq!(lists[..counts.slots], [0b01, 0b11]);
//! # Ok::<(), tinshrew::Decline>(())
//! ```
//!
//! A call that is declined gives a [`Decline`], which can be printed, and asked for the [`Section`] of the plan or the
//! [`Turn`] that it is about.
//!
//! The library allocates nothing and keeps nothing between calls: work cells can be used again for the next call, and
//! calls may run at the same time. This package links `target/staticlib/libtinshrew.a` of the repository, or the file
//! that the environment variable `TINSHREW_LIB` names, seen from the repository's folder, when it is built. A call panics
//! if that is a library of another [`version`], and for no other reason.

#![warn(missing_docs)]

mod decline;
mod library;
mod place;
mod report;

use decline::accepted;
use report::part;

pub use decline::Decline;
pub use place::{Section, Turn};
pub use report::{Counts, Report, Status};

/// The version of the interface that this package is written for; it is not the version of a plan.
pub const VERSION: usize = 2;
/// How many work cells a run needs, whatever the plan.
pub const WORK_CELLS: usize = 30_720;
/// How many list cells a run needs, and each of the two buffers of the sweeps, whatever the plan.
pub const LIST_CELLS: usize = 64;
/// How many bytes a turn list has at most.
pub const TURN_BYTES: usize = 65_536;

/// A kind of lent buffer.
#[derive(Clone, Copy, Debug, PartialEq, Eq)]
pub enum Buffer {
    /// The work cells.
    Work = 1,
    /// The list cells, also those of each of the two buffers of the sweeps.
    Lists = 2,
}

// `unsafe` stands only where the library is called: slices carry their own lengths, and Rust's borrows keep the lent
// buffers apart.

/// The version of the linked library's interface.
pub fn version() -> usize {
    // SAFETY: it takes nothing, in all versions.
    unsafe { library::tinshrew_version() }
}

/// How many cells of a buffer the linked library needs.
pub fn cells(buffer: Buffer) -> usize {
    // SAFETY: it takes any number, in all versions.
    unsafe { library::tinshrew_cells(buffer as usize) }
}

/// Stops where the linked library has another version: its calls may take other arguments.
fn same_version() {
    assert_eq!(version(), VERSION, "the linked libtinshrew.a has another version than its Rust wrapper");
}

/// Checks a plan.
pub fn check_plan(plan: &[u8]) -> Result<Counts, Decline> {
    same_version();
    let mut out = library::CheckOut::default();
    // SAFETY: the slice is valid for its length and never null, and `out` is a local of the size that is written.
    unsafe { library::tinshrew_check_plan(plan.as_ptr(), plan.len(), &mut out) };
    Counts::new(out)
}

/// Plays the turns of a list on a plan, two bytes each: the actor and the deed.
///
/// On success `lists` holds the listed dishes of each slot, a bit for each: lowest bit of a cell for the first of its
/// dishes, 1 where it is still listed. Of slot s, with n slots in the plan, that is
///
/// - `lists[s - 1]` for a plan of version 1, which has n such cells;
/// - `lists[2 * s - 2]` for dishes 17 to 32 and `lists[2 * s - 1]` for dishes 1 to 16 for a plan of version 2, which has
///   2n.
///
/// The first [`WORK_CELLS`] work cells are 0. All later cells of both keep what they had. What `work` held before plays
/// no part.
///
/// ```
/// use tinshrew::{check_plan, run_turns, LIST_CELLS, WORK_CELLS};
///
/// let mut plan = vec![
///     2,             // version
///     0, 3, 1, 1, 0, // head: 1 kitchen, 1 slot, no rule
///     0, 74, 1, 18,  // slot 1, kitchen 1: 18 dishes
/// ];
/// for code in 1..=18 {
///     plan.extend([0, code, 0, 0]);
/// }
/// let (mut work, mut lists) = (vec![0; WORK_CELLS], [0; LIST_CELLS]);
/// run_turns(&plan, &[], &mut work, &mut lists)?;
///
/// // The higher half comes first: dishes 17 and 18, then dishes 1 to 16.
/// assert_eq!(lists[..2 * check_plan(&plan)?.slots], [0b11, 0xFFFF]);
/// # Ok::<(), tinshrew::Decline>(())
/// ```
pub fn run_turns(plan: &[u8], turns: &[u8], work: &mut [u16], lists: &mut [u16]) -> Result<Report, Decline> {
    same_version();
    let mut out = library::RunOut::default();
    // SAFETY: each slice is valid for its length and never null; those that are written are borrowed as `&mut`, so
    // overlap no other; `out` is a local of the size that is written.
    unsafe {
        library::tinshrew_run_turns(
            plan.as_ptr(),
            plan.len(),
            turns.as_ptr(),
            turns.len(),
            work.as_mut_ptr(),
            work.len(),
            lists.as_mut_ptr(),
            lists.len(),
            &mut out,
        )
    };
    Report::new(out)
}

/// Plays rounds on a plan until it is closed, so that the status is never [`Status::Open`]. The buffers are as in
/// [`run_turns`].
pub fn run_round(plan: &[u8], work: &mut [u16], lists: &mut [u16]) -> Result<Report, Decline> {
    same_version();
    let mut out = library::RunOut::default();
    // SAFETY: as in `run_turns`.
    unsafe {
        library::tinshrew_run_round(
            plan.as_ptr(),
            plan.len(),
            work.as_mut_ptr(),
            work.len(),
            lists.as_mut_ptr(),
            lists.len(),
            &mut out,
        )
    };
    Report::new(out)
}

/// Sweeps the lists of a plan until nothing more is struck, and gives the number of sweeps: from 1 to one more than the
/// plan has dishes.
///
/// `first` starts with every dish listed. Each sweep reads one buffer and writes the other: it keeps each dish that was
/// listed and has, against every slot that its own shares a rule with, a support that was listed. The first sweep that
/// strikes nothing is the last; it counts.
///
/// On success [`last_sweep`] finds what the last sweep wrote: the lists of the closed plan, in cells as in [`run_turns`].
/// Since it strikes nothing, the other buffer holds them too. Later cells of both keep what they had, and what the
/// others held before plays no part.
///
/// It takes less than 62 KiB of stack.
///
/// ```
/// use tinshrew::{check_plan, last_sweep, run_sweeps, LIST_CELLS};
///
/// let plan = [
///     1,                                     // version
///     0, 3, 1, 2, 1,                         // head: 1 kitchen, 2 slots, 1 rule
///     0, 10, 1, 2, 0, 11, 0, 0, 0, 12, 0, 0, // slot 1: dishes 11 and 12
///     0, 6, 1, 1, 0, 21, 0, 0,               // slot 2: dish 21
///     0, 7, 1, 2, 0, 0, 1, 0, 0,             // slots 1 and 2: 11 with 21
/// ];
/// let (mut first, mut second) = ([0; LIST_CELLS], [0; LIST_CELLS]);
/// let sweeps = run_sweeps(&plan, &mut first, &mut second)?;
///
/// // The first sweep strikes dish 12, the second nothing.
/// assert_eq!(sweeps, 2);
/// let slots = check_plan(&plan)?.slots;
/// assert_eq!(last_sweep(&first, &second, sweeps, slots), [0b01, 0b1]);
/// # Ok::<(), tinshrew::Decline>(())
/// ```
pub fn run_sweeps(plan: &[u8], first: &mut [u16], second: &mut [u16]) -> Result<usize, Decline> {
    same_version();
    let mut out = library::SweepsOut::default();
    // SAFETY: as in `run_turns`.
    unsafe {
        library::tinshrew_run_sweeps(
            plan.as_ptr(),
            plan.len(),
            first.as_mut_ptr(),
            first.len(),
            second.as_mut_ptr(),
            second.len(),
            &mut out,
        )
    };
    accepted(out[0], out[1])
}

/// The part of two buffers that holds the last of so many sweeps: `count` cells from the start of the second buffer for
/// an odd number, of the first for an even one, 0 too. It is empty where that buffer has fewer cells.
///
/// All lists are as many cells as the plan has slots, and twice as many for a plan of version 2.
pub fn last_sweep<'a>(first: &'a [u16], second: &'a [u16], sweeps: usize, count: usize) -> &'a [u16] {
    same_version();
    let mut out = library::LastSweepOut::default();
    // SAFETY: each slice is valid for its length and never null, and `out` is a local of the size that is written.
    unsafe {
        library::tinshrew_last_sweep(
            first.as_ptr(),
            first.len(),
            second.as_ptr(),
            second.len(),
            sweeps,
            count,
            &mut out,
        )
    };
    part(first, second, out)
}

#[cfg(test)]
mod tests;
