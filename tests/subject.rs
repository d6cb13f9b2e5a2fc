// The library under test, and stand-ins for it with the same signatures: the
// reference, the fast implementation, and the deliberately wrong variants of
// the latter.

use std::slice::{from_raw_parts, from_raw_parts_mut};
use std::sync::atomic::{AtomicUsize, Ordering};

use crate::fast::{self, fault, Fault, Faulty, Sound};
use crate::library::{CheckOut, LastSweepOut, RunOut, SweepsOut};
use crate::reference::run::{self, Run};
use crate::reference::sweep::{self, Swept};
use crate::reference::{Decline, LIST_CELLS};

type CheckPlan = unsafe extern "C" fn(*const u8, usize, *mut CheckOut);
type RunTurns = unsafe extern "C" fn(
    *const u8,
    usize,
    *const u8,
    usize,
    *mut u16,
    usize,
    *mut u16,
    usize,
    *mut RunOut,
);
type RunRound =
    unsafe extern "C" fn(*const u8, usize, *mut u16, usize, *mut u16, usize, *mut RunOut);
type RunSweeps =
    unsafe extern "C" fn(*const u8, usize, *mut u16, usize, *mut u16, usize, *mut SweepsOut);
type LastSweep =
    unsafe extern "C" fn(*const u16, usize, *const u16, usize, usize, usize, *mut LastSweepOut);

/// The functions under test.
#[derive(Clone, Copy)]
pub struct Subject {
    pub name: &'static str,
    check_plan: CheckPlan,
    run_turns: RunTurns,
    run_round: RunRound,
    run_sweeps: RunSweeps,
    last_sweep: LastSweep,
}

impl Subject {
    pub fn check_plan(&self, plan: &[u8], out: &mut CheckOut) {
        // SAFETY: the plan is as long as stated, and `out` has the cells that are written.
        unsafe { (self.check_plan)(plan.as_ptr(), plan.len(), out) }
    }

    /// The turn run, or without a turn list the round run.
    pub fn run(
        &self,
        plan: &[u8],
        turns: Option<&[u8]>,
        work: &mut [u16],
        lists: &mut [u16],
        out: &mut RunOut,
    ) {
        let (plan, plan_len) = (plan.as_ptr(), plan.len());
        let (work, work_len) = (work.as_mut_ptr(), work.len());
        let (lists, lists_len) = (lists.as_mut_ptr(), lists.len());
        // SAFETY: the slices are as long as stated, and `out` has the cells that are written.
        unsafe {
            match turns {
                Some(turns) => (self.run_turns)(
                    plan,
                    plan_len,
                    turns.as_ptr(),
                    turns.len(),
                    work,
                    work_len,
                    lists,
                    lists_len,
                    out,
                ),
                None => (self.run_round)(plan, plan_len, work, work_len, lists, lists_len, out),
            }
        }
    }

    pub fn run_sweeps(
        &self,
        plan: &[u8],
        first: &mut [u16],
        second: &mut [u16],
        out: &mut SweepsOut,
    ) {
        let (plan, plan_len) = (plan.as_ptr(), plan.len());
        let (first, first_len) = (first.as_mut_ptr(), first.len());
        let (second, second_len) = (second.as_mut_ptr(), second.len());
        // SAFETY: the slices are as long as stated, and `out` has the cells that are written.
        unsafe { (self.run_sweeps)(plan, plan_len, first, first_len, second, second_len, out) }
    }

    pub fn last_sweep(
        &self,
        first: &[u16],
        second: &[u16],
        sweeps: usize,
        count: usize,
        out: &mut LastSweepOut,
    ) {
        let (first, first_len) = (first.as_ptr(), first.len());
        let (second, second_len) = (second.as_ptr(), second.len());
        // SAFETY: the slices are as long as stated, and `out` has the cells that are written.
        unsafe { (self.last_sweep)(first, first_len, second, second_len, sweeps, count, out) }
    }
}

/// The library, when the build found it.
pub fn library() -> Option<Subject> {
    #[cfg(linked)]
    return Some(Subject {
        name: "library",
        check_plan: crate::library::tinshrew_check_plan,
        run_turns: crate::library::tinshrew_run_turns,
        run_round: crate::library::tinshrew_run_round,
        run_sweeps: crate::library::tinshrew_run_sweeps,
        last_sweep: crate::library::tinshrew_last_sweep,
    });
    #[cfg(not(linked))]
    None
}

/// The numbers of an answer, or a decline's number and place.
pub type Answer<const N: usize> = Result<[usize; N], (usize, usize)>;

/// Writes an answer into N + 1 cells as the C interface does.
pub fn write_answer<const N: usize>(answer: Answer<N>, out: &mut [usize]) {
    out.fill(0);
    match answer {
        Ok(numbers) => out[1..].copy_from_slice(&numbers),
        Err((number, place)) => {
            out[0] = number;
            out[1] = place;
        }
    }
}

/// An implementation that takes the library's place.
trait StandIn {
    fn check_plan(plan: &[u8]) -> Answer<4>;
    fn run_turns(plan: &[u8], turns: &[u8], work: &mut [u16], lists: &mut [u16]) -> Answer<5>;
    fn run_round(plan: &[u8], work: &mut [u16], lists: &mut [u16]) -> Answer<5>;
    fn run_sweeps(plan: &[u8], first: &mut [u16], second: &mut [u16]) -> Answer<1>;
    fn last_sweep(first: &[u16], second: &[u16], sweeps: usize, count: usize) -> [usize; 2];

    fn spare() -> Spare {
        Spare::default()
    }
}

/// Cells that a stand-in is lent beyond those of the caller: work cells, list
/// cells, and those of the two buffers of the sweeps.
#[derive(Default)]
struct Spare {
    work: usize,
    lists: usize,
    first: usize,
    second: usize,
}

unsafe extern "C" fn check_plan<S: StandIn>(plan: *const u8, plan_len: usize, out: *mut CheckOut) {
    write_answer(S::check_plan(from_raw_parts(plan, plan_len)), &mut *out);
}

unsafe extern "C" fn run_turns<S: StandIn>(
    plan: *const u8,
    plan_len: usize,
    turns: *const u8,
    turns_len: usize,
    work: *mut u16,
    work_len: usize,
    lists: *mut u16,
    lists_len: usize,
    out: *mut RunOut,
) {
    let (plan, turns) = (from_raw_parts(plan, plan_len), from_raw_parts(turns, turns_len));
    let work = from_raw_parts_mut(work, work_len + S::spare().work);
    let lists = from_raw_parts_mut(lists, lists_len + S::spare().lists);
    write_answer(S::run_turns(plan, turns, work, lists), &mut *out);
}

unsafe extern "C" fn run_round<S: StandIn>(
    plan: *const u8,
    plan_len: usize,
    work: *mut u16,
    work_len: usize,
    lists: *mut u16,
    lists_len: usize,
    out: *mut RunOut,
) {
    let plan = from_raw_parts(plan, plan_len);
    let work = from_raw_parts_mut(work, work_len + S::spare().work);
    let lists = from_raw_parts_mut(lists, lists_len + S::spare().lists);
    write_answer(S::run_round(plan, work, lists), &mut *out);
}

unsafe extern "C" fn run_sweeps<S: StandIn>(
    plan: *const u8,
    plan_len: usize,
    first: *mut u16,
    first_len: usize,
    second: *mut u16,
    second_len: usize,
    out: *mut SweepsOut,
) {
    let plan = from_raw_parts(plan, plan_len);
    let first = from_raw_parts_mut(first, first_len + S::spare().first);
    let second = from_raw_parts_mut(second, second_len + S::spare().second);
    write_answer(S::run_sweeps(plan, first, second), &mut *out);
}

unsafe extern "C" fn last_sweep<S: StandIn>(
    first: *const u16,
    first_len: usize,
    second: *const u16,
    second_len: usize,
    sweeps: usize,
    count: usize,
    out: *mut LastSweepOut,
) {
    let (first, second) = (from_raw_parts(first, first_len), from_raw_parts(second, second_len));
    write_answer(Ok(S::last_sweep(first, second, sweeps, count)), &mut *out);
}

fn subject<S: StandIn>(name: &'static str) -> Subject {
    Subject {
        name,
        check_plan: check_plan::<S>,
        run_turns: run_turns::<S>,
        run_round: run_round::<S>,
        run_sweeps: run_sweeps::<S>,
        last_sweep: last_sweep::<S>,
    }
}

struct Reference;

fn number_and_place(decline: &Decline) -> (usize, usize) {
    (decline.number, decline.place)
}

/// The reference's answer to a plan check.
pub fn reference_check(plan: &[u8]) -> Answer<4> {
    run::check_plan(plan).map_err(|decline| number_and_place(&decline))
}

/// The answer that a run of the reference comes to.
pub fn reference_answer(result: &Result<Run, Decline>) -> Answer<5> {
    match result {
        Ok(run) => {
            let r = run.report();
            Ok([r.status as usize, r.changed, r.lists_sent, r.polls_sent, r.lowest_empty])
        }
        Err(decline) => Err(number_and_place(decline)),
    }
}

/// The answer that sweeps of the reference come to.
pub fn reference_sweeps(result: &Result<Swept, Decline>) -> Answer<1> {
    result.as_ref().map(|swept| [swept.sweeps]).map_err(number_and_place)
}

impl StandIn for Reference {
    fn check_plan(plan: &[u8]) -> Answer<4> {
        reference_check(plan)
    }

    fn run_turns(plan: &[u8], turns: &[u8], work: &mut [u16], lists: &mut [u16]) -> Answer<5> {
        reference_answer(&run::run_turns(plan, turns, work, lists, &mut |_| {}))
    }

    fn run_round(plan: &[u8], work: &mut [u16], lists: &mut [u16]) -> Answer<5> {
        reference_answer(&run::run_round(plan, work, lists, &mut |_| {}))
    }

    fn run_sweeps(plan: &[u8], first: &mut [u16], second: &mut [u16]) -> Answer<1> {
        reference_sweeps(&sweep::run_sweeps(plan, first, second))
    }

    fn last_sweep(first: &[u16], second: &[u16], sweeps: usize, count: usize) -> [usize; 2] {
        sweep::last_sweep(first, second, sweeps, count)
    }
}

/// The reference itself.
pub fn reference() -> Subject {
    subject::<Reference>("reference")
}

struct Fast;

impl StandIn for Fast {
    fn check_plan(plan: &[u8]) -> Answer<4> {
        fast::check_plan(Sound, plan)
    }

    fn run_turns(plan: &[u8], turns: &[u8], work: &mut [u16], lists: &mut [u16]) -> Answer<5> {
        fast::run_turns(Sound, plan, turns, work, lists, true)
    }

    fn run_round(plan: &[u8], work: &mut [u16], lists: &mut [u16]) -> Answer<5> {
        fast::run_round(Sound, plan, work, lists, true)
    }

    fn run_sweeps(plan: &[u8], first: &mut [u16], second: &mut [u16]) -> Answer<1> {
        fast::run_sweeps(Sound, plan, first, second)
    }

    fn last_sweep(first: &[u16], second: &[u16], sweeps: usize, count: usize) -> [usize; 2] {
        fast::last_sweep(Sound, [first.len(), second.len()], sweeps, count)
    }
}

/// The fast implementation.
pub fn fast() -> Subject {
    subject::<Fast>("fast")
}

static FAULT: AtomicUsize = AtomicUsize::new(0);

/// How many list cells more are needed than when there was version 1 alone.
const FORMER_MISSING: usize = LIST_CELLS - fast::FORMER_LISTS;

fn current() -> Faulty {
    Faulty(fault::ALL[FAULT.load(Ordering::Relaxed)])
}

struct Wrong;

impl StandIn for Wrong {
    fn check_plan(plan: &[u8]) -> Answer<4> {
        fast::check_plan(current(), plan)
    }

    fn run_turns(plan: &[u8], turns: &[u8], work: &mut [u16], lists: &mut [u16]) -> Answer<5> {
        fast::run_turns(current(), plan, turns, work, lists, true)
    }

    fn run_round(plan: &[u8], work: &mut [u16], lists: &mut [u16]) -> Answer<5> {
        fast::run_round(current(), plan, work, lists, true)
    }

    fn run_sweeps(plan: &[u8], first: &mut [u16], second: &mut [u16]) -> Answer<1> {
        fast::run_sweeps(current(), plan, first, second)
    }

    fn last_sweep(first: &[u16], second: &[u16], sweeps: usize, count: usize) -> [usize; 2] {
        fast::last_sweep(current(), [first.len(), second.len()], sweeps, count)
    }

    // A variant that accepts too few cells still writes the full number, so
    // it is given the missing ones beyond those it was lent.
    fn spare() -> Spare {
        let none = Spare::default();
        match current().0 {
            Fault::WorkOneLess => Spare { work: 1, ..none },
            Fault::ListsOneLess => Spare { lists: 1, ..none },
            Fault::FormerLists => Spare { lists: FORMER_MISSING, ..none },
            Fault::SweepListsOneLess => Spare { first: 1, second: 1, ..none },
            Fault::FormerSweepLists => {
                Spare { first: FORMER_MISSING, second: FORMER_MISSING, ..none }
            }
            Fault::FirstLengthOnly => Spare { second: LIST_CELLS, ..none },
            Fault::SecondLengthOnly => Spare { first: LIST_CELLS, ..none },
            _ => none,
        }
    }
}

/// The wrong variant of that number in `fault::ALL`.
pub fn wrong(number: usize) -> Subject {
    FAULT.store(number, Ordering::Relaxed);
    subject::<Wrong>("wrong variant")
}
