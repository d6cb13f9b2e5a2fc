// What was worked out by hand, put to the subject itself and not by way of
// the reference.

use std::fmt::Debug;

use tinshrew_tests::reference::worked::sweeps::{swept, PARTS};
use tinshrew_tests::reference::worked::wide::Run;
use tinshrew_tests::reference::worked::{checks, runs};
use tinshrew_tests::reference::{LIST_CELLS, WORK_CELLS};
use tinshrew_tests::subject::{write_answer, Subject};

/// What lent cells hold before a call.
const BEFORE: u16 = 0xA5C3;

pub fn check(subject: &Subject) -> Result<(), String> {
    for (plan, answer) in checks() {
        let (mut expected, mut out) = ([0; 5], [usize::MAX; 5]);
        write_answer(answer, &mut expected);
        subject.check_plan(&plan, &mut out);
        same("check_plan", &plan, out, expected)?;
    }
    for run in runs() {
        check_run(subject, run)?;
    }
    for (plan, steps) in swept() {
        check_sweeps(subject, &plan, steps)?;
    }
    for &(lengths, sweeps, count, [number, cells]) in PARTS {
        let [first, second] = lengths.map(|length| vec![BEFORE; length]);
        let mut out = [usize::MAX; 3];
        subject.last_sweep(&first, &second, sweeps, count, &mut out);
        if out != [0, number, cells] {
            return Err(format!("last_sweep {sweeps} with {count} cells of {lengths:?}: {out:?}"));
        }
    }
    Ok(())
}

fn same<T: PartialEq + Debug>(
    what: &str,
    plan: &[u8],
    found: T,
    expected: T,
) -> Result<(), String> {
    if found != expected {
        return Err(format!("{what} of {plan:02X?}: found {found:?}, expected {expected:?}"));
    }
    Ok(())
}

/// List cells that start with these and are as before otherwise.
fn starting_with(cells: &[u16]) -> [u16; LIST_CELLS] {
    let mut all = [BEFORE; LIST_CELLS];
    all[..cells.len()].copy_from_slice(cells);
    all
}

/// The report, the list cells, and that all work cells are 0.
fn check_run(subject: &Subject, (plan, turns, report, cells): Run) -> Result<(), String> {
    let (mut expected, mut out) = ([0; 6], [usize::MAX; 6]);
    write_answer(Ok(report), &mut expected);
    let (mut work, mut lists) = (vec![BEFORE; WORK_CELLS], [BEFORE; LIST_CELLS]);
    subject.run(&plan, turns.as_deref(), &mut work, &mut lists, &mut out);
    same("run", &plan, (out, lists), (expected, starting_with(cells)))?;
    same("work cells that are 0", &plan, work.iter().filter(|&&cell| cell == 0).count(), WORK_CELLS)
}

/// The number of sweeps, and the last one's cells in both buffers.
fn check_sweeps(subject: &Subject, plan: &[u8], steps: &[&[u16]]) -> Result<(), String> {
    let (sweeps, last) = (steps.len() - 1, steps[steps.len() - 1]);
    let expected = starting_with(last);
    let (mut first, mut second) = ([BEFORE; LIST_CELLS], [BEFORE; LIST_CELLS]);
    let mut out = [usize::MAX; 2];
    subject.run_sweeps(plan, &mut first, &mut second, &mut out);
    same("sweeps", plan, (out, first, second), ([0, sweeps], expected, expected))
}
