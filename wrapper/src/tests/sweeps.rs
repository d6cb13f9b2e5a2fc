//! The sweeps, and the part of the buffers that holds the last one. Both buffers of the sweeps end with the same lists,
//! so where the last one stands is tried on buffers that differ.

use super::*;

#[test]
fn p_takes_three_sweeps() {
    let mut s = SweepBuffers::ample();
    assert_eq!(s.sweeps(&hex(P)), Ok(3));
    assert_eq!(s.cells(3), [[1, 3, 1]; 2]);
}

/// A sweep that strikes nothing counts, though it is the only one.
#[test]
fn a_plan_without_rules_takes_one_sweep() {
    let mut s = SweepBuffers::ample();
    // no dish in slot 1, two in slot 2
    assert_eq!(s.sweeps(&hex("01 0003 010200 0002 0100 000A 0102 0015 0000 0016 0000")), Ok(1));
    assert_eq!(s.cells(2), [[0, 3]; 2]);
}

/// Slot 1 has no dish, the 31 others have one each, and tables allow the dishes of two neighbours together. Each sweep
/// strikes the next dish, so there are as many sweeps as there can be, on buffers as short as they can be.
#[test]
fn one_dish_a_sweep() {
    let mut plan = hex("01 0003 01201F 0002 0100");
    plan.extend(hex("0006 0101 0015 0000").repeat(31));
    plan.extend(hex("0003 010200"));
    for slot in 2..32 {
        plan.extend([0, 5, slot, slot + 1, 0, 0, 1]);
    }
    let mut s = SweepBuffers::new(64, 64);
    assert_eq!(s.sweeps(&plan), Ok(32));
    assert_eq!(s.cells(32), [[0; 32]; 2]);
}

const FIRST: [u16; 3] = [11, 12, 13];
const SECOND: [u16; 2] = [21, 22];

/// The last sweep where 0 to 4 cells are asked for, and where most are.
fn parts(sweeps: usize) -> [&'static [u16]; 6] {
    [0, 1, 2, 3, 4, usize::MAX].map(|count| last_sweep(&FIRST, &SECOND, sweeps, count))
}

#[test]
fn an_odd_number_of_sweeps_ends_in_the_second_buffer() {
    for sweeps in [1, 3, 513, usize::MAX] {
        assert_eq!(parts(sweeps), [&[][..], &[21], &[21, 22], &[], &[], &[]]);
    }
}

#[test]
fn an_even_number_of_sweeps_ends_in_the_first_buffer() {
    for sweeps in [0, 2, 512, usize::MAX - 1] {
        assert_eq!(parts(sweeps), [&[][..], &[11], &[11, 12], &[11, 12, 13], &[], &[]]);
    }
}

/// Buffers and lengths that no library of this version tells.
#[test]
fn an_unknown_part_is_empty() {
    for out in [[0, 0, 1], [0, 3, 1], [0, 1, 4], [0, 2, 3], [0, 2, usize::MAX]] {
        assert_eq!(part(&FIRST, &SECOND, out), []);
    }
}
