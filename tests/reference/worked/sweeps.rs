// The sweeps worked by hand, and the parts that hold the last one.

use super::wide::{all_supports_go, plan_p_in_two, plan_q};
use super::{
    apart, half_supports, no_values, plan_p, sets, sodium, table, three_differ, BROTH, MAINS,
};

/// A plan, and its cells as loaded and after each sweep.
pub type Steps = (Vec<u8>, &'static [&'static [u16]]);

pub fn swept() -> Vec<Steps> {
    [swept_in_one(), swept_in_two(), sets::swept()].concat()
}

/// Of each variable's two cells the first holds its values 17 to 32.
fn swept_in_two() -> Vec<Steps> {
    vec![
        (
            plan_p_in_two(),
            &[&[0, 3, 0, 3, 0, 3], &[0, 1, 0, 3, 0, 3], &[0, 1, 0, 3, 0, 1], &[0, 1, 0, 3, 0, 1]],
        ),
        // Sweep 1: 102 and 117 have no support in variable 2. Sweep 2: 304 and
        // 317, which go with 102 alone, have none in variable 1. Sweep 3: 401
        // goes with 304 alone and 402 with 317.
        (
            plan_q().encode(),
            &[
                &[15, 0xFFFF, 0, 3, 3, 0xFFFF, 0, 7],
                &[14, 0xFFFD, 0, 3, 3, 0xFFFF, 0, 7],
                &[14, 0xFFFD, 0, 3, 2, 0xFFF7, 0, 7],
                &[14, 0xFFFD, 0, 3, 2, 0xFFF7, 0, 4],
                &[14, 0xFFFD, 0, 3, 2, 0xFFF7, 0, 4],
            ],
        ),
        // Sweep 1: the 32 values of variable 1 have no support in variable 3,
        // that of variable 2 has all 32. Sweep 2: it has none.
        (
            all_supports_go().encode(),
            &[
                &[0xFFFF, 0xFFFF, 0, 1, 0, 0],
                &[0, 0, 0, 1, 0, 0],
                &[0, 0, 0, 0, 0, 0],
                &[0, 0, 0, 0, 0, 0],
            ],
        ),
    ]
}

fn swept_in_one() -> Vec<Steps> {
    let (one, two): (&[_], &[_]) = (&[BROTH], &MAINS);
    let plan = |variables: &[&[_]], constraints: &[_]| apart(variables, constraints).encode();
    let same_place = |first, second| table(first, second, &[1, 2]);
    vec![
        // 900 goes with neither 500 nor 800 under a limit of 1,200: 12 is
        // deleted, and 32, which goes with it alone, a sweep later.
        (plan_p(), &[&[3, 3, 3], &[1, 3, 3], &[1, 3, 1], &[1, 3, 1]]),
        // Each value has its support in both other variables.
        (three_differ(), &[&[3, 3, 3], &[3, 3, 3]]),
        // No label: the one sweep deletes nothing.
        (no_values(), &[&[0], &[0]]),
        (plan(&[&[], &[], &[]], &[sodium(1, 2, 0), table(2, 3, &[])]), &[&[0, 0, 0], &[0, 0, 0]]),
        // Each table leaves the one value a support, both together none.
        (half_supports(), &[&[1, 3], &[0, 0], &[0, 0]]),
        // Variable 1 goes with the first value of 2 alone; 2 and 3, and 3 and
        // 4, go together at the same place. Sweep 1: the second value of 2 has
        // no support in 1; that of 3 has one in 2, listed before the sweep,
        // and that of 4 one in 3. Sweep 2: that of 3 has none in 2 any more.
        // Sweep 3: that of 4 has none in 3. Sweep 4: the first values are left
        // and support each other.
        (
            plan(&[one, two, two, two], &[table(1, 2, &[1]), same_place(2, 3), same_place(3, 4)]),
            &[&[1, 3, 3, 3], &[1, 1, 3, 3], &[1, 1, 1, 3], &[1, 1, 1, 1], &[1, 1, 1, 1]],
        ),
        // The same from variable 4 down to 1: the second value of 3 goes in
        // sweep 1, that of 2 in sweep 2, that of 1 in sweep 3.
        (
            plan(
                &[two, two, two, one],
                &[same_place(1, 2), same_place(2, 3), table(3, 4, &[1, 0])],
            ),
            &[&[3, 3, 3, 1], &[3, 3, 1, 1], &[3, 1, 1, 1], &[1, 1, 1, 1], &[1, 1, 1, 1]],
        ),
        // Variable 1 has no values. Sweep 1: the value of 2 has no support in
        // 1. Sweep 2: that of 3 has none in 2. Sweep 3: that of 4 has none in
        // 3. Sweep 4 deletes nothing: one more than the labels, the bound.
        (
            plan(&[&[], one, one, one], &[table(1, 2, &[]), table(2, 3, &[1]), table(3, 4, &[1])]),
            &[&[0, 1, 1, 1], &[0, 0, 1, 1], &[0, 0, 0, 1], &[0, 0, 0, 0], &[0, 0, 0, 0]],
        ),
    ]
}

/// The lengths of the first and the second buffer, a number of sweeps, a count
/// of cells, and the answer: the number of the buffer that holds the last sweep,
/// and how many of its cells are given.
pub type Part = ([usize; 2], usize, usize, [usize; 2]);

pub const PARTS: &[Part] = &[
    // No sweep: the first buffer. One: the second. Two: the first again.
    ([3, 5], 0, 2, [1, 2]),
    ([3, 5], 1, 2, [2, 2]),
    ([3, 5], 2, 2, [1, 2]),
    ([3, 5], 513, 2, [2, 2]),
    ([3, 5], usize::MAX - 1, 2, [1, 2]),
    ([3, 5], usize::MAX, 2, [2, 2]),
    // All cells of the buffer, and one more than it has.
    ([3, 5], 2, 3, [1, 3]),
    ([3, 5], 2, 4, [1, 0]),
    ([3, 5], 1, 5, [2, 5]),
    ([3, 5], 1, 6, [2, 0]),
    ([5, 3], 2, 5, [1, 5]),
    ([5, 3], 1, 4, [2, 0]),
    // A buffer without cells has the part of none.
    ([0, 5], 2, 0, [1, 0]),
    ([0, 5], 2, 1, [1, 0]),
    ([0, 5], 1, 1, [2, 1]),
    // Counts that no buffer has.
    ([3, 5], 2, usize::MAX, [1, 0]),
    ([3, 5], 1, usize::MAX, [2, 0]),
    ([3, 5], 1, usize::MAX - 1, [2, 0]),
    ([3, 5], 1, (1 << (usize::BITS / 2)) + 2, [2, 0]),
    ([3, 5], 1, (1 << 16) + 2, [2, 0]),
];

#[cfg(test)]
mod tests {
    use super::*;
    use crate::reference::largest::largest_lists;
    use crate::reference::lists::{cells, Lists};
    use crate::reference::plan::{decode, Network};
    use crate::reference::sweep::{last_sweep, run_sweeps, sweeps};
    use crate::reference::{Decline, LIST_CELLS};

    #[test]
    fn each_sweep() {
        for (bytes, steps) in swept() {
            let plan = decode(&bytes).unwrap();
            let network = Network::new(&plan);
            let cells = |lists: &Lists| cells(plan.version, lists);
            let found: Vec<Vec<u16>> = sweeps(&plan, &network).iter().map(cells).collect();
            assert_eq!(found, steps, "{plan:?}");
            assert_eq!(cells(&largest_lists(&plan, &network)), found[found.len() - 1], "{plan:?}");
        }
    }

    #[test]
    fn both_buffers() {
        for (plan, steps) in swept() {
            let (mut first, mut second) = ([7; LIST_CELLS], [9; LIST_CELLS + 1]);
            let swept = run_sweeps(&plan, &mut first, &mut second).unwrap();
            assert_eq!(swept.sweeps, steps.len() - 1);
            let last = steps[steps.len() - 1];
            for (buffer, later) in [(&first[..], 7), (&second[..], 9)] {
                assert_eq!(&buffer[..last.len()], last);
                assert!(buffer[last.len()..].iter().all(|&cell| cell == later));
            }
        }
    }

    #[test]
    fn declines() {
        let call = |plan: &[u8], cells: [usize; 2]| {
            let mut buffers = cells.map(|count| vec![7; count]);
            let [first, second] = &mut buffers;
            let Decline { number, place } = run_sweeps(plan, first, second).unwrap_err();
            assert!(buffers.concat().iter().all(|&cell| cell == 7));
            (number, place)
        };
        let cut = &plan_p()[..57];
        for plan in [&plan_p()[..], &plan_p_in_two(), cut, &[]] {
            for cells in [[63, 64], [64, 63], [32, 32], [0, 64], [64, 0], [0, 0], [63, 90]] {
                assert_eq!(call(plan, cells), (10, 0));
            }
        }
        assert_eq!(call(cut, [64, 64]), (1, 49));
        assert_eq!(call(&[3], [65, 64]), (2, 0));
    }

    #[test]
    fn parts() {
        for &(cells, sweeps, count, answer) in PARTS {
            let [first, second] = cells.map(|length| vec![7; length]);
            let found = last_sweep(&first, &second, sweeps, count);
            assert_eq!(found, answer, "{sweeps} sweeps, {count} cells of {cells:?}");
        }
    }
}
