// Set rules worked by hand: what runs and sweeps come to, with a set rule and
// with the sodium rules that it stands for. No variable has more than 16 values
// here, so the first of its two cells is 0.

mod checked;

use super::sweeps::Steps;
use super::wide::{in_two, Run, BARE, CLOSED, OPEN};
use super::{hex, sodium, table, variable, NOT_RECORDED};
use crate::reference::plan::Constraint;
pub use checked::checks;

/// The plan W: breakfasts 101 and 102 (worker 1), lunches 201 and 202 (worker
/// 2), suppers 301 to 303 (worker 1), desserts 401 and 402 (worker 2).
///
/// 102 with 900 mg is above 1,200 with both 201 and 202; 303 has no figure. 202
/// with 800 mg is within it with 101 (1,100) and with 301 (1,200), and so is 302
/// with 700 mg with 101 (1,000) and with 201 (1,200): they stay, though 101, 202
/// and 301 have 1,500 together. A table allows 101 with 401 and 102 with 402.
fn plan_w(limits: &[Constraint]) -> Vec<u8> {
    let variables = vec![
        variable(1, &[(101, 300), (102, 900)]),
        variable(2, &[(201, 500), (202, 800)]),
        variable(1, &[(301, 400), (302, 700), (303, NOT_RECORDED)]),
        variable(2, &[(401, NOT_RECORDED), (402, NOT_RECORDED)]),
    ];
    in_two(2, variables, &[limits, &[table(1, 4, &[1, 2])]].concat()).encode()
}

/// Breakfast, lunch and supper share a limit.
pub fn plan_w_with_set() -> Vec<u8> {
    plan_w(&[Constraint::set(&[1, 2, 3], 1_200)])
}

/// W with its set rule, and with the three rules typed by hand, in two orders.
fn plans_w() -> [Vec<u8>; 3] {
    let [one, two, three] = [(1, 2), (1, 3), (2, 3)].map(|(a, b)| sodium(a, b, 1_200));
    let typed = [one.clone(), two.clone(), three.clone()];
    [plan_w_with_set(), plan_w(&typed), plan_w(&[three, one, two])]
}

/// Loading deletes 102 and 303, of worker 1. 1: it sends both. 2: worker 2 reads
/// them. 3: it treats 102 and deletes 402. 4: it sends 402. 5: worker 1 reads it,
/// behind 102 and 303. 6 to 8: it treats the three, which none of its listed
/// values had as a support.
///
/// 9, 10: worker 2 treats 303 and 402. 11, 12: the controller reads the two
/// lists. 13: it polls, two lists are wanted. 14 to 17: each worker has sent one
/// and read one, and answers. 18, 19: closed.
fn turns_of_w() -> Vec<u8> {
    hex("010A 0201 0209 020A 0102 0109 0109 0109 \
         0209 0209 0001 0002 000C 0100 0200 010B 020B 0001 0002")
}

/// The round, with the number of the changing turn behind each.
/// Round 1: worker 1 treats 102 (1), sends 102 and 303 (2). Worker 2 reads them
/// (3), treats 102 and deletes 402 (4), sends it (5). The controller reads both
/// lists (6, 7) and polls (8): two are wanted.
/// Round 2: worker 1 reads the poll (9) and 402 (10), treats 303 (11). Worker 2
/// reads the poll (12), treats 303 (13).
/// Round 3: each worker treats 402 (14, 16) and answers (15, 17), and the
/// controller reads the replies (18, 19).
fn runs_of_w(plan: Vec<u8>) -> [Run; 4] {
    let turns = turns_of_w();
    let eight = turns[..16].to_vec();
    [
        (plan.clone(), Some(vec![]), [OPEN, 0, 0, 0, 0], &[0, 1, 0, 3, 0, 3, 0, 3]),
        (plan.clone(), Some(eight), [OPEN, 8, 2, 0, 0], &[0, 1, 0, 3, 0, 3, 0, 1]),
        (plan.clone(), Some(turns), [CLOSED, 19, 2, 1, 0], &[0, 1, 0, 3, 0, 3, 0, 1]),
        (plan, None, [CLOSED, 19, 2, 1, 0], &[0, 1, 0, 3, 0, 3, 0, 1]),
    ]
}

/// A plan of one worker, by the figures of each variable's values.
fn of_figures(figures: &[&[u16]], constraints: &[Constraint]) -> Vec<u8> {
    let of = |figures: &&[u16]| {
        let values: Vec<(u16, u16)> = (1..).zip(figures.iter().copied()).collect();
        variable(1, &values)
    };
    in_two(1, figures.iter().map(of).collect(), constraints).encode()
}

/// All list cells that are written, and the lowest empty variable.
type Left = (&'static [u16], usize);

/// A plan of one worker, what loading leaves and what is left at the end, and
/// how many labels are deleted in all.
type Small = (Vec<u8>, Left, Left, usize);

/// The round of one worker. Where it deletes nothing: the poll (1), its read by
/// the worker (2), the answer (3), the reply's read (4). Where the first send
/// carries all deletions: the first treat, the send, its read by the controller,
/// the poll and its read; the other treats, one in a round; the answer and the
/// reply's read.
fn runs_of_small((plan, loaded, closed, deleted): Small) -> [Run; 2] {
    let (changing, lists) = if deleted == 0 { (4, 0) } else { (deleted + 6, 1) };
    let status = if closed.1 == 0 { CLOSED } else { BARE };
    [
        (plan.clone(), Some(vec![]), [OPEN, 0, 0, 0, loaded.1], loaded.0),
        (plan, None, [status, changing, lists, 1, closed.1], closed.0),
    ]
}

fn of_three(figures: [&[u16]; 3], limit: u16) -> Vec<u8> {
    of_figures(&figures, &[Constraint::set(&[1, 2, 3], limit)])
}

const THREE_KEPT: Left = (&[0, 1, 0, 1, 0, 1], 0);
const THREE_EMPTY: Left = (&[0; 6], 1);

/// A limit on every two, not on all three, and not only on two of the pairs.
fn sets_of_three() -> Vec<Small> {
    vec![
        // 1,800 together, and 1,200 of every two.
        (of_three([&[600]; 3], 1_200), THREE_KEPT, THREE_KEPT, 0),
        (of_three([&[600]; 3], 1_199), THREE_EMPTY, THREE_EMPTY, 3),
        // Two of the values have 1,400 together. The third goes with either,
        // and is lost when the first of them is treated.
        (of_three([&[700], &[0], &[700]], 1_200), (&[0, 0, 0, 1, 0, 0], 1), THREE_EMPTY, 3),
        (of_three([&[0], &[700], &[700]], 1_200), (&[0, 1, 0, 0, 0, 0], 2), THREE_EMPTY, 3),
        (of_three([&[700], &[700], &[0]], 1_200), (&[0, 0, 0, 0, 0, 1], 1), THREE_EMPTY, 3),
        // A value without a figure, beside another and alone.
        (
            of_three([&[50], &[50], &[NOT_RECORDED, 50]], 65_535),
            (&[0, 1, 0, 1, 0, 2], 0),
            (&[0, 1, 0, 1, 0, 2], 0),
            1,
        ),
        (of_three([&[0], &[NOT_RECORDED], &[0]], 65_535), THREE_EMPTY, THREE_EMPTY, 3),
    ]
}

const FOURTH_KEPT: Left = (&[0, 0, 0, 0, 0, 0, 0, 1], 1);
const EIGHT_KEPT: Left = (&[0, 1, 0, 1, 0, 1, 0, 1, 0, 1, 0, 1, 0, 1, 0, 1], 0);
const LAST_TWO_LOST: Left = (&[0, 1, 0, 1, 0, 1, 0, 1, 0, 1, 0, 1, 0, 0, 0, 0], 7);

/// Eight values of 100 to 800 mg under one limit.
fn eight(limit: u16) -> Vec<u8> {
    let figures = [[100], [200], [300], [400], [500], [600], [700], [800]];
    let figures = figures.each_ref().map(|figure| &figure[..]);
    of_figures(&figures, &[Constraint::set(&[1, 2, 3, 4, 5, 6, 7, 8], limit)])
}

fn other_sets() -> Vec<Small> {
    vec![
        // No further variable: a sodium rule.
        (
            of_figures(&[&[300, 900], &[500, 800]], &[Constraint::set(&[1, 2], 1_200)]),
            (&[0, 1, 0, 3], 0),
            (&[0, 1, 0, 3], 0),
            1,
        ),
        // An empty variable empties those of its set and no other.
        (
            of_figures(&[&[0], &[], &[0], &[0]], &[Constraint::set(&[1, 2, 3], 65_535)]),
            FOURTH_KEPT,
            FOURTH_KEPT,
            2,
        ),
        (eight(1_500), EIGHT_KEPT, EIGHT_KEPT, 0),
        // 700 and 800 are above the limit. The others go with both, and are
        // lost when the first of the two is treated.
        (eight(1_499), LAST_TWO_LOST, (&[0; 16], 1), 8),
    ]
}

/// Set rules that act together with other constraints on the same variables.
fn sets_with_others() -> Vec<Small> {
    let set = Constraint::set(&[1, 2, 3], 1_000);
    let second_lost: &[&[u16]] = &[&[400, 500], &[500], &[500]];
    let mut small = Vec::new();
    // 500 and 500 are within 1,000 and above 900, whichever limit comes first.
    for other in [Constraint::set(&[1, 2], 900), sodium(1, 3, 900)] {
        for both in [[set.clone(), other.clone()], [other, set.clone()]] {
            small.push((of_figures(second_lost, &both), THREE_KEPT, THREE_KEPT, 1));
        }
    }
    // The limit allows no two values of 900, and the table none of 100 with one
    // of 900.
    let both = [table(1, 2, &[1, 2]), set];
    let plan = of_figures(&[&[100, 900], &[100, 900], &[0]], &both);
    small.push((plan, THREE_KEPT, THREE_KEPT, 2));
    small
}

pub fn runs() -> Vec<Run> {
    let small = [sets_of_three(), other_sets(), sets_with_others()].concat();
    let small = small.into_iter().flat_map(runs_of_small);
    plans_w().into_iter().flat_map(runs_of_w).chain(small).collect()
}

pub fn swept() -> Vec<Steps> {
    // Sweep 1: 102 has no support in variable 2, and 303 none at all. Sweep 2:
    // 402, which goes with 102 alone, has none in variable 1.
    let of_w = |plan| -> Steps {
        (
            plan,
            &[
                &[0, 3, 0, 3, 0, 7, 0, 3],
                &[0, 1, 0, 3, 0, 3, 0, 3],
                &[0, 1, 0, 3, 0, 3, 0, 1],
                &[0, 1, 0, 3, 0, 3, 0, 1],
            ],
        )
    };
    // Sweep 1: 700 and 800 have no support in the variable of the other. Sweep
    // 2: the others have none in either.
    let of_eight: Steps = (eight(1_499), &[EIGHT_KEPT.0, LAST_TWO_LOST.0, &[0; 16], &[0; 16]]);
    plans_w().into_iter().map(of_w).chain([of_eight]).collect()
}
