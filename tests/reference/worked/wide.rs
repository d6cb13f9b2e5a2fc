// Version 2 worked by hand: what the plan check gives, and what runs report and
// leave in the list cells. Of a variable's two cells the first holds its values
// 17 to 32.

use super::{hex, plan, plan_p, sodium, table, turns_t, variable};
use crate::reference::plan::{Constraint, Plan, Variable, NOT_RECORDED};
use crate::reference::version::{Version, ONE, TWO};

/// Plan P in version 2: the version byte, and the table's rows with its length.
pub fn plan_p_in_two() -> Vec<u8> {
    hex("02 0003020302 000A 0102 000B012C 000C0384 000A 0202 001501F4 00160320 \
         000A 0202 001F0064 0020FFFF 0005 010201 04B0 000B 010300 00000001 00000002")
}

/// One value against seventeen. The second variable's section starts at 6 + 8,
/// the table's at 14 + 2 + 70, where its one row allows so much.
fn one_against_seventeen(row: &str) -> Vec<u8> {
    let dishes: String = (1..=17).map(|code| format!("{code:04X} 0000 ")).collect();
    hex(&format!("02 0003 020201 0006 0101 00010000 0046 0211 {dishes} 0007 010200 {row}"))
}

/// The first and the last of the seventeen are allowed.
pub fn seventeen() -> Vec<u8> {
    one_against_seventeen("00010001")
}

/// So many values, with codes from this one on and the same figure.
fn values(code: u16, count: u16, figure: u16) -> Vec<(u16, u16)> {
    (code..code + count).map(|code| (code, figure)).collect()
}

pub fn in_two(workers: usize, variables: Vec<Variable>, constraints: &[Constraint]) -> Plan {
    Plan { version: TWO, ..plan(workers, variables, constraints.to_vec()) }
}

/// Variables of one worker with so many values each, and no constraints.
pub fn of_counts(version: Version, counts: &[usize]) -> Vec<u8> {
    let of_count = |&count: &usize| variable(1, &values(1, count as u16, 0));
    Plan { version, ..plan(1, counts.iter().map(of_count).collect(), vec![]) }.encode()
}

/// The plan Q: 101 to 120 (worker 1), 201 and 202 (worker 2), 301 to 318
/// (worker 2), 401 to 403 (worker 1).
///
/// 102 and 117 have 900 mg, above 1,200 with both 201 and 202; the other values
/// of variable 1 have 300, within it with both. 304 and 317 go with 102 alone,
/// 401 with 304 alone and 402 with 317 alone; each other value of variable 3
/// goes with one that has 300 mg, and 403 with every value of variable 3.
pub fn plan_q() -> Plan {
    let mut starters = values(101, 20, 300);
    starters[1].1 = 900;
    starters[16].1 = 900;
    let mut with_dessert: Vec<u32> = (0..16).map(|place| 1 << place).collect();
    with_dessert[1] = 0x0001_0008; // 102: 304, 317
    with_dessert[3] = 0x0000_0002; // 104: 302
    with_dessert.extend([4, 0x0002_0001, 2, 1]); // 117: 303, 118: 301 and 318, 119: 302, 120: 301
    let mut with_fruit = vec![4; 18];
    with_fruit[3] = 5; // 304: 401, 403
    with_fruit[16] = 6; // 317: 402, 403
    let variables = vec![
        variable(1, &starters),
        variable(2, &[(201, 500), (202, 800)]),
        variable(2, &values(301, 18, NOT_RECORDED)),
        variable(1, &values(401, 3, NOT_RECORDED)),
    ];
    let constraints = [sodium(1, 2, 1_200), table(1, 3, &with_dessert), table(3, 4, &with_fruit)];
    in_two(2, variables, &constraints)
}

/// The first eight of them end where the order within a treat shows.
///
/// Loading deletes 102 and 117. 1: worker 1 sends both. 2: worker 2 reads them.
/// 3: it treats 102 and deletes 304 and 317, in this order. 4: it sends them.
/// 5: worker 1 reads them, behind 102 and 117. 6, 7: it treats those two, which
/// none of its values had as a support. 8: it treats 304 and deletes 401.
///
/// 9: it treats 317 and deletes 402. 10: it sends both. 11: worker 2 treats 117,
/// and 303 has 103 left. 12, 13: it treats 304 and 317. 14: it reads 401 and 402.
/// 15, 16: it treats them. 17, 18: worker 1 treats them. 19 to 21: the controller
/// reads the three lists. 22: it polls, three lists are wanted. 23 to 26: each
/// worker has sent and read three together, and answers. 27, 28: closed.
fn turns_of_q() -> Vec<u8> {
    hex("010A 0201 0209 020A 0102 0109 0109 0109 \
         0109 010A 0209 0209 0209 0201 0209 0209 0109 0109 \
         0001 0001 0002 000C 0100 0200 010B 020B 0001 0002")
}

/// A variable of 32 values, all deleted at loading since they share a
/// constraint with one of none; and a value with all 32 as supports.
pub fn all_supports_go() -> Plan {
    let variables = vec![variable(1, &values(0, 32, 0)), variable(1, &[(1, 0)]), variable(1, &[])];
    in_two(1, variables, &[table(1, 2, &[1; 32]), table(1, 3, &[0; 32])])
}

/// Two variables of 32 values of a worker each, with such rows between them.
fn two_of_32(rows: impl Fn(u32) -> u32) -> Plan {
    let variables = [1, 2].map(|owner| variable(owner, &values(7, 32, 0)));
    let rows: Vec<u32> = (0..32).map(rows).collect();
    in_two(2, variables.to_vec(), &[table(1, 2, &rows)])
}

/// A plan; its turn list, or `None` for the round run; the report (status,
/// changing turns, lists, polls, lowest empty variable); and all list cells that
/// are written.
pub type Run = (Vec<u8>, Option<Vec<u8>>, [usize; 5], &'static [u16]);

pub const OPEN: usize = 0;
pub const CLOSED: usize = 1;
pub const BARE: usize = 2;

pub fn runs() -> Vec<Run> {
    [runs_of_p(), runs_of_q(), runs_of_32()].concat()
}

/// Document 01's figures, which version 2 leaves as they are; and its plan
/// without labels.
fn runs_of_p() -> Vec<Run> {
    let (p, in_two, t) = (plan_p(), plan_p_in_two(), turns_t());
    let (none, its_turns) = (of_counts(TWO, &[0]), hex("000C 0100 010B 0001"));
    let but_last = t[..32].to_vec();
    vec![
        (p.clone(), Some(t.clone()), [CLOSED, 17, 2, 1, 0], &[1, 3, 1]),
        (p, Some(vec![]), [OPEN, 0, 0, 0, 0], &[1, 3, 3]),
        (in_two.clone(), Some(t), [CLOSED, 17, 2, 1, 0], &[0, 1, 0, 3, 0, 1]),
        (in_two.clone(), Some(vec![]), [OPEN, 0, 0, 0, 0], &[0, 1, 0, 3, 0, 3]),
        (in_two, Some(but_last), [OPEN, 16, 2, 1, 0], &[0, 1, 0, 3, 0, 1]),
        (none, Some(its_turns), [BARE, 4, 0, 1, 1], &[0, 0]),
    ]
}

/// Variable 1 without 102 and 117: of its values 17 to 20 all but the first,
/// 14; of its first 16 all but the second, 0xFFFD. Variable 3 without 304 and
/// 317: of 317 and 318 the second, 2; of its first 16 all but the fourth,
/// 0xFFF7.
///
/// The round, with the number of the changing turn behind each.
/// Round 1: worker 1 treats 102 (1), sends 102 and 117 (2). Worker 2 reads them
/// (3), treats 102 and deletes 304 and 317 (4), sends them (5). The controller
/// reads a list (6) and another (7), polls (8): two are wanted.
/// Round 2: worker 1 reads the poll (9) and the list (10), treats 117 (11).
/// Worker 2 reads the poll (12), treats 117 (13). The poll is open.
/// Round 3: worker 1 treats 304 and deletes 401 (14), sends it (15). Worker 2
/// reads it (16), treats 304 (17). The controller reads the list (18), which
/// ends the poll, and polls (19): three are wanted.
/// Round 4: worker 1 reads the poll (20), treats 317 and deletes 402 (21), sends
/// it (22). Worker 2 reads the poll (23) and the list (24), treats 317 (25). The
/// controller reads the list (26) and polls (27): four are wanted.
/// Round 5: each worker reads the poll (28, 30) and treats 401 (29, 31).
/// Round 6: each treats 402 (32, 34) and answers (33, 35): worker 1 has sent
/// three lists and read one, worker 2 has sent one and read three. The
/// controller reads both replies (36, 37).
fn runs_of_q() -> Vec<Run> {
    let (q, turns) = (plan_q().encode(), turns_of_q());
    let eight = turns[..16].to_vec();
    vec![
        (q.clone(), Some(vec![]), [OPEN, 0, 0, 0, 0], &[14, 0xFFFD, 0, 3, 3, 0xFFFF, 0, 7]),
        (q.clone(), Some(eight), [OPEN, 8, 2, 0, 0], &[14, 0xFFFD, 0, 3, 2, 0xFFF7, 0, 6]),
        (q.clone(), Some(turns), [CLOSED, 28, 3, 1, 0], &[14, 0xFFFD, 0, 3, 2, 0xFFF7, 0, 4]),
        (q, None, [CLOSED, 37, 4, 3, 0], &[14, 0xFFFD, 0, 3, 2, 0xFFF7, 0, 4]),
    ]
}

fn runs_of_32() -> Vec<Run> {
    let all_go = all_supports_go().encode();
    let treats = |count| Some(hex("0109").repeat(count));
    // Each value of the first goes with the next one of the second. So the last
    // of the first and the first of the second have no support.
    let next = two_of_32(|place| 2 << place).encode();
    // Everything goes together. Round 1: the poll. Round 2: each worker reads it
    // and answers, the controller reads both replies.
    let all_kept = two_of_32(|_| u32::MAX).encode();
    vec![
        // 15 of 17 values have no support; the first and the last are kept.
        (seventeen(), Some(vec![]), [OPEN, 0, 0, 0, 0], &[0, 1, 1, 1]),
        // After 31 treats the value of variable 2 has one support left.
        (all_go.clone(), treats(31), [OPEN, 31, 0, 0, 1], &[0, 0, 0, 1, 0, 0]),
        (all_go, treats(32), [OPEN, 32, 0, 0, 1], &[0, 0, 0, 0, 0, 0]),
        (next, Some(vec![]), [OPEN, 0, 0, 0, 0], &[0x7FFF, 0xFFFF, 0xFFFF, 0xFFFE]),
        (all_kept, None, [CLOSED, 7, 0, 1, 0], &[0xFFFF; 4]),
    ]
}

/// What the plan check gives: p, n, number of constraints and L, or the number
/// and place of a decline.
pub type Checked = Result<[usize; 4], (usize, usize)>;

pub fn checks() -> Vec<(Vec<u8>, Checked)> {
    [checked_versions(), checked_counts(), checked_sums(), checked_rows()].concat()
}

/// Plan P in both versions, with another version byte, and version bytes alone.
fn checked_versions() -> Vec<(Vec<u8>, Checked)> {
    let with = |byte: u8, mut plan: Vec<u8>| {
        plan[0] = byte;
        plan
    };
    vec![
        (plan_p(), Ok([2, 3, 2, 6])),
        (plan_p_in_two(), Ok([2, 3, 2, 6])),
        // Two rows of four bytes make 3 + 8, not 7, and of two bytes 3 + 4, not
        // 11. The table's section starts at 49 in both; the sections before it
        // are the same in either version.
        (with(2, plan_p()), Err((3, 49))),
        (with(1, plan_p_in_two()), Err((3, 49))),
        (with(0, plan_p()), Err((2, 0))),
        (with(3, plan_p()), Err((2, 0))),
        (with(255, plan_p()), Err((2, 0))),
        (with(3, plan_p_in_two()), Err((2, 0))),
        (vec![], Err((1, 0))),
        (vec![1], Err((1, 1))),
        (vec![2], Err((1, 1))),
        (vec![3], Err((2, 0))),
    ]
}

/// One variable of so many values: its section starts at 6.
fn checked_counts() -> Vec<(Vec<u8>, Checked)> {
    let one = |version, count| of_counts(version, &[count]);
    vec![
        (one(ONE, 16), Ok([1, 1, 0, 16])),
        (one(ONE, 17), Err((4, 6))),
        (one(ONE, 32), Err((4, 6))),
        (one(ONE, 33), Err((4, 6))),
        (one(TWO, 16), Ok([1, 1, 0, 16])),
        (one(TWO, 17), Ok([1, 1, 0, 17])),
        (one(TWO, 32), Ok([1, 1, 0, 32])),
        (one(TWO, 33), Err((4, 6))),
    ]
}

/// Where a section starts behind so many of 32 values: each takes 2 bytes for
/// its length, 2 for owner and count, and 4 * 32.
const fn behind_full(count: usize) -> usize {
    6 + 132 * count
}

/// 511, 512 and 513 labels.
fn checked_sums() -> Vec<(Vec<u8>, Checked)> {
    let full = |count: usize, rest: &[usize]| of_counts(TWO, &[&vec![32; count], rest].concat());
    // 512 labels and one value more, of which the section's bytes from `at` on
    // are set to these.
    let with = |at: usize, bytes: &[u8]| {
        let mut plan = full(16, &[1]);
        let at = behind_full(16) + at;
        plan[at..at + bytes.len()].copy_from_slice(bytes);
        plan
    };
    let last = behind_full(16);
    vec![
        (full(15, &[31]), Ok([1, 16, 0, 511])),
        (full(16, &[]), Ok([1, 16, 0, 512])),
        (full(16, &[0, 0]), Ok([1, 18, 0, 512])),
        (of_counts(ONE, &[16; 32]), Ok([1, 32, 0, 512])),
        (of_counts(TWO, &[16; 32]), Ok([1, 32, 0, 512])),
        (full(16, &[1]), Err((4, last))),
        (full(16, &[32, 32]), Err((4, last))),
        (full(15, &[31, 2, 0]), Err((4, behind_full(15) + 2 + 2 + 4 * 31))),
        // One value, 15 times 32, and then 32 more.
        (of_counts(TWO, &[&[1][..], &[32; 16]].concat()), Err((4, behind_full(15) + 8))),
        // 31 times 16 and then 17, behind 31 sections of 2 + 2 + 64.
        (of_counts(TWO, &[&[16; 31][..], &[17]].concat()), Err((4, 6 + 31 * 68))),
        // Before its length is tested, that of one value being 6, and its owner.
        (with(0, &[0, 5]), Err((4, last))),
        (with(0, &[0, 2]), Err((4, last))),
        (with(2, &[9]), Err((4, last))),
        (with(3, &[2]), Err((4, last))),
        (with(3, &[33]), Err((4, last))),
        // Behind 1, and behind 3 for a length without a count.
        (with(0, &[0, 7]), Err((1, last))),
        (with(0, &[0, 1]), Err((3, last))),
        (with(0, &[0, 0]), Err((3, last))),
    ]
}

/// The rows of a table against a variable of 17 values.
fn checked_rows() -> Vec<(Vec<u8>, Checked)> {
    let accepted = Ok([2, 2, 1, 18]);
    vec![
        (seventeen(), accepted),
        (one_against_seventeen("0001FFFF"), accepted),
        (one_against_seventeen("00020000"), Err((7, 86))),
        (one_against_seventeen("80000000"), Err((7, 86))),
        (one_against_seventeen("FFFFFFFF"), Err((7, 86))),
        // Seven bytes are called for, and two more follow or two are missing.
        (one_against_seventeen("00010001 0000"), Err((8, 95))),
        (one_against_seventeen("0001"), Err((1, 86))),
    ]
}
