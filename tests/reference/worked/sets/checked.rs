// What the plan check gives for set rules, and for pairs of variables about
// their limit.

use super::super::wide::{in_two, Checked};
use super::super::{hex, plan, sodium, table, variable};
use crate::reference::plan::{Constraint, Plan};

pub fn checks() -> Vec<(Vec<u8>, Checked)> {
    [checked_sections(), checked_pairs(), checked_singly(), checked_last()].concat()
}

/// Nine variables without values, and such a section of a constraint at 6 +
/// 9 * 4.
fn nine(version: &str, section: &str) -> Vec<u8> {
    let variables = "0002 0100".repeat(9);
    hex(&format!("{version} 0003 010901 {variables} {section}"))
}

/// A set rule's section in the order of its tests.
fn checked_sections() -> Vec<(Vec<u8>, Checked)> {
    let in_two = |section| nine("02", section);
    let accepted = Ok([1, 9, 1, 0]);
    vec![
        // None, one, and six further variables.
        (in_two("0006 010202 04B0 00"), accepted),
        (in_two("0006 080902 FFFF 00"), accepted),
        (in_two("0007 010202 0000 01 03"), accepted),
        (in_two("0007 010202 0000 01 09"), accepted),
        (in_two("000C 010202 04B0 06 030405060708"), accepted),
        (in_two("000C 020302 04B0 06 040506070809"), accepted),
        // Version 1 has no such kind.
        (nine("01", "0006 010202 04B0 00"), Err((7, 42))),
        (nine("01", "0006 020102 04B0 00"), Err((7, 42))),
        (nine("01", "0003 010202"), Err((7, 42))),
        (nine("01", "0002 0102"), Err((3, 42))),
        // Version 2 has no kind 3.
        (in_two("0006 010203 04B0 00"), Err((7, 42))),
        (in_two("0006 020103 04B0 00"), Err((7, 42))),
        (in_two("0004 010203 04"), Err((7, 42))),
        // The first two variables, before a length under 6.
        (in_two("0003 020102"), Err((5, 42))),
        (in_two("0004 020202 04"), Err((5, 42))),
        (in_two("0005 010A02 04B0"), Err((5, 42))),
        (in_two("0006 000102 04B0 00"), Err((5, 42))),
        (in_two("0006 020102 04B0 07"), Err((5, 42))),
        (in_two("0003 010202"), Err((3, 42))),
        (in_two("0004 010202 04"), Err((3, 42))),
        (in_two("0005 010202 04B0"), Err((3, 42))),
        // It ends before the 7, which is no count then.
        (in_two("0005 010202 04B0 07"), Err((3, 42))),
        // More than six, before the length.
        (in_two("000D 010202 04B0 07 03040506070809"), Err((4, 42))),
        (in_two("0006 010202 04B0 07"), Err((4, 42))),
        (in_two("000C 010202 04B0 07 030405060708"), Err((4, 42))),
        (in_two("0006 010202 04B0 FF"), Err((4, 42))),
        (in_two("000D 010202 04B0 07 02020202020202"), Err((4, 42))),
        // A length that does not go with the count, before the variables.
        (in_two("000B 010202 04B0 06 0304050607"), Err((3, 42))),
        (in_two("000D 010202 04B0 06 03040506070809"), Err((3, 42))),
        (in_two("0007 010202 04B0 00 03"), Err((3, 42))),
        (in_two("0006 010202 04B0 01"), Err((3, 42))),
        (in_two("0007 010202 04B0 02 02"), Err((3, 42))),
        // A further variable that is the second, the first, between them, the
        // one before it or below that, 0, or none of nine.
        (in_two("0007 010202 04B0 01 02"), Err((5, 42))),
        (in_two("0007 010202 04B0 01 01"), Err((5, 42))),
        (in_two("0007 020402 04B0 01 03"), Err((5, 42))),
        (in_two("0008 010202 04B0 02 0303"), Err((5, 42))),
        (in_two("0008 010202 04B0 02 0403"), Err((5, 42))),
        (in_two("0007 010202 04B0 01 00"), Err((5, 42))),
        (in_two("0007 010202 04B0 01 0A"), Err((5, 42))),
        (in_two("000C 010202 04B0 06 0304050607FF"), Err((5, 42))),
        // Before all of them, a section that is cut off; behind them, a byte.
        (in_two("0007 020103 04B0 07"), Err((1, 42))),
        (in_two("0006 010202 04B0 00 00"), Err((8, 50))),
        (in_two("0007 010202 04B0 01 02 00"), Err((5, 42))),
    ]
}

/// 32 variables without values; their constraints start at 6 + 32 * 4.
fn over_32(constraints: &[Constraint]) -> Plan {
    in_two(1, vec![variable(1, &[]); 32], constraints)
}

/// Four sets of eight have 28 pairs each, two of four have 6 each and one of
/// three has 3, no two of these sets with a pair in common: 127. Their sections
/// have 4 * 14 + 2 * 10 + 9 bytes, and end at 134 + 85.
fn touching_127() -> Vec<Constraint> {
    let mut scopes: Vec<Vec<usize>> =
        [1, 9, 17, 25].map(|first| (first..first + 8).collect()).to_vec();
    scopes.extend([vec![1, 9, 17, 25], vec![2, 10, 18, 26], vec![3, 11, 19]]);
    scopes.iter().map(|scope| Constraint::set(scope, 0)).collect()
}

/// Behind them 4 and 12 are the 128th pair, in a section of 7 bytes, and 5 and
/// 13 another one.
fn checked_pairs() -> Vec<(Vec<u8>, Checked)> {
    let set = |scope: &[usize]| Constraint::set(scope, 0);
    let behind = |more: &[Constraint]| over_32(&[&touching_127(), more].concat()).encode();
    let of_128 = |more: &[Constraint]| behind(&[&[sodium(4, 12, 0)], more].concat());
    let accepted = |constraints| Ok([1, 32, constraints, 0]);
    vec![
        (behind(&[]), accepted(7)),
        (of_128(&[]), accepted(8)),
        (behind(&[table(4, 12, &[])]), accepted(8)),
        (behind(&[set(&[4, 12])]), accepted(8)),
        (of_128(&[sodium(5, 13, 0)]), Err((4, 226))),
        (of_128(&[table(5, 13, &[])]), Err((4, 226))),
        (of_128(&[set(&[5, 13])]), Err((4, 226))),
        // Three pairs, all of them new.
        (behind(&[set(&[4, 12, 20])]), Err((4, 219))),
        // 3 and 20 and 11 and 20 are new, 3 and 11 are not: 129.
        (behind(&[set(&[3, 11, 20])]), Err((4, 219))),
        // 3 and 12 are new, 3 and 11 and 11 and 12 are not: 128.
        (behind(&[set(&[3, 11, 12])]), accepted(8)),
        (behind(&[set(&[3, 11, 12]), set(&[3, 12]), sodium(3, 12, 0)]), accepted(10)),
        // Nothing new, of each kind.
        (of_128(&[set(&[1, 2, 3, 4, 5, 6, 7, 8])]), accepted(9)),
        (of_128(&[set(&[1, 17, 25]), sodium(3, 19, 0), table(25, 32, &[])]), accepted(11)),
        // 2 and 9 alone are new, behind a set of 14 bytes.
        (of_128(&[set(&[1, 2, 3, 4, 5, 6, 7, 8]), set(&[1, 2, 9])]), Err((4, 240))),
        // The first that passes the limit, not a later one, nor what follows.
        (of_128(&[set(&[5, 13, 21]), set(&[6, 14])]), Err((4, 226))),
        (of_128(&[set(&[5, 13]), sodium(2, 1, 0)]), Err((4, 226))),
    ]
}

/// So many sodium rules, each over a pair of its own: 31 with variable 1 first,
/// 30 with 2, 29 with 3, 28 with 4, and 5 with 6 to 15: 128.
fn single(count: usize) -> Vec<Constraint> {
    let pairs = (1..=32).flat_map(|first| (first + 1..=32).map(move |second| (first, second)));
    pairs.take(count).map(|(first, second)| sodium(first, second, 0)).collect()
}

/// Pairs touched by rules of 7 bytes; the 128th starts at 134 + 127 * 7.
fn checked_singly() -> Vec<(Vec<u8>, Checked)> {
    let behind = |more: &[usize]| {
        over_32(&[&single(127)[..], &[Constraint::set(more, 0)]].concat()).encode()
    };
    let accepted = Ok([1, 32, 128, 0]);
    let in_one = plan(1, vec![variable(1, &[]); 32], single(128));
    vec![
        (in_one.encode(), accepted),
        (over_32(&single(128)).encode(), accepted),
        (behind(&[5, 15]), accepted),
        // 4 and 5 and 4 and 15 are touched; 5 and 14 too, 14 and 15 not.
        (behind(&[4, 5, 15]), accepted),
        (behind(&[5, 14, 15]), Err((4, 1_023))),
        (behind(&[5, 15, 16]), Err((4, 1_023))),
    ]
}

/// What is tested before the pairs. Variable 5 has a value, of four bytes: the
/// constraint that touches the 129th pair starts at 226 + 4.
fn checked_last() -> Vec<(Vec<u8>, Checked)> {
    let with = |last: Constraint| {
        let constraints = [&touching_127()[..], &[sodium(4, 12, 0), last]].concat();
        let mut plan = over_32(&constraints);
        plan.variables[4] = variable(1, &[(1, 0)]);
        plan.encode()
    };
    vec![
        (with(table(5, 13, &[0])), Err((4, 230))),
        // A bit against no value, two rows for one value, and no row.
        (with(table(5, 13, &[1])), Err((7, 230))),
        (with(table(5, 13, &[0, 0])), Err((3, 230))),
        (with(table(5, 13, &[])), Err((3, 230))),
        // A further variable that is not above the one before it, or not there.
        (with(Constraint::set(&[5, 13, 12], 0)), Err((5, 230))),
        (with(Constraint::set(&[5, 13, 21, 21], 0)), Err((5, 230))),
        (with(Constraint::set(&[5, 13, 21, 33], 0)), Err((5, 230))),
    ]
}

#[cfg(test)]
mod tests {
    use super::*;

    #[test]
    fn pairs_are_as_many_as_said() {
        assert_eq!(over_32(&touching_127()).touched().len(), 127);
        assert_eq!(over_32(&single(128)).touched().len(), 128);
        assert_eq!(single(128)[127], sodium(5, 15, 0));
    }
}
