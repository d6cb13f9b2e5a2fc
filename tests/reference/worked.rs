// The plans worked by hand, for the test program, and the reference's own
// tests on them.

pub mod sets;
pub mod sweeps;
pub mod wide;

use super::plan::{Constraint, Plan, Relation, Value, Variable, NOT_RECORDED};
use super::version::ONE;

/// Bytes from hex digits; blanks do not count.
pub fn hex(text: &str) -> Vec<u8> {
    let digits: Vec<u8> =
        text.chars().filter_map(|c| c.to_digit(16)).map(|digit| digit as u8).collect();
    digits.chunks(2).map(|pair| pair[0] << 4 | pair[1]).collect()
}

pub fn plan_p() -> Vec<u8> {
    hex("01 0003020302 000A 0102 000B012C 000C0384 000A 0202 001501F4 00160320 \
         000A 0202 001F0064 0020FFFF 0005 010201 04B0 0007 010300 0001 0002")
}

pub fn turns_t() -> Vec<u8> {
    hex("0109 010A 0201 0209 0209 020A 0102 0109 0001 0002 000C 0100 0200 010B 020B 0001 0002")
}

fn variable(owner: usize, values: &[(u16, u16)]) -> Variable {
    let values = values.iter().map(|&(code, sodium)| Value { code, sodium }).collect();
    Variable { owner, values }
}

fn table(first: usize, second: usize, rows: &[u32]) -> Constraint {
    Constraint { first, second, relation: Relation::Table(rows.to_vec()) }
}

fn sodium(first: usize, second: usize, limit: u16) -> Constraint {
    Constraint { first, second, relation: Relation::Sodium(limit) }
}

fn plan(workers: usize, variables: Vec<Variable>, constraints: Vec<Constraint>) -> Plan {
    Plan { version: ONE, workers, variables, constraints }
}

pub fn no_values() -> Vec<u8> {
    apart(&[&[]], &[]).encode()
}

/// A limit, two figures, and whether a sodium rule allows the pair.
const SODIUM: &[(u16, u16, u16, bool)] = &[
    (1_200, 700, 500, true),
    (1_200, 700, 501, false),
    (1_200, 700, NOT_RECORDED, false),
    (1_200, NOT_RECORDED, 500, false),
    (0, 300, NOT_RECORDED, false),
    (0, NOT_RECORDED, 300, false),
    (0, 300, 0, false),
    (0, 0, 300, false),
    (0, 0, 0, true),
    (0, NOT_RECORDED, NOT_RECORDED, false),
    (65_535, 0, NOT_RECORDED, false),
    (65_535, NOT_RECORDED, 0, false),
    (65_535, NOT_RECORDED, NOT_RECORDED, false),
    (65_535, 65_534, 0, true),
    (65_535, 65_534, 1, true),
    (65_535, 65_534, 2, false),
    (65_535, 40_000, 40_000, false),
    (65_534, 65_534, 0, true),
    (65_534, 65_534, 1, false),
    // The sum less 65,536 is 14,464.
    (14_464, 40_000, 40_000, false),
    // The sum less 65,536 is 65,534.
    (65_534, NOT_RECORDED, NOT_RECORDED, false),
];

/// One value against one, under a sodium rule.
pub fn two_figures(limit: u16, one: u16, other: u16) -> Vec<u8> {
    let variables = vec![variable(1, &[(1, one)]), variable(1, &[(2, other)])];
    plan(1, variables, vec![sodium(1, 2, limit)]).encode()
}

const SOUP: (u16, u16) = (1, NOT_RECORDED);
const BROTH: (u16, u16) = (2, 50);
const MAINS: [(u16, u16); 2] = [(3, 600), (4, 900)];

/// A plan in which each variable has a worker of its own.
fn apart(variables: &[&[(u16, u16)]], constraints: &[Constraint]) -> Plan {
    let variables = (1..).zip(variables).map(|(owner, values)| variable(owner, values));
    let variables: Vec<Variable> = variables.collect();
    plan(variables.len(), variables, constraints.to_vec())
}

/// A soup without a figure and a broth with one, against two mains.
fn soup() -> Plan {
    apart(&[&[SOUP, BROTH], &MAINS], &[sodium(1, 2, 1_200)])
}

/// Turns that close it: the soup's deletion goes to the other worker and the
/// controller, and then both workers answer the poll.
fn soup_turns() -> Vec<u8> {
    hex("0109 010A 0201 0209 0001 000C 0100 0200 010B 020B 0001 0002")
}

/// A plan with its lists after loading and when closed.
type Listed = (Plan, &'static [u16], &'static [u16]);

/// Plans with a soup that has no figure.
fn unrecorded() -> Vec<Listed> {
    let rule = |first, second| sodium(first, second, 65_535);
    let starters: &[_] = &[SOUP, BROTH];
    vec![
        // A sodium rule deletes the soup, the broth stays.
        (soup(), &[2, 3], &[2, 3]),
        (apart(&[&MAINS, &[BROTH, SOUP]], &[rule(1, 2)]), &[3, 1], &[3, 1]),
        // No constraint on the soup.
        (apart(&[&[SOUP]], &[]), &[1], &[1]),
        (apart(&[&[SOUP], &[BROTH], &MAINS], &[rule(2, 3)]), &[1, 1, 3], &[1, 1, 3]),
        // Only a table on it, which takes the broth and the second main.
        (apart(&[starters, &MAINS], &[table(1, 2, &[1, 0])]), &[1, 1], &[1, 1]),
        // Only a table on it, and a sodium rule on the broth it goes with.
        (
            apart(&[&[SOUP], &[BROTH], &MAINS], &[table(1, 2, &[1]), rule(2, 3)]),
            &[1, 1, 3],
            &[1, 1, 3],
        ),
        // The soup alone: the mains have no support either.
        (apart(&[&[SOUP], &MAINS], &[rule(1, 2)]), &[0, 0], &[0, 0]),
        (apart(&[&MAINS, &[SOUP]], &[rule(1, 2)]), &[0, 0], &[0, 0]),
        // A table that allows everything does not save the soup.
        (apart(&[starters, &MAINS], &[table(1, 2, &[3, 3]), rule(1, 2)]), &[2, 3], &[2, 3]),
        (apart(&[starters, &MAINS], &[rule(1, 2), table(1, 2, &[3, 3])]), &[2, 3], &[2, 3]),
        // The first main goes with the soup only and is lost after it.
        (
            apart(&[starters, &[BROTH], &MAINS], &[rule(1, 2), table(1, 3, &[1, 2])]),
            &[2, 1, 3],
            &[2, 1, 2],
        ),
        // The soup empties all that is tied to it, and nothing else.
        (
            apart(&[&[SOUP], &[BROTH], &MAINS, &[SOUP]], &[rule(1, 2), table(2, 3, &[3])]),
            &[0, 0, 3, 1],
            &[0, 0, 0, 1],
        ),
    ]
}

/// Two variables and a sodium rule that allows no pair of theirs: there is
/// none, a figure is missing, or the sum is above the limit.
fn nothing_allowed() -> [Plan; 4] {
    let variables: [[&[(u16, u16)]; 2]; 4] =
        [[&[BROTH], &[]], [&[SOUP], &[]], [&[SOUP], &MAINS], [&[BROTH], &MAINS]];
    variables.map(|both| apart(&both, &[sodium(1, 2, 649)]))
}

/// One value against two; each table allows one pair only.
pub fn half_supports() -> Vec<u8> {
    apart(&[&[(1, 0)], &[(1, 0), (2, 0)]], &[table(1, 2, &[1]), table(1, 2, &[2])]).encode()
}

/// Three variables of two values, each two different: consistent, no solution.
pub fn three_differ() -> Vec<u8> {
    let variables = vec![variable(1, &[(7, 0), (8, NOT_RECORDED)]); 3];
    let differ = |first, second| table(first, second, &[2, 1]);
    plan(1, variables, vec![differ(1, 2), differ(1, 3), differ(2, 3)]).encode()
}

/// One value against one, and so many times the same sodium rule.
fn same_constraints(count: usize) -> Vec<u8> {
    plan(1, vec![variable(1, &[(1, 1)]); 2], vec![sodium(1, 2, 2); count]).encode()
}

/// The runs worked by hand, without set rules and with them.
pub fn runs() -> Vec<wide::Run> {
    [wide::runs(), sets::runs()].concat()
}

/// The plan checks worked by hand, without set rules and with them.
pub fn checks() -> Vec<(Vec<u8>, wide::Checked)> {
    [wide::checks(), sets::checks()].concat()
}

/// The worked plans, each with a turn list: the documents' and more of their
/// kind.
pub fn worked() -> Vec<(Vec<u8>, Vec<u8>)> {
    let (p, t) = (plan_p(), turns_t());
    let mut cases = vec![(p.clone(), t.clone())];
    for turns in 0..=t.len() / 2 {
        cases.push((p.clone(), t[..2 * turns].to_vec()));
    }
    for more in ["0109", "000C", "0001", "0201", "020B", "010A"] {
        cases.push((p.clone(), [t.clone(), hex(more)].concat()));
    }
    cases.push((p.clone(), hex("000C 0200 020B 0109 0100 010B")));
    cases.push((no_values(), hex("000C 0100 010B 0001")));
    for &(limit, one, other, _) in SODIUM {
        cases.push((two_figures(limit, one, other), vec![]));
    }
    for (plan, _, _) in unrecorded() {
        cases.push((plan.encode(), vec![]));
    }
    cases.push((soup().encode(), soup_turns()));
    for plan in nothing_allowed() {
        cases.push((plan.encode(), vec![]));
    }
    cases.push((half_supports(), vec![]));
    cases.push((three_differ(), vec![]));
    cases.extend(sweeps::swept().into_iter().map(|(plan, _)| (plan, vec![])));
    for (plan, turns, _, _) in runs() {
        cases.push((plan, turns.unwrap_or_default()));
    }
    cases.extend(checks().into_iter().map(|(plan, _)| (plan, t.clone())));
    for count in [128, 129] {
        cases.push((same_constraints(count), vec![]));
    }
    cases.push((p, hex("0101")));
    cases
}

#[cfg(test)]
mod tests {
    use super::super::largest::largest_lists;
    use super::super::lists::cells;
    use super::super::plan::{decode, Network};
    use super::super::run::{check_plan, run_round, run_turns, Report, Run, Status};
    use super::super::state::Turn;
    use super::super::{Decline, LIST_CELLS, WORK_CELLS};
    use super::*;

    fn play(plan: &[u8], turns: &[u8]) -> Result<(Report, Vec<u16>), Decline> {
        let mut work = vec![7; WORK_CELLS + 1];
        let mut lists = vec![9; LIST_CELLS + 1];
        let result = run_turns(plan, turns, &mut work, &mut lists, &mut |_| {});
        read(result, work, lists)
    }

    fn round(plan: &[u8]) -> Result<(Report, Vec<u16>), Decline> {
        let mut work = vec![7; WORK_CELLS + 1];
        let mut lists = vec![9; LIST_CELLS + 1];
        let result = run_round(plan, &mut work, &mut lists, &mut |_| {});
        read(result, work, lists)
    }

    fn read(
        result: Result<Run, Decline>,
        work: Vec<u16>,
        lists: Vec<u16>,
    ) -> Result<(Report, Vec<u16>), Decline> {
        match result {
            Ok(run) => {
                let written = run.plan.list_cells();
                assert!(work[..WORK_CELLS].iter().all(|&cell| cell == 0));
                assert_eq!(work[WORK_CELLS], 7);
                assert!(lists[written..].iter().all(|&cell| cell == 9));
                Ok((run.report(), lists[..written].to_vec()))
            }
            Err(decline) => {
                assert!(work.iter().all(|&cell| cell == 7));
                assert!(lists.iter().all(|&cell| cell == 9));
                Err(decline)
            }
        }
    }

    fn report(status: Status, numbers: [usize; 4]) -> Report {
        let [changed, lists_sent, polls_sent, lowest_empty] = numbers;
        Report { status, changed, lists_sent, polls_sent, lowest_empty }
    }

    fn largest_cells(plan: &Plan) -> Vec<u16> {
        cells(plan.version, &largest_lists(plan, &Network::new(plan)))
    }

    fn declined(number: usize, place: usize) -> Decline {
        Decline { number, place }
    }

    #[test]
    fn plan_p_and_list_t() {
        let (p, t) = (plan_p(), turns_t());
        assert_eq!(p.len(), 58);
        assert_eq!(decode(&p).unwrap().encode(), p);
        assert_eq!(check_plan(&p), Ok([2, 3, 2, 6]));
        let closed = (report(Status::Closed, [17, 2, 1, 0]), vec![1, 3, 1]);
        assert_eq!(play(&p, &t), Ok(closed.clone()));
        assert_eq!(play(&p, &[]), Ok((report(Status::Open, [0, 0, 0, 0]), vec![1, 3, 3])));
        let open = (report(Status::Open, [16, 2, 1, 0]), vec![1, 3, 1]);
        assert_eq!(play(&p, &t[..32]), Ok(open));
        for &turn in Turn::all(2) {
            assert_eq!(play(&p, &[t.clone(), turn.encode().to_vec()].concat()), Ok(closed.clone()));
        }
        let early = play(&p, &hex("000C 0200 020B 0109 0100 010B")).unwrap().0;
        assert_eq!(early, report(Status::Open, [5, 0, 1, 0]));
        let (rounds, cells) = round(&p).unwrap();
        assert_eq!((rounds.status, cells), (Status::Closed, vec![1, 3, 1]));
    }

    #[test]
    fn runs_are_as_worked() {
        for (plan, turns, [status, numbers @ ..], cells) in runs() {
            let status = [Status::Open, Status::Closed, Status::Bare][status];
            let found = turns.map_or_else(|| round(&plan), |turns| play(&plan, &turns));
            assert_eq!(found, Ok((report(status, numbers), cells.to_vec())));
        }
    }

    #[test]
    fn checks_are_as_worked() {
        for (plan, expected) in checks() {
            let expected = expected.map_err(|(number, place)| declined(number, place));
            assert_eq!(check_plan(&plan), expected, "{plan:02X?}");
        }
    }

    #[test]
    fn bare_plan_meets_its_bound() {
        let (result, cells) = play(&no_values(), &hex("000C 0100 010B 0001")).unwrap();
        assert_eq!(result, report(Status::Bare, [4, 0, 1, 1]));
        assert_eq!(cells, vec![0]);
        assert_eq!(decode(&no_values()).unwrap().bound(), 4);
        assert_eq!(play(&no_values(), &[]).unwrap().0.lowest_empty, 1);
    }

    #[test]
    fn sodium_limits() {
        for &(limit, one, other, allowed) in SODIUM {
            let listed = play(&two_figures(limit, one, other), &[]).unwrap().1;
            let expected = if allowed { vec![1, 1] } else { vec![0, 0] };
            assert_eq!(listed, expected, "{one} and {other} with limit {limit}");
        }
    }

    #[test]
    fn unrecorded_values() {
        for (plan, loaded, closed) in unrecorded() {
            let bytes = plan.encode();
            assert_eq!(play(&bytes, &[]).unwrap().1, loaded, "{plan:?}");
            assert_eq!(round(&bytes).unwrap().1, closed, "{plan:?}");
            assert_eq!(largest_cells(&plan), closed, "{plan:?}");
        }
    }

    #[test]
    fn soup_is_deleted_at_loading() {
        let plan = soup().encode();
        let open = (report(Status::Open, [0, 0, 0, 0]), vec![2, 3]);
        assert_eq!(play(&plan, &[]), Ok(open));
        let closed = (report(Status::Closed, [12, 1, 1, 0]), vec![2, 3]);
        assert_eq!(play(&plan, &soup_turns()), Ok(closed));
    }

    #[test]
    fn constraints_act_together() {
        assert_eq!(play(&half_supports(), &[]).unwrap().1, vec![0, 0]);
        let (result, cells) = round(&three_differ()).unwrap();
        assert_eq!((result.status, result.lists_sent, cells), (Status::Closed, 0, vec![3, 3, 3]));
    }

    #[test]
    fn constraint_that_allows_nothing_ties() {
        for plan in nothing_allowed() {
            assert_eq!(play(&plan.encode(), &[]).unwrap().1, vec![0, 0], "{plan:?}");
        }
    }

    #[test]
    fn declines() {
        let p = plan_p();
        for cut in 1..p.len() {
            assert_eq!(check_plan(&p[..cut]).unwrap_err().number, 1);
        }
        assert_eq!(check_plan(&p[..6]), Err(declined(1, 6)));
        assert_eq!(check_plan(&p[..57]), Err(declined(1, 49)));
        let changed = |at: usize, byte: u8| {
            let mut bytes = p.clone();
            bytes[at] = byte;
            check_plan(&bytes).unwrap_err()
        };
        assert_eq!(changed(2, 2), declined(3, 1));
        assert_eq!(changed(3, 0), declined(4, 1));
        assert_eq!(changed(3, 9), declined(4, 1));
        assert_eq!(changed(4, 33), declined(4, 1));
        assert_eq!(changed(5, 129), declined(4, 1));
        assert_eq!(changed(7, 1), declined(3, 6));
        assert_eq!(changed(9, 17), declined(4, 6));
        assert_eq!(changed(9, 1), declined(3, 6));
        assert_eq!(changed(8, 0), declined(5, 6));
        assert_eq!(changed(8, 3), declined(5, 6));
        assert_eq!(changed(15, 11), declined(6, 6));
        assert_eq!(changed(46, 2), declined(7, 42));
        assert_eq!(changed(44, 2), declined(5, 42));
        assert_eq!(changed(45, 4), declined(5, 42));
        assert_eq!(changed(46, 0), declined(3, 42));
        assert_eq!(changed(55, 4), declined(7, 49));
        assert_eq!(check_plan(&[p.clone(), vec![0]].concat()), Err(declined(8, 58)));
        assert_eq!(play(&same_constraints(128), &[]).unwrap().1, vec![1, 1]);
        assert_eq!(play(&same_constraints(129), &[]), Err(declined(4, 1)));
        assert_eq!(play(&p, &hex("0101")), Err(declined(12, 0)));
        assert_eq!(play(&p, &hex("0109 000C 0009 0101")), Err(declined(12, 2)));
        assert_eq!(play(&[], &[1]), Err(declined(11, 0)));
        assert_eq!(play(&p, &vec![0; 65_538]), Err(declined(11, 0)));
        assert_eq!(play(&p, &hex("000C").repeat(32_768)).unwrap().0.changed, 1);
    }

    #[test]
    fn needs() {
        let mut work = vec![0; WORK_CELLS];
        let mut lists = vec![0; LIST_CELLS];
        let mut call = |w: usize, l: usize| {
            run_turns(&[], &[1], &mut work[..w], &mut lists[..l], &mut |_| {}).unwrap_err()
        };
        assert_eq!(call(30_719, 0), declined(9, 0));
        assert_eq!(call(30_720, 63), declined(10, 0));
        assert_eq!(call(30_720, 64), declined(11, 0));
    }

    #[test]
    fn allowed_turns() {
        for p in 1..=8 {
            // A worker reads from p actors and has three more actions.
            assert_eq!(Turn::all(p).len(), p * (p + 3) + p + 1);
            for &turn in Turn::all(p) {
                let [actor, action] = turn.encode();
                assert_eq!(Turn::decode(p, actor, action), Some(turn));
            }
        }
    }

    #[test]
    fn idle_turns_are_those_without_use() {
        for (plan, turns) in worked() {
            let (Ok(plan), [_, _, ..]) = (decode(&plan), &turns[..]) else { continue };
            let mut run = Run::load(plan);
            for pair in turns.chunks(2) {
                for &turn in Turn::all(run.plan.workers) {
                    let mut other = run.clone();
                    other.turn(turn);
                    assert_eq!(other.changed > run.changed, run.state.has_use(turn));
                }
                let Some(turn) = Turn::decode(run.plan.workers, pair[0], pair[1]) else { break };
                run.turn(turn);
            }
        }
    }

    #[test]
    fn largest_lists_of_p() {
        let plan = decode(&plan_p()).unwrap();
        let network = Network::new(&plan);
        let largest = largest_lists(&plan, &network);
        assert_eq!(largest, vec![vec![true, false], vec![true, true], vec![true, false]]);
    }
}
