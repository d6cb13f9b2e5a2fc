// The kinds of cases. A case follows from the seed and its number: the first
// ones are fixed, the others are drawn.

mod fixed;
mod sets;

use tinshrew_tests::fast::{FORMER_LISTS, FORMER_WORK};
use tinshrew_tests::generate::sets::{plan_with_sets, random_set};
use tinshrew_tests::generate::{
    chain_plan, full_plan, full_ring, guided_turns, plan_of_counts, random_plan, random_turns,
    ring_plan, round_like_turns, scattered_plan, Size, FULL, FULL_IN_TWO, MEDIUM, SMALL,
};
use tinshrew_tests::reference::plan::{decode, Plan};
use tinshrew_tests::reference::version::{Version, MOST_LABELS, ONE, TWO, VERSIONS};
use tinshrew_tests::reference::worked::plan_p;
use tinshrew_tests::reference::worked::wide::{plan_p_in_two, plan_q};
use tinshrew_tests::reference::{LIST_CELLS, WORK_CELLS};
use tinshrew_tests::rng::Rng;

use crate::case::Case;
use crate::competing::{fault, Draft, FAULTS};

/// As many cells as needed, and sometimes more.
fn enough(rng: &mut Rng, needed: usize) -> usize {
    needed + if rng.chance(1, 4) { rng.below(40) } else { 0 }
}

fn case(kind: &str, rng: &mut Rng, plan: Vec<u8>, turns: Vec<u8>) -> Case {
    let version = if plan.first() == Some(&TWO.byte) { "version 2: " } else { "" };
    Case {
        kind: format!("{version}{kind}"),
        plan,
        plan_after: Vec::new(),
        turns,
        turns_after: Vec::new(),
        work: enough(rng, WORK_CELLS),
        lists: enough(rng, LIST_CELLS),
        sweep_lists: [enough(rng, LIST_CELLS), enough(rng, LIST_CELLS)],
        fill: rng.next(),
        prefixes: Vec::new(),
    }
}

/// The ordered pairs of faults.
const PAIRS: usize = FAULTS * FAULTS;

/// Counts that are together as many labels as a plan may have: full variables,
/// and a few small ones, mostly behind them.
fn all_labels(rng: &mut Rng) -> Vec<usize> {
    let full = MOST_LABELS / TWO.values - 1;
    let mut counts = vec![TWO.values; full];
    let mut left = MOST_LABELS - full * TWO.values;
    for _ in 0..3 {
        counts.push(rng.below(left.min(12) + 1));
        left -= counts[counts.len() - 1];
    }
    counts.push(left);
    if rng.chance(1, 4) {
        counts.rotate_left(rng.below(full));
    }
    counts
}

/// A plan to be made wrong: it has constraints of every kind, and a variable of
/// more than one value.
fn sound_plan(rng: &mut Rng, version: Version) -> Plan {
    let size = Size { version, workers: 3, variables: 4, values: 5, constraints: 4 };
    loop {
        let mut plan = if version == TWO && rng.chance(3, 4) {
            let counts = all_labels(rng);
            plan_of_counts(rng, size, &counts, false)
        } else {
            random_plan(rng, size, false)
        };
        plan.workers = plan.workers.min(7);
        let has = |kind| plan.constraints.iter().any(|one| one.kind() == kind);
        if has(0) && has(1) && plan.counts().max() >= Some(2) {
            if version == TWO {
                let set = random_set(rng, &plan.variables, plan.constraints.last(), 1_000);
                plan.constraints.insert(rng.below(plan.constraints.len() + 1), set);
            }
            return plan;
        }
    }
}

fn competing(rng: &mut Rng, version: Version, pair: usize, other_section: bool) -> Case {
    let plan = sound_plan(rng, version);
    let mut draft = Draft::new(plan, rng);
    fault(pair / FAULTS)(&mut draft, rng);
    if other_section {
        draft.move_on(rng);
    }
    fault(pair % FAULTS)(&mut draft, rng);
    let (bytes, plan_after) = draft.encode();
    Case {
        plan_after,
        work: draft.work,
        lists: draft.lists,
        sweep_lists: draft.sweep_lists,
        ..case("two faults", rng, bytes, draft.turns)
    }
}

type Draw = fn(&str, &mut Rng) -> Case;

/// The kinds that are drawn, with their weights.
const KINDS: &[(&str, usize, Draw)] = &[
    ("small, guided turns", 2_600, played),
    ("small, starving turns", 1_100, played),
    ("small, round-like turns", 700, played),
    ("small, random turns", 500, played),
    ("plan P, guided turns", 500, played),
    ("plan Q, guided turns", 100, played),
    ("medium, guided turns", 300, played),
    ("medium, starving turns", 120, played),
    ("medium, round-like turns", 120, played),
    ("chain, guided turns", 200, played),
    ("chain, starving turns", 80, played),
    ("ring, guided turns", 60, played),
    ("sets, guided turns", 400, played),
    ("sets, starving turns", 150, played),
    ("sets, round-like turns", 100, played),
    ("sets, random turns", 50, played),
    ("large, guided turns", 250, played),
    ("large, round-like turns", 80, played),
    ("full, guided turns", 6, played),
    ("full, round-like turns", 4, played),
    ("full chain, guided turns", 6, played),
    ("full chain, starving turns", 4, played),
    ("longest list", 10, longest_list),
    ("one byte changed", 1_000, some_byte_changed),
    ("a constraint's byte changed", 300, sets::byte_changed),
    ("pairs touched", 80, sets::some_touched),
    ("cut", 500, some_cut),
    ("extended", 300, some_extended),
    ("two faults", 900, some_faults),
    ("buffers", 400, some_buffers),
    ("bad turn", 500, bad_turn),
    ("turn list length", 100, some_length),
];

fn drawn(rng: &mut Rng) -> Case {
    let at = rng.weighted(KINDS.iter().map(|kind| kind.1)).expect("some weight is above 0");
    let (kind, _, draw) = KINDS[at];
    draw(kind, rng)
}

/// Such a size in either version, with more values in some of version 2.
fn of_either(rng: &mut Rng, size: Size) -> Size {
    match rng.pick(&VERSIONS) {
        ONE => size,
        version => Size { version, values: rng.pick(&[size.values, 18, version.values]), ..size },
    }
}

/// A full size: in version 2 many values or many variables.
fn full_of_either(rng: &mut Rng) -> Size {
    rng.pick(&[FULL, FULL, FULL_IN_TWO, Size { version: TWO, ..FULL }])
}

/// A valid plan of at most such a size.
fn up_to(rng: &mut Rng, size: Size) -> Plan {
    let size = of_either(rng, size);
    random_plan(rng, size, false)
}

/// A valid plan of a drawn size, mostly small.
fn some_plan(rng: &mut Rng) -> Plan {
    match rng.below(12) {
        0 => up_to(rng, MEDIUM),
        1 => chain_plan(rng, Size { variables: 6, values: 5, ..SMALL }),
        2 if rng.chance(1, 25) => {
            let size = full_of_either(rng);
            let exactly = rng.chance(1, 2);
            random_plan(rng, size, exactly)
        }
        _ => up_to(rng, SMALL),
    }
}

/// Such a plan, and at most so many turns for it.
fn plan_and_turns(rng: &mut Rng, most: usize) -> (Plan, Vec<u8>) {
    let plan = some_plan(rng);
    let turns = guided_turns(rng, &plan, most, false);
    (plan, turns)
}

fn chain(rng: &mut Rng) -> Plan {
    let most = of_either(rng, Size { values: 10, ..SMALL });
    let (workers, variables) = (rng.between(1, 8), rng.between(2, 14));
    let values = rng.between(1, most.values);
    chain_plan(rng, Size { workers, variables, values, ..most })
}

fn ring(rng: &mut Rng) -> Plan {
    let most = of_either(rng, Size { values: 6, ..SMALL });
    let (workers, variables) = (rng.between(1, 8), rng.between(3, 10));
    let values = rng.between(1, most.values);
    ring_plan(rng, Size { workers, variables, values, ..most })
}

/// A plan with set rules, of enough variables for the largest sets.
fn with_sets(rng: &mut Rng) -> Plan {
    let values = rng.pick(&[2, 5, 18, TWO.values]);
    plan_with_sets(rng, Size { variables: 12, values, constraints: 10, ..MEDIUM })
}

fn full_chain(rng: &mut Rng) -> Plan {
    let size = full_of_either(rng);
    match rng.below(4) {
        0 => chain_plan(rng, size),
        1 => full_plan(rng, size, true),
        2 => full_ring(rng, size),
        _ => full_plan(rng, size, false),
    }
}

/// A full plan of tables that are about as dense as leaves it some labels.
fn scattered(rng: &mut Rng) -> Plan {
    let size = full_of_either(rng);
    let part = if size.values > FULL.values { rng.between(30, 90) } else { rng.between(50, 130) };
    scattered_plan(rng, size, part)
}

fn prefixes(rng: &mut Rng, case: &mut Case) {
    let turns = case.turns.len() / 2;
    if turns <= 12 && rng.chance(1, 2) {
        case.prefixes = (0..turns).map(|turn| 2 * turn).collect();
    } else {
        case.prefixes = (0..rng.below(4)).map(|_| 2 * rng.below(turns + 1)).collect();
    }
}

/// A valid plan and turn list; the kind names the sort of both.
fn played(kind: &str, rng: &mut Rng) -> Case {
    let (sort, manner) = kind.split_once(", ").expect("a sort of plan and one of turns");
    let plan = sort_of_plan(sort, rng);
    let turns = sort_of_turns(sort, manner, &plan, rng);
    let mut case = case(kind, rng, plan.encode(), turns);
    if sort == "small" || sort == "plan P" {
        prefixes(rng, &mut case);
    } else if rng.chance(1, 3) {
        case.prefixes = vec![2 * rng.below(case.turns.len() / 2 + 1)];
    }
    case
}

fn sort_of_plan(sort: &str, rng: &mut Rng) -> Plan {
    match sort {
        "small" => up_to(rng, SMALL),
        "plan P" => decode(&rng.pick(&[plan_p, plan_p_in_two])()).expect("plan P is valid"),
        "plan Q" => plan_q(),
        "medium" => up_to(rng, MEDIUM),
        "chain" => chain(rng),
        "ring" => ring(rng),
        "sets" => with_sets(rng),
        "large" => {
            let version = rng.pick(&VERSIONS);
            random_plan(rng, Size { version, values: version.values, ..FULL }, false)
        }
        "full" if rng.chance(1, 4) => {
            let size = full_of_either(rng);
            random_plan(rng, size, true)
        }
        "full" => scattered(rng),
        "full chain" => full_chain(rng),
        other => panic!("no sort of plan is called {other}"),
    }
}

fn sort_of_turns(sort: &str, manner: &str, plan: &Plan, rng: &mut Rng) -> Vec<u8> {
    let most = match sort {
        "small" | "plan P" | "plan Q" => rng.between(1, 160),
        "sets" => rng.between(1, 500),
        "medium" | "chain" | "ring" | "large" => rng.between(1, 1_500),
        "full" | "full chain" => rng.between(500, 12_000),
        other => panic!("no number of turns for {other}"),
    };
    match manner {
        "guided turns" => guided_turns(rng, plan, most, false),
        "starving turns" => guided_turns(rng, plan, most, true),
        "round-like turns" => {
            let rounds = rng.between(1, if sort == "small" { 8 } else { 30 });
            round_like_turns(rng, plan.workers, rounds)
        }
        "random turns" => {
            let count = rng.below(120);
            random_turns(rng, plan.workers, count)
        }
        other => panic!("no sort of turns is called {other}"),
    }
}

fn longest_list(kind: &str, rng: &mut Rng) -> Case {
    let plan = match rng.below(6) {
        0 => full_chain(rng),
        1 => chain(rng),
        _ => up_to(rng, SMALL),
    };
    let count = rng.pick(&[32_768, 32_768, 32_767, 20_000]);
    let mut turns = guided_turns(rng, &plan, 3_000, false);
    let more = random_turns(rng, plan.workers, count);
    turns.extend(more);
    let turns_after = turns.split_off(2 * count);
    Case { turns_after, ..case(kind, rng, plan.encode(), turns) }
}

fn changed(rng: &mut Rng, byte: u8) -> u8 {
    match rng.below(5) {
        0 => byte.wrapping_add(1),
        1 => byte.wrapping_sub(1),
        2 => byte ^ 1 << rng.below(8),
        3 => rng.pick(&[0, 1, 2, 3, 16, 17, 32, 33, 255]),
        _ => rng.byte(),
    }
}

fn some_byte_changed(kind: &str, rng: &mut Rng) -> Case {
    let (plan, turns) = plan_and_turns(rng, 20);
    let mut bytes = plan.encode();
    let at = if rng.chance(1, 4) { rng.below(6) } else { rng.below(bytes.len()) };
    bytes[at] = changed(rng, bytes[at]);
    case(kind, rng, bytes, turns)
}

fn some_cut(kind: &str, rng: &mut Rng) -> Case {
    let (plan, turns) = plan_and_turns(rng, 10);
    let mut bytes = plan.encode();
    let plan_after = bytes.split_off(rng.below(bytes.len()));
    Case { plan_after, ..case(kind, rng, bytes, turns) }
}

fn some_extended(kind: &str, rng: &mut Rng) -> Case {
    let (plan, turns) = plan_and_turns(rng, 10);
    let mut bytes = plan.encode();
    let more = if rng.chance(1, 20) { rng.between(1, 70_000) } else { rng.between(1, 20) };
    // Half of them look like another section.
    if rng.chance(1, 2) {
        bytes.extend([0, 5, 1, 2, 1, 0, 0]);
    }
    bytes.extend((0..more).map(|_| rng.byte()));
    case(kind, rng, bytes, turns)
}

fn some_faults(_: &str, rng: &mut Rng) -> Case {
    let (version, pair) = (rng.pick(&VERSIONS), rng.below(PAIRS));
    let other_section = rng.chance(1, 2);
    competing(rng, version, pair, other_section)
}

/// List cells for `n` variables, mostly enough.
fn some_lists(rng: &mut Rng, n: usize) -> usize {
    match rng.below(4) {
        0 => rng.pick(&[0, 1, n - 1, n, 2 * n - 1, FORMER_LISTS, LIST_CELLS - 1]),
        1 => LIST_CELLS,
        _ => LIST_CELLS + rng.below(200),
    }
}

fn some_buffers(kind: &str, rng: &mut Rng) -> Case {
    let (plan, turns) = plan_and_turns(rng, 40);
    let n = plan.variables.len();
    let work = match rng.below(4) {
        0 => rng.pick(&[0, 1, FORMER_WORK, WORK_CELLS - 1]),
        1 => rng.below(WORK_CELLS),
        2 => WORK_CELLS,
        _ => WORK_CELLS + rng.below(9_000),
    };
    let lists = some_lists(rng, n);
    let sweep_lists = [some_lists(rng, n), some_lists(rng, n)];
    Case { work, lists, sweep_lists, ..case(kind, rng, plan.encode(), turns) }
}

/// Two bytes that mostly are no allowed turn.
fn bad_turn(kind: &str, rng: &mut Rng) -> Case {
    let (plan, mut turns) = plan_and_turns(rng, 30);
    let at = 2 * rng.below(turns.len() / 2 + 1);
    let p = plan.workers as u8;
    let bad = match rng.below(4) {
        0 => [rng.below(10) as u8, rng.below(14) as u8],
        1 => {
            let actor = rng.between(0, usize::from(p)) as u8;
            [actor, rng.pick(&[actor, p + 1, 12, 13, 9, 8, 255])]
        }
        2 => [p + 1, rng.below(13) as u8],
        _ => [rng.byte(), rng.byte()],
    };
    turns.splice(at..at, bad);
    case(kind, rng, plan.encode(), turns)
}

fn some_length(kind: &str, rng: &mut Rng) -> Case {
    let (plan, mut turns) = plan_and_turns(rng, 40);
    let more = rng.pick(&[0, 0, 65_530, 65_600]);
    let count = (more - more.min(turns.len())) / 2;
    turns.extend(random_turns(rng, plan.workers, count));
    let keep = turns.len().saturating_sub(rng.below(4));
    let turns_after = turns.split_off(keep);
    Case { turns_after, ..case(kind, rng, plan.encode(), turns) }
}

/// The case of that number.
pub fn make(seed: u64, number: u64) -> Case {
    let mut rng = Rng::for_case(seed, number);
    fixed::case_of(number as usize, &mut rng).unwrap_or_else(|| drawn(&mut rng))
}
