// Times the library against the fast plain Rust implementation, its sweeps
// against its round run, and set rules against the sodium rules that they stand
// for.
//
//   bench          the library
//   bench --self   the reference in the library's place
//   bench --fast   the fast implementation itself, through the interface
//
// All get the same bytes and the same lent buffers, filled with garbage
// outside the timed part. The library sets the first 30,720 work cells to 0,
// as it must; the Rust implementation does not use them, and is timed both
// without clearing them and with. The plan is decoded in each timed run.

use std::fmt::Debug;
use std::hint::black_box;
use std::process::exit;
use std::time::{Duration, Instant};

use tinshrew_tests::fast::{self, Sound};
use tinshrew_tests::generate::sets::eight_in_two_ways;
use tinshrew_tests::generate::{
    full_plan, full_ring, random_turns, scattered_plan, Size, FULL, FULL_IN_TWO,
};
use tinshrew_tests::reference::plan::{decode, Plan};
use tinshrew_tests::reference::run::{decode_turns, Run};
use tinshrew_tests::reference::state::Turn;
use tinshrew_tests::reference::version::Version;
use tinshrew_tests::reference::{LIST_CELLS, WORK_CELLS};
use tinshrew_tests::rng::Rng;
use tinshrew_tests::subject::{self, write_answer, Subject};

const LEAST_RUNS: usize = 15;
const LEAST_TIME: Duration = Duration::from_millis(1500);

struct Buffers {
    work: Vec<u16>,
    /// Of a run, and the first of the sweeps.
    lists: Vec<u16>,
    /// The second of the sweeps.
    second: Vec<u16>,
    rng: Rng,
}

impl Buffers {
    fn new() -> Buffers {
        let lists = vec![0; LIST_CELLS];
        let second = lists.clone();
        Buffers { work: vec![0; WORK_CELLS], lists, second, rng: Rng::new(3) }
    }

    fn fill(&mut self) {
        let word = self.rng.word();
        self.work.fill(word);
        self.lists.fill(!word);
        self.second.fill(word);
    }
}

type Call<'a> = &'a mut dyn FnMut(&mut Buffers);

/// The median times of calls that take turns, each time with buffers full of
/// garbage, so that a busy machine slows all of them alike; and the median of
/// how long the first took against each.
fn time(buffers: &mut Buffers, calls: &mut [Call]) -> Vec<(f64, f64)> {
    let mut times = vec![Vec::new(); calls.len()];
    let begin = Instant::now();
    while times[0].len() < LEAST_RUNS || begin.elapsed() < LEAST_TIME {
        for (call, times) in calls.iter_mut().zip(&mut times) {
            buffers.fill();
            let start = Instant::now();
            call(black_box(&mut *buffers));
            times.push(start.elapsed().as_secs_f64() * 1e6);
        }
    }
    let first = times[0].clone();
    times
        .into_iter()
        .map(|own| {
            let ratios = first.iter().zip(&own).map(|(a, b)| a / b).collect();
            (median(own), median(ratios))
        })
        .collect()
}

fn median(mut numbers: Vec<f64>) -> f64 {
    numbers.sort_by(f64::total_cmp);
    numbers[numbers.len() / 2]
}

fn call(subject: &Subject, plan: &[u8], turns: Option<&[u8]>, lent: &mut Buffers) -> [usize; 6] {
    let mut out = [usize::MAX; 6];
    subject.run(plan, turns, &mut lent.work, &mut lent.lists, &mut out);
    out
}

fn rust(plan: &[u8], turns: Option<&[u8]>, lent: &mut Buffers, clear: bool) -> [usize; 6] {
    let (work, lists) = (&mut lent.work, &mut lent.lists);
    let answer = match turns {
        Some(turns) => fast::run_turns(Sound, plan, turns, work, lists, clear),
        None => fast::run_round(Sound, plan, work, lists, clear),
    };
    let mut out = [0; 6];
    write_answer(answer, &mut out);
    out
}

fn sweeps(subject: &Subject, plan: &[u8], lent: &mut Buffers) -> [usize; 2] {
    let mut out = [usize::MAX; 2];
    subject.run_sweeps(plan, &mut lent.lists, &mut lent.second, &mut out);
    out
}

/// Ends the program where answers differ that should be the same.
fn same<T: PartialEq + Debug>(what: &str, found: T, expected: T) {
    if found != expected {
        eprintln!("bench: {what}: the answers differ, {found:?} and {expected:?}");
        exit(1);
    }
}

/// How many list cells the lists of an accepted plan take.
fn list_cells(plan: &[u8]) -> usize {
    let version = Version::of_byte(plan[0]).expect("an accepted plan");
    usize::from(plan[4]) * version.cells
}

/// How many of a plan's labels are not in these list cells.
fn deleted(plan: &[u8], cells: &[u16]) -> usize {
    let listed: usize = cells.iter().map(|cell| cell.count_ones() as usize).sum();
    fast::check_plan(Sound, plan).map_or(0, |numbers| numbers[3]) - listed
}

/// Both must give the same before they are timed. The answer, and how many
/// labels were deleted.
fn agree(
    subject: &Subject,
    what: &str,
    plan: &[u8],
    turns: Option<&[u8]>,
    buffers: &mut Buffers,
) -> ([usize; 6], usize) {
    let cells = list_cells(plan);
    buffers.fill();
    let found = call(subject, plan, turns, buffers);
    let lists = buffers.lists[..cells].to_vec();
    buffers.fill();
    let expected = rust(plan, turns, buffers, true);
    same(what, (found, &lists[..]), (expected, &buffers.lists[..cells]));
    (found, deleted(plan, &lists))
}

fn measure(subject: &Subject, what: &str, plan: &[u8], turns: Option<&[u8]>) {
    let mut buffers = Buffers::new();
    let (found, deleted) = agree(subject, what, plan, turns, &mut buffers);
    let status = ["open", "closed", "bare"][found[1]];
    println!("{what}: {status}, {deleted} strikes, {} changing turns", found[2]);
    let times = time(
        &mut buffers,
        &mut [
            &mut |lent| {
                black_box(call(subject, black_box(plan), turns, lent));
            },
            &mut |lent| {
                black_box(rust(black_box(plan), turns, lent, false));
            },
            &mut |lent| {
                black_box(rust(black_box(plan), turns, lent, true));
            },
        ],
    );
    print_times(&[subject.name, "Rust", "Rust, work cells cleared"], &times);
}

fn print_times(names: &[&str], times: &[(f64, f64)]) {
    for (name, (time, ratio)) in names.iter().zip(times) {
        println!("  {name:32} {time:12.1} us   ratio {ratio:8.2}");
    }
}

/// The answer of the sweeps, and the cells of the first and the second buffer.
fn swept(subject: &Subject, plan: &[u8], buffers: &mut Buffers) -> ([usize; 2], [Vec<u16>; 2]) {
    let cells = list_cells(plan);
    buffers.fill();
    let answer = sweeps(subject, plan, buffers);
    (answer, [&buffers.lists, &buffers.second].map(|buffer| buffer[..cells].to_vec()))
}

/// The sweeps must give the same in Rust, and the lists of the round run,
/// before they are timed. Their number, and how many labels were deleted.
fn sweeps_agree(
    subject: &Subject,
    what: &str,
    plan: &[u8],
    buffers: &mut Buffers,
) -> (usize, usize) {
    let found = swept(subject, plan, buffers);
    same(what, &found, &swept(&subject::fast(), plan, buffers));
    let ([_, number], [lists, _]) = found;
    buffers.fill();
    call(subject, plan, None, buffers);
    same(what, &lists[..], &buffers.lists[..lists.len()]);
    (number, deleted(plan, &lists))
}

/// How long the sweeps take against the round run of the same subject.
fn measure_sweeps(subject: &Subject, what: &str, plan: &[u8]) {
    let mut buffers = Buffers::new();
    let (number, deleted) = sweeps_agree(subject, what, plan, &mut buffers);
    let times = time(
        &mut buffers,
        &mut [
            &mut |lent| {
                black_box(sweeps(subject, black_box(plan), lent));
            },
            &mut |lent| {
                black_box(call(subject, black_box(plan), None, lent));
            },
        ],
    );
    println!("{what}: {number} sweeps, {deleted} strikes");
    print_times(&["sweeps", "round run"], &times);
}

fn check(subject: &Subject, plan: &[u8]) -> [usize; 5] {
    let mut out = [usize::MAX; 5];
    subject.check_plan(plan, &mut out);
    out
}

/// Times a call on a plan with set rules, and on one with sodium rules.
fn time_both(what: &str, [sets, pairs]: [&[u8]; 2], call: impl Fn(&[u8], &mut Buffers)) {
    let times = time(
        &mut Buffers::new(),
        &mut [&mut |lent| call(black_box(sets), lent), &mut |lent| call(black_box(pairs), lent)],
    );
    println!("{what}");
    print_times(&["set rules", "sodium rules"], &times);
}

/// The plan with no value in any of its variables.
fn emptied(mut plan: Plan) -> Plan {
    plan.variables.iter_mut().for_each(|variable| variable.values.clear());
    plan
}

/// How long set rules take against the sodium rules that they come to.
fn measure_sets(subject: &Subject, plans: [Plan; 2]) {
    let plans = plans.map(|plan| plan.encode());
    let plans = [&plans[0][..], &plans[1][..]];
    let [number, place, ..] = check(subject, plans[0]);
    if number != 0 {
        println!("the set rules are declined with {number} at {place}");
        return;
    }
    time_both("plan check", plans, |plan, _| {
        black_box(check(subject, plan));
    });
    for (what, turns) in [("no turns", Some(&[][..])), ("round", None)] {
        let given = plans.map(|plan| agree(subject, what, plan, turns, &mut Buffers::new()));
        same(what, given[0], given[1]);
        time_both(what, plans, |plan, lent| {
            black_box(call(subject, plan, turns, lent));
        });
    }
}

/// The turns of a list that change something, by the reference.
fn changing(plan: &[u8], turns: &[u8]) -> Vec<u8> {
    let mut run = Run::load(decode(plan).expect("an accepted plan"));
    let turns = decode_turns(run.plan.workers, turns).expect("allowed turns");
    let used = turns.into_iter().filter(|&turn| {
        let used = run.state.has_use(turn);
        run.turn_uncounted(turn);
        used
    });
    used.flat_map(Turn::encode).collect()
}

/// What an idle turn of a list costs: how much longer the list takes than its
/// changing turns alone, for each of the others.
fn measure_idle(subject: &Subject, plan: &[u8], turns: &[u8]) {
    let mut buffers = Buffers::new();
    let without = changing(plan, turns);
    let idle = (turns.len() - without.len()) / 2;
    let times = time(
        &mut buffers,
        &mut [
            &mut |lent| {
                black_box(call(subject, black_box(plan), Some(turns), lent));
            },
            &mut |lent| {
                black_box(call(subject, black_box(plan), Some(&without), lent));
            },
            &mut |lent| {
                black_box(rust(black_box(plan), Some(turns), lent, false));
            },
            &mut |lent| {
                black_box(rust(black_box(plan), Some(&without), lent, false));
            },
        ],
    );
    let each = |all: usize, changing: usize| 1e3 * (times[all].0 - times[changing].0) / idle as f64;
    println!("  {idle} idle turns, each: {:.1} ns, Rust {:.1} ns", each(0, 1), each(2, 3));
}

/// 32,768 turns, most of them idle: one worker's actions are left out so that
/// the plan stays open, and the others soon have nothing to do.
fn idle_list(rng: &mut Rng) -> Vec<u8> {
    let turns: Vec<Turn> =
        Turn::all(8).iter().copied().filter(|turn| turn.encode()[0] != 1).collect();
    (0..32_768).flat_map(|_| rng.pick(&turns).encode()).collect()
}

/// The full plans and the turn lists of a version's measures.
struct Inputs {
    all_deleted: Vec<u8>,
    core_kept: Vec<u8>,
    scattered: Vec<u8>,
    idle: Vec<u8>,
    even: Vec<u8>,
    one_by_one: Vec<u8>,
}

impl Inputs {
    /// `part` of 256 pairs are allowed where they are scattered.
    fn new(rng: &mut Rng, size: Size, part: usize) -> Inputs {
        Inputs {
            all_deleted: full_plan(rng, size, true).encode(),
            core_kept: full_plan(rng, size, false).encode(),
            scattered: scattered_plan(rng, size, part).encode(),
            idle: idle_list(rng),
            even: random_turns(rng, size.workers, 32_768),
            one_by_one: full_ring(rng, size).encode(),
        }
    }

    fn measure(&self, subject: &Subject) {
        let (core_kept, idle, even) = (&self.core_kept, &self.idle, &self.even);
        measure(subject, "round, full plan, every label struck", &self.all_deleted, None);
        measure(subject, "round, full plan, a core kept", core_kept, None);
        measure(subject, "round, full random plan", &self.scattered, None);
        measure(subject, "32,768 turns, mostly idle, full plan", core_kept, Some(idle));
        measure_idle(subject, core_kept, idle);
        measure(subject, "32,768 turns drawn evenly, full plan", core_kept, Some(even));
        measure_idle(subject, core_kept, even);
        measure(subject, "no turns, full plan", core_kept, Some(&[]));
        println!("sweeps beside the same subject's round run; target: no ratio above 100");
        measure_sweeps(subject, "full plan, every label struck", &self.all_deleted);
        measure_sweeps(subject, "full plan, a core kept", core_kept);
        measure_sweeps(subject, "full random plan", &self.scattered);
        measure_sweeps(subject, "full plan, one strike a sweep", &self.one_by_one);
    }
}

fn main() {
    let stand_in = match std::env::args().nth(1).as_deref() {
        None => subject::library(),
        Some("--self") => Some(subject::reference()),
        Some("--fast") => Some(subject::fast()),
        Some(_) => {
            eprintln!("usage: bench [--self | --fast]");
            exit(2)
        }
    };
    let Some(subject) = stand_in else {
        eprintln!("bench: built without the library; set TINSHREW_LIB and build again");
        exit(2)
    };
    println!("median times; lent buffers hold garbage before each run, filled untimed");
    let mut rng = Rng::new(11);
    for (size, part) in [(FULL, 64), (FULL_IN_TWO, 36)] {
        println!(
            "version {}, full plans: {} slots of {} dishes, {} rules",
            size.version.byte, size.variables, size.values, size.constraints
        );
        Inputs::new(&mut rng, size, part).measure(&subject);
    }
    let plans = eight_in_two_ways(&mut rng);
    println!("version 2, 8 slots of 32 dishes: 128 set rules over all, or 28 sodium rules");
    measure_sets(&subject, plans.clone());
    println!("the same with no dish in any slot: what a run takes before it counts supports");
    measure_sets(&subject, plans.map(emptied));
}
