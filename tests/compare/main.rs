// Compares the library with the reference through the C interface, plans with
// set rules also with their copies that have them written out, and some of its
// answers with what was worked out by hand.
//
//   compare [cases] [seed]     the library, 100,000 cases and seed 1 by default
//   compare --self             the reference in the library's place
//   compare --fast             the fast implementation in its place
//   compare --mutants [cases]  each deliberately wrong variant; all must differ
//   compare --repeat FILE      a case from a file
//   compare --only NUMBER      the case of that number, written to a file first
//   compare --threads NUMBER   instead of one for each core, at most 64
//
// Exits with 0 when all cases agree, 1 at a difference, 2 when it cannot run.

mod by_hand;
mod case;
mod cases;
mod competing;
mod crash;

use std::collections::BTreeMap;
use std::process::exit;
use std::sync::atomic::{AtomicBool, AtomicU64, Ordering};
use std::sync::Mutex;
use std::time::{Duration, Instant};

use tinshrew_tests::fast::fault;
use tinshrew_tests::subject::{self, Subject};

use case::{Case, Tally};

/// A case that takes longer than this does not come back.
const PATIENCE: Duration = Duration::from_secs(120);
const STACK: usize = 64 << 20;

#[derive(Default)]
struct Totals {
    /// By kind: the cases and the seconds they took, making them included.
    kinds: BTreeMap<String, (usize, f64)>,
    tally: Tally,
}

impl Totals {
    fn add_kind(&mut self, kind: String, (cases, seconds): (usize, f64)) {
        let all = self.kinds.entry(kind).or_default();
        all.0 += cases;
        all.1 += seconds;
    }

    fn add(&mut self, other: Totals) {
        self.tally.add(&other.tally);
        for (kind, numbers) in other.kinds {
            self.add_kind(kind, numbers);
        }
    }

    fn cases(&self) -> usize {
        self.kinds.values().map(|kind| kind.0).sum()
    }
}

struct Difference {
    number: u64,
    case: Case,
    text: String,
}

/// What the threads share. They take the cases by number, so that each case is
/// the same and the outcome too, however many threads there are.
struct Shared<'a> {
    subject: &'a Subject,
    seed: u64,
    next: AtomicU64,
    /// The number of cases, or that of the lowest difference so far.
    limit: AtomicU64,
    found: Mutex<Option<Difference>>,
    totals: Mutex<Totals>,
}

impl Shared<'_> {
    fn take_cases(&self, thread: usize) {
        let mut mine = Totals::default();
        loop {
            let number = self.next.fetch_add(1, Ordering::Relaxed);
            if number >= self.limit.load(Ordering::Relaxed) {
                break;
            }
            let start = Instant::now();
            let case = cases::make(self.seed, number);
            crash::at(thread, number);
            let outcome = case.run(self.subject);
            // What goes wrong from here on is no fault of this case.
            crash::at(thread, crash::NONE);
            match outcome {
                Ok(tally) => {
                    mine.tally.add(&tally);
                    mine.add_kind(case.kind, (1, start.elapsed().as_secs_f64()));
                }
                Err(text) => self.keep_lowest(Difference { number, case, text }),
            }
        }
        self.totals.lock().unwrap().add(mine);
    }

    fn keep_lowest(&self, difference: Difference) {
        self.limit.fetch_min(difference.number, Ordering::Relaxed);
        let mut found = self.found.lock().unwrap();
        if found.as_ref().is_none_or(|earlier| difference.number < earlier.number) {
            *found = Some(difference);
        }
    }
}

/// Runs cases 0 to `count` - 1 and gives the difference of the lowest number.
fn run_all(
    subject: &Subject,
    count: u64,
    seed: u64,
    threads: usize,
) -> (Totals, Option<Difference>) {
    let shared = Shared {
        subject,
        seed,
        next: AtomicU64::new(0),
        limit: AtomicU64::new(count),
        found: Mutex::new(None),
        totals: Mutex::new(Totals::default()),
    };
    let done = AtomicBool::new(false);
    std::thread::scope(|scope| {
        let watchdog = scope.spawn(|| watch(&done, threads, seed));
        let start = |thread| {
            let shared = &shared;
            let builder = std::thread::Builder::new().stack_size(STACK);
            builder.spawn_scoped(scope, move || shared.take_cases(thread)).expect("a thread")
        };
        let handles: Vec<_> = (0..threads).map(start).collect();
        for handle in handles {
            handle.join().expect("a thread that ends");
        }
        done.store(true, Ordering::Relaxed);
        watchdog.thread().unpark();
    });
    (shared.totals.into_inner().unwrap(), shared.found.into_inner().unwrap())
}

/// Ends the program when a thread stays at the same case too long.
fn watch(done: &AtomicBool, threads: usize, seed: u64) {
    let mut seen = vec![(crash::NONE, Instant::now()); threads];
    while !done.load(Ordering::Relaxed) {
        std::thread::park_timeout(Duration::from_secs(1));
        for (thread, last) in seen.iter_mut().enumerate() {
            let current = crash::CURRENT[thread].load(Ordering::Relaxed);
            if current != last.0 {
                *last = (current, Instant::now());
            } else if current != crash::NONE && last.1.elapsed() > PATIENCE {
                let case = cases::make(seed, current);
                write_case(seed, current, &case, "the call does not come back");
                exit(1);
            }
        }
    }
}

fn case_path(seed: u64, number: u64) -> String {
    format!("difference-{seed}-{number}.txt")
}

fn write_case(seed: u64, number: u64, case: &Case, text: &str) {
    let path = case_path(seed, number);
    let content = format!("# seed {seed}, case {number}: {text}\n{}", case.to_text());
    println!("compare: case {number} ({}) differs: {text}", case.kind);
    match std::fs::write(&path, content) {
        Ok(()) => println!("compare: repeat it with: compare --repeat {path}"),
        Err(error) => println!("compare: {path} cannot be written: {error}"),
    }
}

fn repeat(subject: &Subject, case: &Case) -> bool {
    match case.run(subject) {
        Ok(_) => {
            println!("compare: the case agrees ({})", case.kind);
            true
        }
        Err(text) => {
            println!("compare: the case differs ({}): {text}", case.kind);
            false
        }
    }
}

fn mutants(count: u64, seed: u64, threads: usize) -> bool {
    let mut survivors = Vec::new();
    for (number, fault) in fault::ALL.iter().enumerate() {
        let (_, found) = run_all(&subject::wrong(number), count, seed, threads);
        match found {
            Some(difference) => println!(
                "{fault:?}: caught at case {} ({}): {}",
                difference.number, difference.case.kind, difference.text
            ),
            None => {
                println!("{fault:?}: NOT caught in {count} cases");
                survivors.push(format!("{fault:?}"));
            }
        }
    }
    let all = fault::ALL.len();
    println!("mutants: {} of {all} caught (seed {seed})", all - survivors.len());
    survivors.is_empty()
}

fn print_totals(totals: &Totals) {
    for (kind, (cases, seconds)) in &totals.kinds {
        println!("{cases:9} cases {seconds:7.1} s  {kind}");
    }
    let t = &totals.tally;
    println!("calls: {}, of them not declined: {}", t.calls, t.declined[0]);
    let declined: Vec<String> =
        (1..=12).map(|number| format!("{number}: {}", t.declined[number])).collect();
    println!("declined by number: {}", declined.join(", "));
    println!("runs: {} open, {} closed, {} bare", t.status[0], t.status[1], t.status[2]);
    println!(
        "turns: {}, of them changing: {}; most in a run: {} changing, {} strikes",
        t.turns, t.changed, t.most_changed, t.most_deletions
    );
    println!(
        "dropped replies: {} to earlier polls, {} late; progress sampled: {}",
        t.earlier_replies, t.late_replies, t.samples
    );
    println!("sweeps: {} on {} plans, at most {}", t.sweeps, t.swept, t.most_sweeps);
    println!("plans that gave the same with their set rules written out: {}", t.written_out);
}

fn usage() -> ! {
    eprintln!(
        "usage: compare [cases] [seed] [--self | --fast | --mutants] [--threads N] \
         [--repeat FILE | --only NUMBER]"
    );
    exit(2)
}

fn cannot_run(why: String) -> ! {
    eprintln!("compare: {why}");
    exit(2)
}

struct Options {
    /// The number of cases and the seed.
    numbers: Vec<u64>,
    stand_in: Option<Subject>,
    mutants: bool,
    file: Option<String>,
    only: Option<u64>,
    threads: usize,
}

fn options() -> Options {
    let mut options = Options {
        numbers: Vec::new(),
        stand_in: None,
        mutants: false,
        file: None,
        only: None,
        threads: std::thread::available_parallelism()
            .map_or(2, |cores| cores.get())
            .min(crash::THREADS),
    };
    let mut arguments = std::env::args().skip(1);
    while let Some(argument) = arguments.next() {
        let mut value = || arguments.next().unwrap_or_else(|| usage());
        match argument.as_str() {
            "--self" => options.stand_in = Some(subject::reference()),
            "--fast" => options.stand_in = Some(subject::fast()),
            "--mutants" => options.mutants = true,
            "--repeat" => options.file = Some(value()),
            "--only" => options.only = Some(value().parse().unwrap_or_else(|_| usage())),
            "--threads" => options.threads = value().parse().unwrap_or_else(|_| usage()),
            number => options.numbers.push(number.parse().unwrap_or_else(|_| usage())),
        }
    }
    if options.numbers.len() > 2 || !(1..=crash::THREADS).contains(&options.threads) {
        usage();
    }
    options
}

/// A panic names its case as a difference does.
fn write_case_on_panic(seed: u64) {
    std::panic::set_hook(Box::new(move |panic| {
        println!("compare: {panic}");
        if let Some(number) = crash::mine() {
            write_case(seed, number, &cases::make(seed, number), "the call panics");
        }
        exit(1)
    }));
}

fn case_from_file(path: &str) -> Case {
    let text = std::fs::read_to_string(path).map_err(|error| error.to_string());
    text.and_then(|text| Case::from_text(&text))
        .unwrap_or_else(|error| cannot_run(format!("{path}: {error}")))
}

/// The case of that number, written to a file first.
fn case_of_number(seed: u64, number: u64) -> Case {
    let case = cases::make(seed, number);
    let path = case_path(seed, number);
    if let Err(error) = std::fs::write(&path, case.to_text()) {
        cannot_run(format!("{path}: {error}"));
    }
    println!("compare: case {number} is in {path}");
    case
}

/// Runs all cases; true when they agree.
fn compare(subject: &Subject, count: u64, seed: u64, threads: usize) -> bool {
    let start = Instant::now();
    if let Err(text) = by_hand::check(subject) {
        println!("compare: not as worked out by hand: {text}");
        return false;
    }
    let (totals, difference) = run_all(subject, count, seed, threads);
    if let Some(Difference { number, case, text }) = difference {
        write_case(seed, number, &case, &text);
        return false;
    }
    print_totals(&totals);
    let seconds = start.elapsed().as_secs_f64();
    println!("subject: {}; {seconds:.1} s on {threads} threads", subject.name);
    println!("compare: {} cases agree (seed {seed})", totals.cases());
    true
}

fn main() {
    let options = options();
    let threads = options.threads;
    let count_or = |default| options.numbers.first().copied().unwrap_or(default);
    let seed = options.numbers.get(1).copied().unwrap_or(1);
    crash::install(seed);
    write_case_on_panic(seed);
    let agrees = if options.mutants {
        mutants(count_or(30_000), seed, threads)
    } else {
        let Some(subject) = options.stand_in.or_else(subject::library) else {
            cannot_run("built without the library; set TINSHREW_LIB and build again".to_string())
        };
        match (&options.file, options.only) {
            (Some(path), _) => repeat(&subject, &case_from_file(path)),
            (None, Some(number)) => repeat(&subject, &case_of_number(seed, number)),
            (None, None) => compare(&subject, count_or(100_000), seed, threads),
        }
    };
    exit(i32::from(!agrees));
}
