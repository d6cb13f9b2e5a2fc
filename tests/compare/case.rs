// One case: what is put to the library, how its answers are compared with
// the reference's, and the file that repeats it.

mod sweeps;
mod written_out;

use std::fmt::Write as _;
use std::hint::black_box;
use std::ops::Range;

use tinshrew_tests::reference::largest::largest_lists;
use tinshrew_tests::reference::run::{run_round, run_turns, Run};
use tinshrew_tests::reference::worked::hex;
use tinshrew_tests::reference::LIST_CELLS;
use tinshrew_tests::rng::Rng;
use tinshrew_tests::subject::{reference_answer, reference_check, write_answer, Subject};

use written_out::Given;

/// Cells and bytes on either side of what is lent. A wrong variant may write
/// all list cells behind those that it was lent.
const GUARD: usize = LIST_CELLS;

/// Where so many lent cells or bytes lie between their guards.
fn within(count: usize) -> Range<usize> {
    GUARD..GUARD + count
}

#[derive(Clone, Debug, PartialEq, Eq)]
pub struct Case {
    pub kind: String,
    pub plan: Vec<u8>,
    /// Bytes that lie behind the plan in memory and are no part of it.
    pub plan_after: Vec<u8>,
    pub turns: Vec<u8>,
    pub turns_after: Vec<u8>,
    /// Lent cells.
    pub work: usize,
    pub lists: usize,
    /// Lent cells of the two buffers of the sweeps.
    pub sweep_lists: [usize; 2],
    /// Seed of what the lent cells and their surroundings hold.
    pub fill: u64,
    /// Further turn runs with only so many bytes of the turn list.
    pub prefixes: Vec<usize>,
}

/// What the cases covered.
#[derive(Clone, Debug, Default)]
pub struct Tally {
    pub calls: usize,
    pub declined: [usize; 13],
    pub status: [usize; 3],
    pub changed: usize,
    pub most_deletions: usize,
    pub most_changed: usize,
    pub turns: usize,
    pub earlier_replies: usize,
    pub late_replies: usize,
    pub samples: usize,
    pub swept: usize,
    pub sweeps: usize,
    pub most_sweeps: usize,
    /// Plans with set rules that were put with them written out, too.
    pub written_out: usize,
}

impl Tally {
    pub fn add(&mut self, other: &Tally) {
        self.calls += other.calls;
        for (mine, theirs) in self.declined.iter_mut().zip(other.declined) {
            *mine += theirs;
        }
        for (mine, theirs) in self.status.iter_mut().zip(other.status) {
            *mine += theirs;
        }
        self.changed += other.changed;
        self.turns += other.turns;
        self.most_deletions = self.most_deletions.max(other.most_deletions);
        self.most_changed = self.most_changed.max(other.most_changed);
        self.earlier_replies += other.earlier_replies;
        self.late_replies += other.late_replies;
        self.samples += other.samples;
        self.swept += other.swept;
        self.sweeps += other.sweeps;
        self.most_sweeps = self.most_sweeps.max(other.most_sweeps);
        self.written_out += other.written_out;
    }

    fn add_run(&mut self, run: &Run, samples: usize) {
        self.status[run.report().status as usize] += 1;
        self.changed += run.changed;
        self.turns += run.turns;
        self.most_deletions = self.most_deletions.max(run.trace.deletions.len());
        self.most_changed = self.most_changed.max(run.changed);
        self.earlier_replies += run.trace.earlier_replies;
        self.late_replies += run.trace.late_replies;
        self.samples += samples;
    }

    fn add_sweeps(&mut self, sweeps: usize) {
        self.swept += 1;
        self.sweeps += sweeps;
        self.most_sweeps = self.most_sweeps.max(sweeps);
    }
}

fn words(rng: &mut Rng, count: usize) -> Vec<u16> {
    let mut cells = Vec::with_capacity(count + 3);
    while cells.len() < count {
        let word = rng.next();
        cells.extend([word as u16, (word >> 16) as u16, (word >> 32) as u16, (word >> 48) as u16]);
    }
    cells.truncate(count);
    cells
}

/// Cells with a guard of known, random content on either side.
fn arena(rng: &mut Rng, lent: usize) -> Vec<u16> {
    let mut cells = words(rng, GUARD);
    match rng.below(6) {
        0 => cells.resize(GUARD + lent, 0),
        1 => cells.resize(GUARD + lent, 65_535),
        _ => cells.extend(words(rng, lent)),
    }
    cells.extend(words(rng, GUARD));
    cells
}

/// Bytes with others before and behind them.
fn around(rng: &mut Rng, bytes: &[u8], after: &[u8]) -> Vec<u8> {
    let mut all: Vec<u8> = (0..GUARD).map(|_| rng.byte()).collect();
    all.extend_from_slice(bytes);
    all.extend_from_slice(after);
    all.extend((0..GUARD).map(|_| rng.byte()));
    all
}

/// Compares all cells of an arena and names the first that differs.
fn same_cells(what: &str, lent: usize, expected: &[u16], found: &[u16]) -> Result<(), String> {
    match expected.iter().zip(found).position(|(one, other)| one != other) {
        None => Ok(()),
        Some(at) => {
            let cell = at as isize - GUARD as isize;
            Err(format!(
                "{what} cell {cell} of {lent}: expected {}, found {}",
                expected[at], found[at]
            ))
        }
    }
}

/// The claims about the whole run, on the reference's own run.
struct Claims {
    rng: Rng,
    samples: usize,
    stuck: Option<usize>,
}

impl Claims {
    fn watch(&mut self, run: &Run) {
        let rare = if run.plan.labels() <= 48 { 12 } else { 1_500 };
        if !run.closed() && self.rng.chance(1, rare) {
            self.sample(run);
        }
    }

    fn sample(&mut self, run: &Run) {
        self.samples += 1;
        if !run.some_turn_changes() {
            self.stuck.get_or_insert(run.turns);
        }
    }

    fn check(&mut self, run: &Run) -> Result<(), String> {
        if !run.closed() {
            self.sample(run);
        }
        if let Some(turn) = self.stuck {
            return Err(format!("claim: open after {turn} turns and no turn changes anything"));
        }
        if let Some(fault) = &run.trace.fault {
            return Err(format!("claim: {fault}"));
        }
        let largest = largest_lists(&run.plan, &run.network);
        for (variable, values) in (1..).zip(&largest) {
            for (value, &kept) in values.iter().enumerate() {
                let listed = run.is_listed(variable, value);
                if kept && !listed {
                    return Err(format!(
                        "claim: label {variable} {value} of the largest lists deleted"
                    ));
                }
                if run.closed() && listed && !kept {
                    return Err(format!("claim: closed with label {variable} {value}"));
                }
            }
        }
        if run.closed() {
            if let Some((label, what)) = run.trace.unfinished(run.plan.workers) {
                return Err(format!("claim: closed with {label:?} {what}"));
            }
        }
        if run.changed > run.plan.bound() {
            return Err(format!("claim: {} turns over the bound {}", run.changed, run.plan.bound()));
        }
        Ok(())
    }
}

impl Case {
    /// Puts the case to the subject; the first difference is the error. A plan
    /// with set rules is put to it a second time, with them written out.
    pub fn run(&self, subject: &Subject) -> Result<Tally, String> {
        let (mut tally, given) = self.play(subject)?;
        if let Some(copy) = self.written_out() {
            let told = |text: String| format!("set rules written out: {text}");
            let (of_copy, given_for_copy) = copy.play(subject).map_err(told)?;
            written_out::same(&given, &given_for_copy).map_err(told)?;
            tally.add(&of_copy);
            tally.written_out += 1;
        }
        Ok(tally)
    }

    /// What the subject gives in each run and in the sweeps, once it is seen to
    /// be what the reference gives.
    fn play(&self, subject: &Subject) -> Result<(Tally, Vec<Given>), String> {
        let mut rng = Rng::new(self.fill);
        let plan = around(&mut rng, &self.plan, &self.plan_after);
        let turns = around(&mut rng, &self.turns, &self.turns_after);
        let work = arena(&mut rng, self.work);
        let lists = arena(&mut rng, self.lists);
        let sweep_lists = self.sweep_lists.map(|lent| arena(&mut rng, lent));
        let mut layout = Layout {
            case: self,
            subject,
            plan: plan.clone(),
            turns: turns.clone(),
            work,
            lists,
            sweep_lists,
            rng,
            tally: Tally::default(),
            given: Vec::new(),
        };
        layout.check_plan()?;
        layout.run(Some(self.turns.len()))?;
        for &length in &self.prefixes {
            layout.run(Some(length))?;
        }
        let round = layout.run(None)?;
        layout.run_sweeps(round.as_deref())?;
        layout.last_sweeps()?;
        // Both were lent as bytes that a call only reads; the compiler must
        // not take that for granted here.
        let layout = black_box(layout);
        if layout.plan != plan {
            return Err("the plan's bytes were changed".to_string());
        }
        if layout.turns != turns {
            return Err("the turn list's bytes were changed".to_string());
        }
        Ok((layout.tally, layout.given))
    }

    pub fn to_text(&self) -> String {
        let mut text = String::new();
        let joined = |numbers: &[usize]| {
            let numbers: Vec<String> = numbers.iter().map(usize::to_string).collect();
            numbers.join(" ")
        };
        writeln!(text, "kind {}", self.kind).unwrap();
        writeln!(text, "work {}", self.work).unwrap();
        writeln!(text, "lists {}", self.lists).unwrap();
        writeln!(text, "sweep_lists {}", joined(&self.sweep_lists)).unwrap();
        writeln!(text, "fill {}", self.fill).unwrap();
        writeln!(text, "prefixes {}", joined(&self.prefixes)).unwrap();
        for (name, bytes) in [
            ("plan", &self.plan),
            ("plan_after", &self.plan_after),
            ("turns", &self.turns),
            ("turns_after", &self.turns_after),
        ] {
            let digits: String = bytes.iter().map(|byte| format!("{byte:02X}")).collect();
            writeln!(text, "{name} {digits}").unwrap();
        }
        text
    }

    pub fn from_text(text: &str) -> Result<Case, String> {
        let field = |name: &str| -> Result<&str, String> {
            text.lines()
                .find_map(|line| {
                    let rest = line.strip_prefix(name)?;
                    (rest.is_empty() || rest.starts_with(' ')).then_some(rest.trim())
                })
                .ok_or(format!("no line '{name}'"))
        };
        let number = |name: &str| -> Result<u64, String> {
            field(name)?.parse().map_err(|_| format!("'{name}' is no number"))
        };
        let bytes = |name: &str| -> Result<Vec<u8>, String> {
            let digits = field(name)?;
            if digits.len() % 2 != 0 || !digits.chars().all(|c| c.is_ascii_hexdigit()) {
                return Err(format!("'{name}' is no hex"));
            }
            Ok(hex(digits))
        };
        let numbers = |name: &str| -> Result<Vec<usize>, String> {
            let numbers = field(name)?.split_whitespace().map(str::parse);
            numbers.collect::<Result<_, _>>().map_err(|_| format!("'{name}' are no numbers"))
        };
        Ok(Case {
            kind: field("kind")?.to_string(),
            plan: bytes("plan")?,
            plan_after: bytes("plan_after")?,
            turns: bytes("turns")?,
            turns_after: bytes("turns_after")?,
            work: number("work")? as usize,
            lists: number("lists")? as usize,
            sweep_lists: numbers("sweep_lists")?
                .try_into()
                .map_err(|_| "'sweep_lists' are not two".to_string())?,
            fill: number("fill")?,
            prefixes: numbers("prefixes")?,
        })
    }
}

/// A case laid out in memory.
struct Layout<'a> {
    case: &'a Case,
    subject: &'a Subject,
    plan: Vec<u8>,
    turns: Vec<u8>,
    work: Vec<u16>,
    lists: Vec<u16>,
    sweep_lists: [Vec<u16>; 2],
    rng: Rng,
    tally: Tally,
    given: Vec<Given>,
}

/// What a run must give: the answer, and all cells of both arenas.
struct Expected {
    out: [usize; 6],
    work: Vec<u16>,
    lists: Vec<u16>,
}

impl Layout<'_> {
    /// The out cells of a call, with guards, checked against `expected`.
    fn compare_out<const N: usize>(
        &mut self,
        what: &str,
        expected: &[usize; N],
        call: impl FnOnce(&Self, &mut [usize; N]),
    ) -> Result<(), String> {
        let before: Vec<usize> = (0..N + 8).map(|_| self.rng.next() as usize).collect();
        let mut out = before.clone();
        let answer = 4..4 + N;
        call(self, (&mut out[answer.clone()]).try_into().expect("N cells"));
        self.tally.calls += 1;
        self.tally.declined[expected[0].min(12)] += 1;
        let found = &out[answer.clone()];
        if found != expected {
            return Err(format!("{what}: expected {expected:?}, found {found:?}"));
        }
        if out[..4] != before[..4] || out[answer.end..] != before[answer.end..] {
            return Err(format!("{what}: a cell next to the answer was written"));
        }
        Ok(())
    }

    fn check_plan(&mut self) -> Result<(), String> {
        let mut expected = [0; 5];
        write_answer(reference_check(&self.case.plan), &mut expected);
        self.compare_out("check_plan", &expected, |layout, out| {
            layout.subject.check_plan(&layout.plan[within(layout.case.plan.len())], out)
        })
    }

    /// A turn run with that many bytes of the list, or a round run. The list
    /// cells as the subject left them, unless the call was declined.
    fn run(&mut self, turn_bytes: Option<usize>) -> Result<Option<Vec<u16>>, String> {
        let what = match turn_bytes {
            Some(length) => format!("run_turns with {length} bytes"),
            None => "run_round".to_string(),
        };
        let expected = self.expect(turn_bytes).map_err(|text| format!("{what}: {text}"))?;
        let case = self.case;
        let (mut work, mut lists) = (self.work.clone(), self.lists.clone());
        self.compare_out(&what, &expected.out, |layout, out| {
            layout.subject.run(
                &layout.plan[within(case.plan.len())],
                turn_bytes.map(|length| &layout.turns[within(length)]),
                &mut work[within(case.work)],
                &mut lists[within(case.lists)],
                out,
            )
        })?;
        same_cells("list", case.lists, &expected.lists, &lists)
            .and_then(|()| same_cells("work", case.work, &expected.work, &work))
            .map_err(|text| format!("{what}: {text}"))?;
        let listed = (expected.out[0] == 0).then(|| lists[within(case.lists)].to_vec());
        let cells = [("list", lists), ("work", work)];
        self.given.push(Given { what, out: expected.out.to_vec(), cells });
        Ok(listed)
    }

    /// The reference's run, on which the claims are checked too.
    fn expect(&mut self, turn_bytes: Option<usize>) -> Result<Expected, String> {
        let case = self.case;
        let (mut work, mut lists) = (self.work.clone(), self.lists.clone());
        let mut claims = Claims { rng: Rng::new(case.fill ^ 5), samples: 0, stuck: None };
        let result = {
            let (work, lists) = (&mut work[within(case.work)], &mut lists[within(case.lists)]);
            let watch = &mut |run: &Run| claims.watch(run);
            match turn_bytes {
                Some(length) => run_turns(&case.plan, &case.turns[..length], work, lists, watch),
                None => run_round(&case.plan, work, lists, watch),
            }
        };
        if let Ok(run) = &result {
            claims.check(run)?;
            self.tally.add_run(run, claims.samples);
        }
        let mut out = [0; 6];
        write_answer(reference_answer(&result), &mut out);
        Ok(Expected { out, work, lists })
    }
}
