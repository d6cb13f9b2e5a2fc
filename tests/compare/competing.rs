// Plans and calls with two faults at once, to see which one is declined.

mod sets;

use tinshrew_tests::fast::{FORMER_LISTS, FORMER_WORK};
use tinshrew_tests::generate::random_turns;
use tinshrew_tests::reference::plan::Plan;
use tinshrew_tests::reference::version::Version;
use tinshrew_tests::reference::{LIST_CELLS, WORK_CELLS};
use tinshrew_tests::rng::Rng;

/// A section as it will stand in the file.
#[derive(Clone, Debug)]
struct Raw {
    /// The length that is written, if not the content's own.
    length: Option<usize>,
    content: Vec<u8>,
}

impl Raw {
    fn new(content: Vec<u8>) -> Raw {
        Raw { length: None, content }
    }

    fn set(&mut self, at: usize, byte: u8) {
        if let Some(cell) = self.content.get_mut(at) {
            *cell = byte;
        }
    }

    fn get(&self, at: usize) -> u8 {
        self.content.get(at).copied().unwrap_or(0)
    }

    /// How many rows of so many bytes a table has.
    fn rows(&self, row_bytes: usize) -> usize {
        self.content.len().saturating_sub(3) / row_bytes
    }
}

/// A call to be made wrong.
#[derive(Clone, Debug)]
pub struct Draft {
    /// The plan that it was drawn from, with what was put in since.
    plan: Plan,
    version_byte: u8,
    head: Raw,
    variables: Vec<Raw>,
    constraints: Vec<Raw>,
    tail: Vec<u8>,
    /// How many bytes are cut off at the end.
    cut: usize,
    emptied: bool,
    variable: usize,
    constraint: usize,
    pub turns: Vec<u8>,
    pub work: usize,
    pub lists: usize,
    pub sweep_lists: [usize; 2],
}

type Spoil = fn(&mut Draft, &mut Rng);

const SHORT_LISTS: &[usize] = &[0, 1, FORMER_LISTS, LIST_CELLS - 1];

/// How many single faults there are.
pub const FAULTS: usize = WITHOUT_SETS.len() + sets::FAULTS.len();

/// The single fault of that number.
pub fn fault(number: usize) -> Spoil {
    match number.checked_sub(WITHOUT_SETS.len()) {
        None => WITHOUT_SETS[number].1,
        Some(number) => sets::FAULTS[number].1,
    }
}

/// The faults that need no set rule.
const WITHOUT_SETS: &[(&str, Spoil)] = &[
    ("9 work", |d, r| d.work = r.pick(&[0, 1, FORMER_WORK, WORK_CELLS - 1])),
    ("10 lists", |d, r| d.lists = r.pick(SHORT_LISTS)),
    ("10 first", |d, r| d.sweep_lists[0] = r.pick(SHORT_LISTS)),
    ("10 second", |d, r| d.sweep_lists[1] = r.pick(SHORT_LISTS)),
    ("11 odd", |d, _| d.turns.push(9)),
    ("11 long", |d, r| d.turns.resize(r.pick(&[65_537, 65_538, 65_540, 70_000]), 0)),
    ("12 bad turn", |d, r| {
        let at = r.below(d.turns.len() / 2 + 1) * 2;
        let bad = r.pick(&[[1, 1], [9, 0], [0, 0], [0, 9], [1, 12], [1, 8], [255, 255]]);
        d.turns.splice(at..at, bad);
    }),
    ("1 empty", |d, _| d.emptied = true),
    ("1 cut", |d, r| d.cut = r.between(1, 40)),
    ("1 cut by one", |d, _| d.cut = 1),
    ("1 head length", |d, r| d.head.length = Some(r.pick(&[256, 4_096, 65_535]))),
    ("1 variable length", |d, r| d.variable().length = Some(r.pick(&[1_024, 65_535]))),
    ("1 constraint length", |d, r| d.constraint().length = Some(r.pick(&[1_024, 65_535]))),
    ("1 one constraint more", |d, _| d.head.set(2, d.constraints.len() as u8 + 1)),
    ("1 one variable more", |d, _| d.head.set(1, d.variables.len() as u8 + 1)),
    ("2 version", |d, r| d.version_byte = r.pick(&[0, 3, 255])),
    ("3 other version", |d, _| d.version_byte ^= 3),
    ("3 head short", |d, r| d.head.content.truncate(r.below(3))),
    ("3 head long", |d, r| d.head.content.push(r.byte())),
    ("3 variable under 2", |d, r| {
        let length = r.below(2);
        d.variable().content.truncate(length);
    }),
    ("3 variable short", |d, r| {
        let short = r.between(1, 4);
        let length = d.variable().content.len().saturating_sub(short).max(2);
        d.variable().content.truncate(length);
    }),
    ("3 variable long", |d, r| {
        let more: Vec<u8> = (0..r.between(1, 4)).map(|_| r.byte()).collect();
        d.variable().content.extend(more);
    }),
    ("3 variable count", |d, _| {
        let count = d.variable().get(1);
        d.variable().set(1, count.wrapping_add(1));
    }),
    ("3 constraint under 3", |d, r| {
        let length = r.below(3);
        d.constraint().content.truncate(length);
    }),
    ("3 constraint short", |d, r| {
        let short = r.between(1, 2);
        let length = d.constraint().content.len().saturating_sub(short).max(3);
        d.constraint().content.truncate(length);
    }),
    ("3 constraint long", |d, r| {
        let more: Vec<u8> = (0..r.between(1, 2)).map(|_| r.byte()).collect();
        d.constraint().content.extend(more);
    }),
    ("3 other kind", |d, r| {
        let (kind, highest) = (d.constraint().get(2), d.plan.version.highest_kind);
        let more = r.between(1, usize::from(highest)) as u8;
        d.constraint().set(2, kind.wrapping_add(more) % (highest + 1));
    }),
    ("4 workers", |d, r| d.head.set(0, r.pick(&[0, 9, 255]))),
    ("4 variables", |d, r| d.head.set(1, r.pick(&[0, 33, 255]))),
    ("4 constraints", |d, r| d.head.set(2, r.pick(&[129, 255]))),
    ("4 count", |d, r| {
        let count = d.count_above(r);
        d.variable().set(1, count as u8);
    }),
    ("4 count with its length", |d, r| {
        let count = d.count_above(r);
        d.refill(count);
    }),
    // In a plan that has all labels that it may have.
    ("4 sum", |d, _| d.refill(d.plan.version.values)),
    ("4 sum by one", |d, _| {
        let count = usize::from(d.variable().get(1));
        d.refill(count + 1);
    }),
    ("5 owner 0", |d, _| d.variable().set(0, 0)),
    ("5 owner", |d, r| {
        let owner = r.pick(&[d.head.get(0).wrapping_add(1), 255]);
        d.variable().set(0, owner);
    }),
    ("5 first 0", |d, _| d.constraint().set(0, 0)),
    ("5 both the same", |d, _| {
        let second = d.constraint().get(1);
        d.constraint().set(0, second);
    }),
    ("5 exchanged", |d, _| {
        let (first, second) = (d.constraint().get(0), d.constraint().get(1));
        d.constraint().set(0, second);
        d.constraint().set(1, first);
    }),
    ("5 second", |d, r| {
        let second = r.pick(&[d.head.get(1).wrapping_add(1), 255]);
        d.constraint().set(1, second);
    }),
    ("6 code", |d, r| {
        let count = d.variable().content.len().saturating_sub(2) / 4;
        if count >= 2 {
            let later = r.between(1, count - 1);
            let earlier = r.below(later);
            for byte in 2..4 {
                let copy = d.variable().get(4 * earlier + byte);
                d.variable().set(4 * later + byte, copy);
            }
        }
    }),
    ("7 kind", |d, r| {
        let kind = r.pick(&[2, 3, 128, 255]).max(d.plan.version.highest_kind + 1);
        d.constraint().set(2, kind);
    }),
    ("7 bits", |d, r| {
        d.turn_to(r, 0);
        let Version { values, row_bytes, .. } = d.plan.version;
        let second = d.plan.constraints[d.constraint].second;
        let columns = d.plan.variables[second - 1].values.len();
        let rows = d.constraint().rows(row_bytes);
        if rows > 0 && columns < values {
            let between = r.between(columns, values - 1);
            let bit = r.pick(&[columns, between, values - 1]);
            // The lowest bit of a row is that of its last byte.
            let at = 3 + row_bytes * (r.below(rows) + 1) - 1 - bit / 8;
            let with_bit = d.constraint().get(at) | 1 << bit % 8;
            d.constraint().set(at, with_bit);
        }
    }),
    ("8 tail", |d, r| d.tail = (0..r.between(1, 9)).map(|_| r.byte()).collect()),
    ("8 one constraint fewer", |d, _| d.head.set(2, d.constraints.len() as u8 - 1)),
];

/// The sections of an accepted plan.
fn sections(plan: &[u8]) -> Vec<Raw> {
    let mut sections = Vec::new();
    let mut at = 1;
    while at < plan.len() {
        let end = at + 2 + usize::from(plan[at]) * 256 + usize::from(plan[at + 1]);
        sections.push(Raw::new(plan[at + 2..end].to_vec()));
        at = end;
    }
    sections
}

impl Draft {
    pub fn new(plan: Plan, rng: &mut Rng) -> Draft {
        let mut sections = sections(&plan.encode());
        let constraints = sections.split_off(1 + plan.variables.len());
        let variables = sections.split_off(1);
        let count = rng.below(6);
        Draft {
            version_byte: plan.version.byte,
            head: sections.remove(0),
            // One of the last, at which the labels may come to their limit.
            variable: variables.len() - rng.between(1, variables.len().min(4)),
            constraint: rng.below(constraints.len()),
            variables,
            constraints,
            tail: Vec::new(),
            cut: 0,
            emptied: false,
            turns: random_turns(rng, plan.workers, count),
            work: WORK_CELLS + rng.below(3),
            lists: LIST_CELLS + rng.below(3),
            sweep_lists: [LIST_CELLS + rng.below(3), LIST_CELLS + rng.below(3)],
            plan,
        }
    }

    fn variable(&mut self) -> &mut Raw {
        &mut self.variables[self.variable]
    }

    fn constraint(&mut self) -> &mut Raw {
        &mut self.constraints[self.constraint]
    }

    /// A count that no variable of this version has.
    fn count_above(&self, rng: &mut Rng) -> usize {
        let most = self.plan.version.values;
        rng.pick(&[most + 1, most + 2, 2 * most, 255])
    }

    /// Gives the variable so many values, with the length that goes with them.
    fn refill(&mut self, count: usize) {
        let owner = self.variable().get(0);
        let values = (1..=count as u16).flat_map(|code| [code.to_be_bytes(), [0; 2]].concat());
        self.variable().content = [owner, count as u8].into_iter().chain(values).collect();
    }

    /// Turns to a constraint that was of this kind, if there was one.
    fn turn_to(&mut self, rng: &mut Rng, kind: u8) {
        let was = |at: usize| self.plan.constraints[at].kind() == kind;
        let all: Vec<usize> = (0..self.constraints.len()).filter(|&at| was(at)).collect();
        if !all.is_empty() && !all.contains(&self.constraint) {
            self.constraint = rng.pick(&all);
        }
    }

    /// Turns to other sections for the next fault.
    pub fn move_on(&mut self, rng: &mut Rng) {
        self.variable = rng.below(self.variables.len());
        self.constraint = rng.below(self.constraints.len());
        let kind = rng.below(4) as u8;
        self.turn_to(rng, kind);
    }

    /// The file's bytes, and the bytes that were cut off.
    pub fn encode(&self) -> (Vec<u8>, Vec<u8>) {
        let mut bytes = vec![self.version_byte];
        for raw in [&self.head].into_iter().chain(&self.variables).chain(&self.constraints) {
            let length = raw.length.unwrap_or(raw.content.len()) as u16;
            bytes.extend_from_slice(&length.to_be_bytes());
            bytes.extend_from_slice(&raw.content);
        }
        bytes.extend_from_slice(&self.tail);
        let keep = if self.emptied { 0 } else { bytes.len().saturating_sub(self.cut) };
        let after = bytes.split_off(keep);
        (bytes, after)
    }
}
