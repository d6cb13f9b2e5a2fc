// The calls of the slow engine: the sweeps on the plan of a case, and on
// buffers of their own the parts that hold a last sweep.

use std::hint::black_box;

use tinshrew_tests::reference::largest::largest_lists;
use tinshrew_tests::reference::lists::cells;
use tinshrew_tests::reference::sweep::{last_sweep, run_sweeps, Swept};
use tinshrew_tests::reference::LIST_CELLS;
use tinshrew_tests::rng::Rng;
use tinshrew_tests::subject::{reference_sweeps, write_answer};

use super::{arena, same_cells, within, Given, Layout};

/// How many parts are asked for in a case.
const ASKED: usize = 6;

/// The lent cells of two arenas.
fn lent(arenas: &mut [Vec<u16>; 2], counts: [usize; 2]) -> [&mut [u16]; 2] {
    let [first, second] = arenas;
    [&mut first[within(counts[0])], &mut second[within(counts[1])]]
}

/// A length for a buffer, short ones and those about the need more often.
fn some_length(rng: &mut Rng) -> usize {
    match rng.below(3) {
        0 => rng.below(4),
        1 => rng.between(LIST_CELLS - 1, LIST_CELLS + 1),
        _ => rng.below(100),
    }
}

fn some_sweeps(rng: &mut Rng) -> usize {
    match rng.below(3) {
        0 => rng.below(514),
        1 => rng.pick(&[0, 1, 2, 3, usize::MAX - 1, usize::MAX]),
        _ => rng.next() as usize,
    }
}

/// A count of cells, mostly about the length of one of the two buffers.
fn some_count(rng: &mut Rng, lengths: [usize; 2]) -> usize {
    let near = (rng.pick(&lengths) + rng.below(3)).wrapping_sub(1);
    match rng.below(6) {
        0 => rng.below(100),
        1 => rng.next() as usize,
        // The same but for one high bit.
        2 => near ^ 1 << rng.pick(&[8, 16, usize::BITS / 2, usize::BITS - 1]),
        _ => near,
    }
}

impl Layout<'_> {
    /// The sweeps. `round` has the list cells after the subject's round run,
    /// unless that was declined.
    pub fn run_sweeps(&mut self, round: Option<&[u16]>) -> Result<(), String> {
        let case = self.case;
        let mut expected = self.sweep_lists.clone();
        let [first, second] = lent(&mut expected, case.sweep_lists);
        let result = run_sweeps(&case.plan, first, second);
        let mut out = [0; 2];
        write_answer(reference_sweeps(&result), &mut out);
        let mut found = self.sweep_lists.clone();
        self.compare_out("run_sweeps", &out, |layout, out| {
            let [first, second] = lent(&mut found, case.sweep_lists);
            layout.subject.run_sweeps(&layout.plan[within(case.plan.len())], first, second, out)
        })?;
        for (at, what) in ["run_sweeps: first list", "run_sweeps: second list"].iter().enumerate() {
            same_cells(what, case.sweep_lists[at], &expected[at], &found[at])?;
        }
        let [first, second] = found.clone();
        let cells = [("first list", first), ("second list", second)];
        self.given.push(Given { what: "run_sweeps".to_string(), out: out.to_vec(), cells });
        match result {
            Ok(swept) => self.check_swept(&swept, found, round),
            Err(_) => Ok(()),
        }
    }

    /// What holds on every accepted plan: the bound on the sweeps, and that
    /// the last one leaves the largest lists, which are the round run's.
    fn check_swept(
        &mut self,
        swept: &Swept,
        mut found: [Vec<u16>; 2],
        round: Option<&[u16]>,
    ) -> Result<(), String> {
        let (sweeps, most) = (swept.sweeps, swept.plan.labels() + 1);
        self.tally.add_sweeps(sweeps);
        if sweeps < 1 || sweeps > most {
            return Err(format!("claim: {sweeps} sweeps instead of 1 to {most}"));
        }
        let written = swept.plan.list_cells();
        let buffers = lent(&mut found, self.case.sweep_lists);
        let [number, count] = self.compare_part(buffers[0], buffers[1], sweeps, written)?;
        let last = &buffers[number - 1][..count];
        let largest = cells(swept.plan.version, &largest_lists(&swept.plan, &swept.network));
        if last != largest {
            return Err(format!("claim: last sweep {last:?}, largest lists {largest:?}"));
        }
        match round {
            Some(round) if round[..written] != *last => {
                Err(format!("claim: last sweep {last:?}, round run {:?}", &round[..written]))
            }
            _ => Ok(()),
        }
    }

    /// Asks for the part that holds the last of so many sweeps; the number of
    /// its buffer and of its cells.
    fn compare_part(
        &mut self,
        first: &[u16],
        second: &[u16],
        sweeps: usize,
        count: usize,
    ) -> Result<[usize; 2], String> {
        let part = last_sweep(first, second, sweeps, count);
        let mut expected = [0; 3];
        write_answer(Ok(part), &mut expected);
        let (one, other) = (first.len(), second.len());
        let what = format!("last_sweep {sweeps} with {count} cells of {one} and {other}");
        self.compare_out(&what, &expected, |layout, out| {
            layout.subject.last_sweep(first, second, sweeps, count, out)
        })?;
        Ok(part)
    }

    /// Parts of buffers that differ in their cells and mostly in their length,
    /// as those that the sweeps leave do not.
    pub fn last_sweeps(&mut self) -> Result<(), String> {
        let lengths = [some_length(&mut self.rng), some_length(&mut self.rng)];
        let before = lengths.map(|length| arena(&mut self.rng, length));
        let mut arenas = before.clone();
        let [first, second] = lent(&mut arenas, lengths);
        for _ in 0..ASKED {
            let sweeps = some_sweeps(&mut self.rng);
            let count = some_count(&mut self.rng, lengths);
            self.compare_part(first, second, sweeps, count)?;
        }
        // The call only reads them; the compiler must not take that for
        // granted here.
        if black_box(arenas) != before {
            return Err("last_sweep: a buffer was changed".to_string());
        }
        Ok(())
    }
}
