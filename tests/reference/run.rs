// The calls: plan check, turn run and round run, with the order of declines,
// the report and what the lent buffers hold afterwards.

use super::lists::{cells, Lists};
use super::plan::{decode, Network, Plan};
use super::state::{Event, Label, State, Turn};
use super::trace::Trace;
use super::{decline, Decline, LIST_CELLS, TURN_BYTES, WORK_CELLS};

#[derive(Clone, Copy, Debug, PartialEq, Eq)]
pub enum Status {
    Open = 0,
    Closed = 1,
    Bare = 2,
}

#[derive(Clone, Copy, Debug, PartialEq, Eq)]
pub struct Report {
    pub status: Status,
    pub changed: usize,
    pub lists_sent: usize,
    pub polls_sent: usize,
    pub lowest_empty: usize,
}

/// A run in progress.
#[derive(Clone, Debug)]
pub struct Run {
    pub plan: Plan,
    pub network: Network,
    pub state: State,
    pub trace: Trace,
    pub changed: usize,
    pub turns: usize,
}

impl Run {
    pub fn load(plan: Plan) -> Run {
        let network = Network::new(&plan);
        let mut events = Vec::new();
        let state = State::load(&plan, &network, &mut events);
        let mut run =
            Run { plan, network, state, trace: Trace::default(), changed: 0, turns: 0 };
        run.note(events);
        run
    }

    fn note(&mut self, events: Vec<Event>) {
        for event in events {
            self.trace.note(event);
        }
    }

    /// Plays a turn; it changed something when the state after differs from
    /// the state before.
    pub fn turn(&mut self, turn: Turn) {
        let before = self.state.clone();
        let mut events = Vec::new();
        self.state.play(&self.plan, &self.network, turn, &mut events);
        if self.state != before {
            self.changed += 1;
        }
        self.turns += 1;
        self.note(events);
    }

    /// Plays a turn without asking whether it changed something.
    pub fn turn_uncounted(&mut self, turn: Turn) {
        self.state.play(&self.plan, &self.network, turn, &mut Vec::new());
    }

    /// Whether some allowed turn would change the state.
    pub fn some_turn_changes(&self) -> bool {
        Turn::all(self.plan.workers).iter().any(|&turn| {
            let mut after = self.state.clone();
            after.play(&self.plan, &self.network, turn, &mut Vec::new());
            after != self.state
        })
    }

    pub fn closed(&self) -> bool {
        self.state.controller.closed
    }

    pub fn is_listed(&self, variable: usize, value: usize) -> bool {
        self.state.is_listed(Label::new(variable, value))
    }

    pub fn lists(&self) -> Lists {
        let list = |(variable, values): (usize, usize)| {
            (0..values).map(|value| self.is_listed(variable, value)).collect()
        };
        (1..).zip(self.plan.counts()).map(list).collect()
    }

    pub fn report(&self) -> Report {
        let empty = self.lists().iter().position(|list| !list.contains(&true));
        let lowest_empty = empty.map_or(0, |index| index + 1);
        let status = match (self.closed(), lowest_empty) {
            (false, _) => Status::Open,
            (true, 0) => Status::Closed,
            (true, _) => Status::Bare,
        };
        Report {
            status,
            changed: self.changed,
            lists_sent: self.trace.lists_sent,
            polls_sent: self.trace.polls_sent,
            lowest_empty,
        }
    }

    /// Leaves the lent buffers as a call that was not declined does.
    fn deliver(&self, work: &mut [u16], lists: &mut [u16]) {
        work[..WORK_CELLS].fill(0);
        let cells = cells(self.plan.version, &self.lists());
        lists[..cells.len()].copy_from_slice(&cells);
    }
}

/// The plan check: p, n, number of constraints and L.
pub fn check_plan(plan: &[u8]) -> Result<[usize; 4], Decline> {
    let plan = decode(plan)?;
    Ok([plan.workers, plan.variables.len(), plan.constraints.len(), plan.labels()])
}

/// The turns of a list, or decline 12.
pub fn decode_turns(workers: usize, bytes: &[u8]) -> Result<Vec<Turn>, Decline> {
    let mut turns = Vec::new();
    for (number, pair) in bytes.chunks(2).enumerate() {
        match Turn::decode(workers, pair[0], pair[1]) {
            Some(turn) => turns.push(turn),
            None => return decline(12, number),
        }
    }
    Ok(turns)
}

fn check_buffers(work: &[u16], lists: &[u16]) -> Result<(), Decline> {
    if work.len() < WORK_CELLS {
        return decline(9, 0);
    }
    if lists.len() < LIST_CELLS {
        return decline(10, 0);
    }
    Ok(())
}

/// The turn run. `watch` sees the run after loading and after each turn.
pub fn run_turns(
    plan: &[u8],
    turns: &[u8],
    work: &mut [u16],
    lists: &mut [u16],
    watch: &mut dyn FnMut(&Run),
) -> Result<Run, Decline> {
    check_buffers(work, lists)?;
    if turns.len() % 2 != 0 || turns.len() > TURN_BYTES {
        return decline(11, 0);
    }
    let plan = decode(plan)?;
    let turns = decode_turns(plan.workers, turns)?;
    let mut run = Run::load(plan);
    watch(&run);
    for turn in turns {
        run.turn(turn);
        watch(&run);
    }
    run.deliver(work, lists);
    Ok(run)
}

/// The round run. `watch` sees the run after loading and after each turn.
pub fn run_round(
    plan: &[u8],
    work: &mut [u16],
    lists: &mut [u16],
    watch: &mut dyn FnMut(&Run),
) -> Result<Run, Decline> {
    check_buffers(work, lists)?;
    let plan = decode(plan)?;
    let round = Turn::round(plan.workers);
    let mut run = Run::load(plan);
    watch(&run);
    while !run.closed() {
        for &turn in &round {
            run.turn(turn);
            watch(&run);
        }
    }
    run.deliver(work, lists);
    Ok(run)
}
