// A fast plain implementation with queues and bit masks: the measure
// for the benchmark and a second opinion on the reference. Deliberately wrong
// variants of it (see `fault`) show that the test program catches mistakes;
// the sound one compiles to code without any of those branches.

mod cells;
pub mod fault;
mod limit;
mod pairs;
mod plan;
mod row;
mod set;
mod sweeps;

use std::collections::VecDeque;

pub use fault::{Fault, Faults, Faulty, Sound};
use plan::{decode, Net, Plan};
use row::{Row, HALF, LOW_HALF, WIDEST};
pub use sweeps::{last_sweep, run_sweeps};

const WORK: usize = 30_720;
const LISTS: usize = 64;
/// The most variables.
const MAX: usize = 32;
/// What a run needed when there was version 1 alone, and in wrong variants.
pub const FORMER_WORK: usize = 24_576;
pub const FORMER_LISTS: usize = 32;

pub type Declined = (usize, usize);

fn bits(mut mask: u32) -> impl Iterator<Item = usize> {
    std::iter::from_fn(move || {
        if mask == 0 {
            return None;
        }
        let bit = mask.trailing_zeros() as usize;
        mask &= mask - 1;
        Some(bit)
    })
}

/// The first `count` values of a variable.
fn below<F: Faults>(f: F, count: u8) -> u32 {
    if f.has(Fault::FullRowEmpty) && usize::from(count) == WIDEST {
        return 0;
    }
    if f.has(Fault::Bit31Unused) && usize::from(count) == WIDEST {
        return u32::MAX >> 1;
    }
    ((1u64 << count) - 1) as u32
}

#[derive(Clone, Copy)]
enum Message {
    List(u16),
    Poll { timestamp: u32, wanted: u32 },
    Reply { timestamp: u32 },
}

/// A run in progress. Actor 0 is the controller, the others are workers.
struct Sim<'a, F: Faults, R> {
    f: F,
    net: &'a Net<R>,
    domains: [u32; MAX],
    counters: Vec<[u8; MAX]>,
    work: [VecDeque<u16>; 9],
    out: [Vec<u16>; 9],
    list_counters: [u32; 9],
    held: [Option<(u32, u32)>; 9],
    channels: [[VecDeque<Message>; 9]; 9],
    /// Every list message sent, so that channels hold its number only.
    sent: Vec<Vec<u16>>,
    timestamp: u32,
    open: bool,
    marks: u16,
    closed: bool,
    changed: usize,
    lists_sent: usize,
    polls_sent: usize,
}

impl<'a, F: Faults, R: Row> Sim<'a, F, R> {
    /// Full domains, and nothing counted yet.
    fn new(f: F, net: &'a Net<R>) -> Self {
        let mut sim = Sim {
            f,
            net,
            domains: [0; MAX],
            counters: vec![[0; MAX]; net.n * R::VALUES],
            work: Default::default(),
            out: Default::default(),
            list_counters: [0; 9],
            held: [None; 9],
            channels: Default::default(),
            sent: Vec::new(),
            timestamp: 0,
            open: false,
            marks: 0,
            closed: false,
            changed: 0,
            lists_sent: 0,
            polls_sent: 0,
        };
        for s in 0..net.n {
            sim.domains[s] = below(f, net.size[s]);
        }
        sim
    }

    fn load(f: F, net: &'a Net<R>) -> Self {
        let mut sim = Sim::new(f, net);
        let loaded = sim.domains;
        for s in 0..net.n {
            for d in bits(loaded[s]) {
                let least = sim.count_supports(s, d);
                if least == 0 && !f.has(Fault::NoDeletionAtLoading) {
                    sim.delete(usize::from(net.owner[s]), s, d);
                }
            }
        }
        if f.has(Fault::AllAtLoading) {
            sim.treat_all();
        }
        sim
    }

    /// Counts a label's supports against each tied variable; the least count.
    fn count_supports(&mut self, s: usize, d: usize) -> u32 {
        let net = self.net;
        let label = R::VALUES * s + d;
        let mut least = u32::MAX;
        for t in bits(net.tied[s]) {
            let mut row = net.row(label, t);
            if self.f.has(Fault::CountAfterDeletions) {
                row &= self.domains[t];
            }
            let count = self.count(row);
            self.counters[label][t] = count as u8;
            least = least.min(count);
        }
        least
    }

    fn count(&self, row: u32) -> u32 {
        if self.f.has(Fault::CountsLowHalf) {
            return (row & LOW_HALF).count_ones();
        }
        if self.f.has(Fault::CountsIn5Bits) {
            return row.count_ones() % 32;
        }
        row.count_ones()
    }

    /// Treats all that any worker has, as no sound variant does.
    fn treat_all(&mut self) {
        let p = self.net.p;
        let mut done = [0; 9];
        while let Some(k) = (1..=p).find(|&k| done[k] < self.work[k].len()) {
            let gone = self.work[k][done[k]];
            done[k] += 1;
            for other in 1..=p {
                self.take_off(other, gone);
            }
        }
    }

    fn delete(&mut self, k: usize, s: usize, d: usize) {
        self.domains[s] &= !(1 << d);
        let label = self.named(s, d);
        if !self.f.has(Fault::OwnDeletionUntreated) {
            self.work[k].push_back(label);
        }
        self.out[k].push(label);
    }

    /// The number of a label in the lists of workers.
    fn named(&self, s: usize, d: usize) -> u16 {
        if self.f.has(Fault::Labels16Apart) {
            return (R::VALUES * ((s + d / HALF) % self.net.n) + d % HALF) as u16;
        }
        (R::VALUES * s + d) as u16
    }

    fn take_off(&mut self, k: usize, gone: u16) {
        let net = self.net;
        let (s, row) = (usize::from(gone) / R::VALUES, &net.rows[usize::from(gone)]);
        let first = self.out[k].len();
        for t in bits(net.tied[s] & net.own[k]) {
            let mut mask: u32 = row[t].into();
            if !self.f.has(Fault::UnlistedLoses) {
                mask &= self.domains[t];
            }
            if self.f.has(Fault::TreatsLowHalf) {
                mask &= LOW_HALF;
            }
            for e in bits(mask) {
                let counter = &mut self.counters[R::VALUES * t + e][s];
                // Only a wrong variant can go below 0.
                *counter = counter.wrapping_sub(1);
                let lowest = if self.f.has(Fault::DeletedAtOne) { 1 } else { 0 };
                if *counter == lowest {
                    self.delete(k, t, e);
                }
            }
        }
        if self.f.has(Fault::Descending) || self.f.has(Fault::HighHalfFirst) {
            self.reorder(k, first);
        }
    }

    /// Puts the labels that a treat added, from `first` on, in a wrong order.
    fn reorder(&mut self, k: usize, first: usize) {
        let added = &mut self.out[k][first..];
        if self.f.has(Fault::Descending) {
            added.reverse();
        } else {
            added.sort_by_key(|&label| {
                let (s, d) = (usize::from(label) / R::VALUES, usize::from(label) % R::VALUES);
                (s, d < HALF)
            });
        }
        let from = self.work[k].len() - added.len();
        self.work[k].make_contiguous()[from..].copy_from_slice(added);
    }

    /// Plays a turn; true when it did something.
    #[inline]
    fn play(&mut self, actor: usize, action: usize) -> bool {
        if self.closed && !self.f.has(Fault::PollsWhenClosed) {
            return false;
        }
        if self.f.has(Fault::ControllerSends) && actor == 0 && action == 10
            || self.f.has(Fault::WorkerPolls) && actor > 0 && action == 12
        {
            return false;
        }
        if actor == 0 {
            return if action == 12 { self.poll() } else { self.read_controller(action) };
        }
        match action {
            9 => {
                let oldest = if self.f.has(Fault::NewestFirst) {
                    self.work[actor].pop_back()
                } else {
                    self.work[actor].pop_front()
                };
                match oldest {
                    Some(gone) => {
                        if !self.f.has(Fault::AllAtLoading) {
                            self.take_off(actor, gone);
                        }
                        true
                    }
                    None => false,
                }
            }
            10 => self.send(actor),
            11 => self.answer(actor),
            _ => self.read(actor, action),
        }
    }

    fn send(&mut self, k: usize) -> bool {
        if self.out[k].is_empty() && !self.f.has(Fault::EmptySend) {
            return false;
        }
        let message = Message::List(self.sent.len() as u16);
        self.lists_sent += 1;
        let mut labels = std::mem::take(&mut self.out[k]);
        if self.f.has(Fault::SendsOne) {
            self.out[k] = labels.split_off(1);
        }
        self.sent.push(labels);
        for to in 0..=self.net.p {
            if to != k && !(self.f.has(Fault::ControllerNotSent) && to == 0) {
                self.channels[k][to].push_back(message);
                if self.f.has(Fault::SendsCountedEach) && to != 0 {
                    self.lists_sent += 1;
                }
            }
        }
        if !self.f.has(Fault::SenderUncounted) {
            self.list_counters[k] += 1;
        }
        true
    }

    fn read(&mut self, k: usize, from: usize) -> bool {
        match self.channels[from][k].pop_front() {
            None => false,
            Some(Message::List(index)) => {
                let labels = &self.sent[usize::from(index)];
                if self.f.has(Fault::ReadGoesFirst) {
                    for &label in labels.iter().rev() {
                        self.work[k].push_front(label);
                    }
                } else {
                    self.work[k].extend(labels.iter().copied());
                }
                if self.f.has(Fault::CountsLabels) {
                    self.list_counters[k] += labels.len() as u32;
                } else {
                    self.list_counters[k] += 1;
                }
                true
            }
            Some(Message::Poll { timestamp, wanted }) => {
                if !(self.f.has(Fault::FirstPollKept) && self.held[k].is_some()) {
                    self.held[k] = Some((timestamp, wanted));
                }
                true
            }
            Some(Message::Reply { .. }) => false,
        }
    }

    fn answer(&mut self, k: usize) -> bool {
        let Some((timestamp, wanted)) = self.held[k] else {
            return false;
        };
        let f = self.f;
        let ready = (self.work[k].is_empty() || f.has(Fault::AnswerWithWork))
            && (self.out[k].is_empty() || f.has(Fault::AnswerWithOut))
            && (self.list_counters[k] == wanted
                || f.has(Fault::AnswerAnyCount)
                || f.has(Fault::AnswerMoreLists) && self.list_counters[k] > wanted);
        if !ready {
            if f.has(Fault::UnreadyDropsPoll) {
                self.held[k] = None;
                return true;
            }
            return f.has(Fault::UnreadyCounts);
        }
        if !f.has(Fault::AnswersAgain) {
            self.held[k] = None;
        }
        let timestamp = if f.has(Fault::ReplyCarriesWanted) { wanted } else { timestamp };
        self.channels[k][0].push_back(Message::Reply { timestamp });
        true
    }

    fn poll(&mut self) -> bool {
        if self.f.has(Fault::IdlePollCounted) {
            self.polls_sent += 1;
        }
        if self.open && !self.f.has(Fault::PollWhenOpen) {
            return false;
        }
        self.open = true;
        self.timestamp += 1;
        if !self.f.has(Fault::MarksKept) {
            self.marks = 0;
        }
        let wanted = if self.f.has(Fault::WantedIsSent) {
            self.lists_sent as u32
        } else {
            self.list_counters[0]
        };
        for to in 1..=self.net.p {
            self.channels[0][to].push_back(Message::Poll { timestamp: self.timestamp, wanted });
        }
        if !self.f.has(Fault::IdlePollCounted) {
            self.polls_sent += if self.f.has(Fault::PollsCountedEach) { self.net.p } else { 1 };
        }
        true
    }

    fn read_controller(&mut self, from: usize) -> bool {
        match self.channels[from][0].pop_front() {
            None => false,
            Some(Message::List(_)) => {
                self.list_counters[0] += 1;
                if !self.f.has(Fault::ListLeavesPoll) {
                    self.open = false;
                }
                true
            }
            Some(Message::Reply { timestamp }) => {
                let right = timestamp == self.timestamp || self.f.has(Fault::EarlierReply);
                if right && (self.open || self.f.has(Fault::LateReply)) {
                    self.marks |= 1 << from;
                    let marked = self.marks.count_ones() as usize;
                    let less = self.f.has(Fault::OneMarkLess) && self.net.p > 1;
                    self.closed |= marked >= self.net.p - usize::from(less);
                    if self.f.has(Fault::PollsWhenClosed) && self.closed {
                        self.open = false;
                    }
                } else if self.f.has(Fault::DroppedReplyIdle) {
                    return false;
                }
                true
            }
            Some(Message::Poll { .. }) => false,
        }
    }

    /// Closing as soon as every worker is idle.
    fn close_if_idle(&mut self) {
        self.closed |= (1..=self.net.p).all(|k| self.work[k].is_empty() && self.out[k].is_empty());
    }

    #[inline]
    fn turn(&mut self, actor: usize, action: usize) {
        let done = self.play(actor, action);
        self.changed += usize::from(done || self.f.has(Fault::EveryTurnCounts));
        if self.f.has(Fault::ClosesWhenIdle) && actor == 0 {
            self.close_if_idle();
        }
    }

    fn round(&mut self) {
        let p = self.net.p;
        for k in 1..=p {
            if self.f.has(Fault::RoundTreatsFirst) {
                self.turn(k, 9);
            }
            for place in 0..=p {
                let down = self.f.has(Fault::RoundReadsDown) && place > 0;
                let from = if down { p + 1 - place } else { place };
                if from != k {
                    self.turn(k, from);
                }
            }
            if !self.f.has(Fault::RoundTreatsFirst) {
                self.turn(k, 9);
            }
            self.turn(k, 10);
            self.turn(k, 11);
        }
        if self.f.has(Fault::RoundPollsFirst) {
            self.turn(0, 12);
        }
        for from in 1..=p {
            self.turn(0, from);
        }
        if !self.f.has(Fault::RoundPollsFirst) {
            self.turn(0, 12);
        }
    }

    /// How many of so many work cells are set to 0.
    fn cleared(&self, lent: usize) -> usize {
        let f = self.f;
        if f.has(Fault::ClearsOneLess) {
            WORK - 1
        } else if f.has(Fault::ClearsOneMore) {
            lent.min(WORK + 1)
        } else if f.has(Fault::ClearsAll) {
            lent
        } else if f.has(Fault::ClearsFormer) {
            FORMER_WORK
        } else if f.has(Fault::FormerWork) {
            lent.min(WORK)
        } else {
            WORK
        }
    }

    /// The lowest variable with an empty list, from 1; 0 if none.
    fn lowest_empty(&self) -> usize {
        let f = self.f;
        let is_empty = |&list: &u32| {
            list == 0
                || f.has(Fault::EmptyByLowHalf) && list & LOW_HALF == 0
                || f.has(Fault::EmptyByHighHalf) && R::CELLS == 2 && list & !LOW_HALF == 0
        };
        self.domains[..self.net.n].iter().position(is_empty).map_or(0, |s| s + 1)
    }

    fn deliver(&self, work: &mut [u16], lists: &mut [u16], clear: bool) -> [usize; 5] {
        let f = self.f;
        if clear {
            let cleared = self.cleared(work.len());
            work[..cleared].fill(0);
        }
        let written = cells::put(f, self.net, &self.domains, lists);
        if f.has(Fault::WritesAllLists) {
            lists[written..LISTS].fill(0);
        }
        let empty = self.lowest_empty();
        let status = match (self.closed, empty) {
            (false, _) => 0,
            (true, 0) => 1,
            (true, _) if f.has(Fault::NeverBare) => 1,
            (true, _) => 2,
        };
        let shown = if f.has(Fault::EmptyOnlyWhenClosed) && !self.closed { 0 } else { empty };
        [status, self.changed, self.lists_sent, self.polls_sent, shown]
    }
}

/// How many list cells a call needs; `by_version` in the variant that goes by
/// the plan's.
fn lists_needed<F: Faults>(f: F, plan: &[u8], by_version: Fault) -> usize {
    if f.has(by_version) && plan.first() != Some(&u32::VERSION) {
        return FORMER_LISTS;
    }
    LISTS
}

fn buffers<F: Faults>(f: F, plan: &[u8], work: &[u16], lists: &[u16]) -> Result<(), Declined> {
    let short_lists = lists.len() < lists_needed(f, plan, Fault::ListsByVersion);
    if f.has(Fault::ListsBeforeWork) && short_lists {
        return Err((10, 0));
    }
    if work.len() < if f.has(Fault::FormerWork) { FORMER_WORK } else { WORK } {
        return Err((9, 0));
    }
    if short_lists {
        return Err((10, 0));
    }
    Ok(())
}

fn allowed<F: Faults>(f: F, p: usize, actor: usize, action: usize) -> bool {
    if actor == 0 {
        return (1..=p).contains(&action)
            || action == 12
            || f.has(Fault::ControllerSends) && action == 10;
    }
    if actor > p {
        return false;
    }
    action <= p && (action != actor || f.has(Fault::ReadsItself))
        || (9..=11).contains(&action)
        || f.has(Fault::WorkerPolls) && action == 12
}

/// Declines the first turn that is not allowed. Not inlined, as `tie` is not.
#[inline(never)]
fn check_turns<F: Faults>(f: F, p: usize, turns: &[u8]) -> Result<(), Declined> {
    for (number, turn) in turns.chunks_exact(2).enumerate() {
        if !allowed(f, p, usize::from(turn[0]), usize::from(turn[1])) {
            return Err((12, if f.has(Fault::TurnPlaceInBytes) { 2 * number } else { number }));
        }
    }
    Ok(())
}

pub fn check_plan<F: Faults>(f: F, plan: &[u8]) -> Result<[usize; 4], Declined> {
    Ok(decode(f, plan)?.numbers())
}

/// The turn run; `clear` sets the work cells to 0 as the document asks.
pub fn run_turns<F: Faults>(
    f: F,
    plan: &[u8],
    turns: &[u8],
    work: &mut [u16],
    lists: &mut [u16],
    clear: bool,
) -> Result<[usize; 5], Declined> {
    buffers(f, plan, work, lists)?;
    let most = if f.has(Fault::LongestRefused) { 65_534 } else { 65_536 };
    let wrong_length = turns.len() % 2 != 0 || turns.len() > most;
    if wrong_length && !f.has(Fault::PlanBeforeLength) {
        return Err((11, 0));
    }
    let decoded = decode(f, plan);
    if f.has(Fault::TurnsBeforePlan) && decoded.is_err() && turns.first().is_some_and(|&k| k > 8) {
        return Err((12, 0));
    }
    if f.has(Fault::DeclineClears) && decoded.is_err() {
        work[..WORK].fill(0);
    }
    let plan = decoded?;
    if wrong_length {
        return Err((11, 0));
    }
    let checked = check_turns(f, plan.workers(), turns);
    if f.has(Fault::BadTurnLeavesLists) && checked.is_err() {
        lists[0] = 0;
    }
    checked?;
    Ok(match &plan {
        Plan::One(net) => play_turns(f, net, turns).deliver(work, lists, clear),
        Plan::Two(net) => play_turns(f, net, turns).deliver(work, lists, clear),
    })
}

/// The round run; `clear` as above.
pub fn run_round<F: Faults>(
    f: F,
    plan: &[u8],
    work: &mut [u16],
    lists: &mut [u16],
    clear: bool,
) -> Result<[usize; 5], Declined> {
    buffers(f, plan, work, lists)?;
    Ok(match &decode(f, plan)? {
        Plan::One(net) => play_rounds(f, net).deliver(work, lists, clear),
        Plan::Two(net) => play_rounds(f, net).deliver(work, lists, clear),
    })
}

fn play_turns<'a, F: Faults, R: Row>(f: F, net: &'a Net<R>, turns: &[u8]) -> Sim<'a, F, R> {
    let mut sim = Sim::load(f, net);
    for turn in turns.chunks_exact(2) {
        sim.turn(usize::from(turn[0]), usize::from(turn[1]));
        if f.has(Fault::FirstTurnOnly) {
            break;
        }
    }
    sim
}

fn play_rounds<F: Faults, R: Row>(f: F, net: &Net<R>) -> Sim<'_, F, R> {
    let mut sim = Sim::load(f, net);
    let mut rounds = 0;
    while !sim.closed {
        sim.round();
        rounds += 1;
        // Only a wrong variant can need more rounds than this.
        if rounds > 20_000 {
            break;
        }
    }
    sim
}
