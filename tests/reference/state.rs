// The state of a run, loading, and what each turn does to it.

use std::collections::VecDeque;
use std::rc::Rc;
use std::sync::OnceLock;

use super::plan::{Network, Plan};

/// One value of one variable: the variable from 1, the value from 0. Kept in
/// bytes, since states are copied and compared at each turn.
#[derive(Clone, Copy, Debug, PartialEq, Eq, PartialOrd, Ord)]
pub struct Label {
    variable: u8,
    value: u8,
}

impl Label {
    pub fn new(variable: usize, value: usize) -> Label {
        Label { variable: variable as u8, value: value as u8 }
    }

    pub fn variable(self) -> usize {
        usize::from(self.variable)
    }

    pub fn value(self) -> usize {
        usize::from(self.value)
    }

    /// Every label of a plan, variables and values ascending.
    fn all(plan: &Plan) -> Vec<Label> {
        let of_variable = |(variable, values): (usize, usize)| {
            (0..values).map(move |value| Label::new(variable, value))
        };
        (1..).zip(plan.counts()).flat_map(of_variable).collect()
    }
}

/// How many values of another variable support a label, of all that are loaded.
fn supports(plan: &Plan, network: &Network, label: Label, other: usize) -> usize {
    (0..plan.variables[other - 1].values.len())
        .filter(|&b| network.allowed(label.variable(), label.value(), other, b))
        .count()
}

#[derive(Clone, Copy, Debug, PartialEq, Eq)]
pub struct Poll {
    /// The poll's number.
    pub timestamp: usize,
    pub wanted: usize,
}

#[derive(Clone, Debug, PartialEq, Eq)]
pub enum Message {
    /// Shared between the channels; compared by its labels.
    List(Rc<[Label]>),
    Poll(Poll),
    Reply { timestamp: usize },
}

/// A kitchen.
#[derive(Clone, Debug, PartialEq, Eq)]
pub struct Worker {
    pub work: VecDeque<Label>,
    pub out: Vec<Label>,
    pub list_counter: usize,
    pub held: Option<Poll>,
}

/// The desk.
#[derive(Clone, Debug, PartialEq, Eq)]
pub struct Controller {
    pub list_counter: usize,
    pub timestamp: usize,
    pub open: bool,
    pub marks: Vec<bool>,
    pub closed: bool,
}

#[derive(Clone, Debug, PartialEq, Eq)]
pub struct State {
    /// By variable: how many labels those before it have. So labels are
    /// counted below; it stays as it is and is shared.
    starts: Rc<[usize]>,
    /// By label: still listed.
    listed: Vec<bool>,
    /// By label and tied variable: the count of supports; 0 where untied.
    counters: Vec<u8>,
    /// By worker, from 1; entry 0 is unused.
    pub workers: Vec<Worker>,
    pub controller: Controller,
    /// The mailboxes, by sender and receiver; copies of a state share each until one of them changes it.
    channels: Vec<Rc<VecDeque<Message>>>,
}

#[derive(Clone, Copy, Debug, PartialEq, Eq)]
pub enum Turn {
    /// Actor `by` (0 is the controller) reads its oldest message of `from`.
    Read { by: usize, from: usize },
    Treat { by: usize },
    Send { by: usize },
    Answer { by: usize },
    Poll,
}

/// What a turn (or loading) did, for the claims about deletions.
#[derive(Clone, Debug, PartialEq, Eq)]
pub enum Event {
    Deleted { by: usize, label: Label },
    Sent { by: usize, labels: Rc<[Label]> },
    Read { by: usize, labels: Rc<[Label]> },
    Treated { by: usize, label: Label },
    Polled,
    /// The controller dropped a reply: to an earlier poll, or to the current
    /// one after a list message ended it.
    Dropped { earlier: bool },
}

impl Turn {
    /// The turn that two bytes name, the actor and the action (deed), if it is
    /// allowed with `workers` workers.
    pub fn decode(workers: usize, actor: u8, action: u8) -> Option<Turn> {
        let by = usize::from(actor);
        let action = usize::from(action);
        if by == 0 {
            return match action {
                12 => Some(Turn::Poll),
                from if 1 <= from && from <= workers => Some(Turn::Read { by, from }),
                _ => None,
            };
        }
        if by > workers {
            return None;
        }
        match action {
            9 => Some(Turn::Treat { by }),
            10 => Some(Turn::Send { by }),
            11 => Some(Turn::Answer { by }),
            from if from <= workers && from != by => Some(Turn::Read { by, from }),
            _ => None,
        }
    }

    pub fn encode(self) -> [u8; 2] {
        match self {
            Turn::Read { by, from } => [by as u8, from as u8],
            Turn::Treat { by } => [by as u8, 9],
            Turn::Send { by } => [by as u8, 10],
            Turn::Answer { by } => [by as u8, 11],
            Turn::Poll => [0, 12],
        }
    }

    /// Every allowed turn: of all actors and actions, those that decode.
    pub fn all(workers: usize) -> &'static [Turn] {
        static ALL: OnceLock<Vec<Vec<Turn>>> = OnceLock::new();
        let all = ALL.get_or_init(|| {
            let of = |workers| {
                let pairs =
                    (0..=255).flat_map(|actor| (0..=255).map(move |action| (actor, action)));
                pairs.filter_map(|(actor, action)| Turn::decode(workers, actor, action)).collect()
            };
            (0..=8).map(of).collect()
        });
        &all[workers]
    }

    /// The turns of one round, in order.
    pub fn round(workers: usize) -> Vec<Turn> {
        let mut turns = Vec::new();
        for by in 1..=workers {
            for from in 0..=workers {
                if from != by {
                    turns.push(Turn::Read { by, from });
                }
            }
            turns.push(Turn::Treat { by });
            turns.push(Turn::Send { by });
            turns.push(Turn::Answer { by });
        }
        for from in 1..=workers {
            turns.push(Turn::Read { by: 0, from });
        }
        turns.push(Turn::Poll);
        turns
    }
}

impl State {
    fn at(&self, label: Label) -> usize {
        self.starts[label.variable() - 1] + label.value()
    }

    fn counter_at(&self, plan: &Plan, label: Label, other: usize) -> usize {
        self.at(label) * plan.variables.len() + other - 1
    }

    pub fn is_listed(&self, label: Label) -> bool {
        self.listed[self.at(label)]
    }

    pub fn channel(&self, from: usize, to: usize) -> &VecDeque<Message> {
        &self.channels[from * self.workers.len() + to]
    }

    fn channel_mut(&mut self, from: usize, to: usize) -> &mut VecDeque<Message> {
        let width = self.workers.len();
        Rc::make_mut(&mut self.channels[from * width + to])
    }

    /// The state before loading: nothing is listed, counted or sent.
    fn empty(plan: &Plan) -> State {
        let (labels, p) = (plan.labels(), plan.workers);
        let idle = Worker { work: VecDeque::new(), out: Vec::new(), list_counter: 0, held: None };
        let starts = plan.counts().scan(0, |next, count| {
            *next += count;
            Some(*next - count)
        });
        State {
            starts: starts.collect(),
            listed: vec![false; labels],
            counters: vec![0; labels * plan.variables.len()],
            workers: vec![idle; p + 1],
            controller: Controller {
                list_counter: 0,
                timestamp: 0,
                open: false,
                marks: vec![false; p + 1],
                closed: false,
            },
            channels: vec![Rc::new(VecDeque::new()); (p + 1) * (p + 1)],
        }
    }

    /// The state after loading.
    pub fn load(plan: &Plan, network: &Network, events: &mut Vec<Event>) -> State {
        let mut state = Self::empty(plan);
        let tied_to = |label: Label| {
            (1..=plan.variables.len()).filter(move |&other| network.tied(label.variable(), other))
        };
        for label in Label::all(plan) {
            let at = state.at(label);
            state.listed[at] = true;
            for other in tied_to(label) {
                let at = state.counter_at(plan, label, other);
                state.counters[at] = supports(plan, network, label, other) as u8;
            }
        }
        for label in Label::all(plan) {
            let count = |other| state.counters[state.counter_at(plan, label, other)];
            if tied_to(label).any(|other| count(other) == 0) {
                state.delete(plan, label, events);
            }
        }
        state
    }

    /// The owner deletes a label and puts it at the end of both its lists.
    fn delete(&mut self, plan: &Plan, label: Label, events: &mut Vec<Event>) {
        let by = plan.variables[label.variable() - 1].owner;
        let at = self.at(label);
        self.listed[at] = false;
        self.workers[by].work.push_back(label);
        self.workers[by].out.push(label);
        events.push(Event::Deleted { by, label });
    }

    /// Plays one allowed turn.
    pub fn play(&mut self, plan: &Plan, network: &Network, turn: Turn, events: &mut Vec<Event>) {
        if self.controller.closed {
            return;
        }
        match turn {
            Turn::Treat { by } => self.treat(plan, network, by, events),
            Turn::Send { by } => self.send(plan, by, events),
            Turn::Answer { by } => self.answer(by),
            Turn::Poll => self.poll(plan, events),
            Turn::Read { by: 0, from } => self.read_controller(plan, from, events),
            Turn::Read { by, from } => self.read_worker(by, from, events),
        }
    }

    fn treat(&mut self, plan: &Plan, network: &Network, by: usize, events: &mut Vec<Event>) {
        let Some(gone) = self.workers[by].work.pop_front() else {
            return;
        };
        events.push(Event::Treated { by, label: gone });
        for variable in 1..=plan.variables.len() {
            if plan.variables[variable - 1].owner != by {
                continue;
            }
            for value in 0..plan.variables[variable - 1].values.len() {
                let label = Label::new(variable, value);
                if !self.is_listed(label)
                    || !network.allowed(variable, value, gone.variable(), gone.value())
                {
                    continue;
                }
                let at = self.counter_at(plan, label, gone.variable());
                self.counters[at] -= 1;
                if self.counters[at] == 0 {
                    self.delete(plan, label, events);
                }
            }
        }
    }

    fn send(&mut self, plan: &Plan, by: usize, events: &mut Vec<Event>) {
        if self.workers[by].out.is_empty() {
            return;
        }
        let labels: Rc<[Label]> = std::mem::take(&mut self.workers[by].out).into();
        for to in 0..=plan.workers {
            if to != by {
                self.channel_mut(by, to).push_back(Message::List(labels.clone()));
            }
        }
        self.workers[by].list_counter += 1;
        events.push(Event::Sent { by, labels });
    }

    fn read_worker(&mut self, by: usize, from: usize, events: &mut Vec<Event>) {
        match self.channel_mut(from, by).pop_front() {
            None => {}
            Some(Message::List(labels)) => {
                self.workers[by].work.extend(labels.iter().copied());
                self.workers[by].list_counter += 1;
                events.push(Event::Read { by, labels });
            }
            Some(Message::Poll(poll)) => self.workers[by].held = Some(poll),
            Some(Message::Reply { .. }) => unreachable!("a reply goes to the controller"),
        }
    }

    fn answer(&mut self, by: usize) {
        let worker = &mut self.workers[by];
        let Some(poll) = worker.held else {
            return;
        };
        if worker.work.is_empty() && worker.out.is_empty() && worker.list_counter == poll.wanted {
            worker.held = None;
            self.channel_mut(by, 0).push_back(Message::Reply { timestamp: poll.timestamp });
        }
    }

    fn poll(&mut self, plan: &Plan, events: &mut Vec<Event>) {
        if self.controller.open {
            return;
        }
        self.controller.open = true;
        self.controller.timestamp += 1;
        self.controller.marks.fill(false);
        let poll = Poll {
            timestamp: self.controller.timestamp,
            wanted: self.controller.list_counter,
        };
        for to in 1..=plan.workers {
            self.channel_mut(0, to).push_back(Message::Poll(poll));
        }
        events.push(Event::Polled);
    }

    fn read_controller(&mut self, plan: &Plan, from: usize, events: &mut Vec<Event>) {
        match self.channel_mut(from, 0).pop_front() {
            None => {}
            Some(Message::List(labels)) => {
                self.controller.list_counter += 1;
                self.controller.open = false;
                events.push(Event::Read { by: 0, labels });
            }
            Some(Message::Reply { timestamp }) => {
                let controller = &mut self.controller;
                if !controller.open || timestamp != controller.timestamp {
                    events.push(Event::Dropped { earlier: timestamp != controller.timestamp });
                    return;
                }
                controller.marks[from] = true;
                if (1..=plan.workers).all(|worker| controller.marks[worker]) {
                    controller.closed = true;
                }
            }
            Some(Message::Poll(_)) => unreachable!("a poll goes to a worker"),
        }
    }

    /// Whether the turn has something to do. Written from the actions' own
    /// conditions, apart from the comparison of states; used to make turn
    /// lists that get somewhere.
    pub fn has_use(&self, turn: Turn) -> bool {
        !self.controller.closed
            && match turn {
                Turn::Read { by, from } => !self.channel(from, by).is_empty(),
                Turn::Treat { by } => !self.workers[by].work.is_empty(),
                Turn::Send { by } => !self.workers[by].out.is_empty(),
                Turn::Poll => !self.controller.open,
                Turn::Answer { by } => {
                    let worker = &self.workers[by];
                    worker.work.is_empty()
                        && worker.out.is_empty()
                        && worker.held.is_some_and(|poll| poll.wanted == worker.list_counter)
                }
            }
    }
}
