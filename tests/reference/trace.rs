// What became of each deletion (strike): who deleted the label, whether a send
// carried it, who has read that message and who has treated it.

use std::collections::{BTreeMap, BTreeSet};

use super::state::{Event, Label};

#[derive(Clone, Debug, Default)]
pub struct Deletion {
    pub owner: usize,
    pub sent: bool,
    pub read_by: BTreeSet<usize>,
    pub treated_by: BTreeSet<usize>,
}

#[derive(Clone, Debug, Default)]
pub struct Trace {
    pub deletions: BTreeMap<Label, Deletion>,
    pub lists_sent: usize,
    pub polls_sent: usize,
    pub earlier_replies: usize,
    pub late_replies: usize,
    /// The first thing that cannot happen, should it happen.
    pub fault: Option<String>,
}

impl Trace {
    fn fail(&mut self, what: String) {
        self.fault.get_or_insert(what);
    }

    pub fn note(&mut self, event: Event) {
        match event {
            Event::Deleted { by, label } => {
                let deletion = Deletion { owner: by, ..Deletion::default() };
                if self.deletions.insert(label, deletion).is_some() {
                    self.fail(format!("{label:?} deleted twice"));
                }
            }
            Event::Sent { by, labels } => {
                self.lists_sent += 1;
                for &label in labels.iter() {
                    match self.deletions.get_mut(&label) {
                        Some(deletion) if deletion.owner == by && !deletion.sent => {
                            deletion.sent = true
                        }
                        _ => self.fail(format!("{label:?} sent wrongly by {by}")),
                    }
                }
            }
            Event::Read { by, labels } => {
                for &label in labels.iter() {
                    let right = self.deletions.get_mut(&label).is_some_and(|deletion| {
                        deletion.sent && by != deletion.owner && deletion.read_by.insert(by)
                    });
                    if !right {
                        self.fail(format!("{label:?} read wrongly by {by}"));
                    }
                }
            }
            Event::Treated { by, label } => {
                let right = self.deletions.get_mut(&label).is_some_and(|deletion| {
                    (by == deletion.owner || deletion.read_by.contains(&by))
                        && deletion.treated_by.insert(by)
                });
                if !right {
                    self.fail(format!("{label:?} treated wrongly by {by}"));
                }
            }
            Event::Polled => self.polls_sent += 1,
            Event::Dropped { earlier: true } => self.earlier_replies += 1,
            Event::Dropped { earlier: false } => self.late_replies += 1,
        }
    }

    /// A deletion that is still unsent, unread or untreated, if there is one.
    pub fn unfinished(&self, workers: usize) -> Option<(Label, &'static str)> {
        for (&label, deletion) in &self.deletions {
            if !deletion.sent {
                return Some((label, "unsent"));
            }
            let all_read = (0..=workers)
                .all(|actor| actor == deletion.owner || deletion.read_by.contains(&actor));
            if !all_read {
                return Some((label, "unread"));
            }
            if !(1..=workers).all(|worker| deletion.treated_by.contains(&worker)) {
                return Some((label, "untreated"));
            }
        }
        None
    }
}
