//! What a call gives that is not declined.

use crate::decline::accepted;
use crate::library::{CheckOut, LastSweepOut, RunOut};
use crate::Decline;

/// What a plan holds.
#[derive(Clone, Copy, Debug, PartialEq, Eq)]
pub struct Counts {
    /// Kitchens, 1 to 8.
    pub kitchens: usize,
    /// Slots, 1 to 32.
    pub slots: usize,
    /// Rules, 0 to 128.
    pub rules: usize,
    /// Dishes in all slots together, 0 to 512.
    pub dishes: usize,
}

impl Counts {
    pub(crate) fn new([number, second, slots, rules, dishes]: CheckOut) -> Result<Self, Decline> {
        let kitchens = accepted(number, second)?;
        Ok(Counts { kitchens, slots, rules, dishes })
    }
}

/// Where a run ends.
///
/// What the lists of a run are good for hangs on it, so a status that a later version adds is meant to stop the
/// compiler at each `match`.
#[derive(Clone, Copy, Debug, PartialEq, Eq)]
pub enum Status {
    /// The plan is not closed yet: its lists may have dishes that are still to be struck.
    Open,
    /// Closed, and every slot has a dish left.
    Closed,
    /// Closed, and some slot's list is empty.
    Bare,
    /// A number that no library of this version gives: do not take the plan for closed.
    Unknown(usize),
}

impl Status {
    pub(crate) fn new(number: usize) -> Self {
        match number {
            0 => Status::Open,
            1 => Status::Closed,
            2 => Status::Bare,
            _ => Status::Unknown(number),
        }
    }
}

/// The report of a run.
#[derive(Clone, Copy, Debug, PartialEq, Eq)]
pub struct Report {
    /// Where the run ended.
    pub status: Status,
    /// Turns that changed something.
    pub changing_turns: usize,
    /// List messages sent, each send once.
    pub lists_sent: usize,
    /// Polls sent, each poll turn once.
    pub polls_sent: usize,
    /// The lowest slot, from 1, with an empty list, whatever the status is.
    pub empty_slot: Option<usize>,
}

impl Report {
    pub(crate) fn new(
        [number, second, changing_turns, lists_sent, polls_sent, empty]: RunOut,
    ) -> Result<Self, Decline> {
        let status = Status::new(accepted(number, second)?);
        let empty_slot = Some(empty).filter(|&slot| slot != 0);
        Ok(Report { status, changing_turns, lists_sent, polls_sent, empty_slot })
    }
}

/// The part of two buffers that the library tells. Empty for numbers that no library of this version gives, so that they
/// cannot stop a caller's process.
pub(crate) fn part<'a>(first: &'a [u16], second: &'a [u16], [_, buffer, cells]: LastSweepOut) -> &'a [u16] {
    let holds = match buffer {
        1 => first,
        2 => second,
        _ => &[],
    };
    holds.get(..cells).unwrap_or_default()
}
