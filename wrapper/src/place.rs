//! What the place of a decline points at.

use std::fmt;
use std::iter;

/// A section of a plan.
#[derive(Clone, Copy, Debug, PartialEq, Eq)]
pub enum Section {
    /// The head, with the numbers of kitchens, slots and rules.
    Head,
    /// A slot, numbered from 1 in the order of the plan.
    Slot(usize),
    /// A rule, numbered from 1 in the order of the plan.
    Rule(usize),
}

impl Section {
    /// The section that starts at a byte of a plan, whatever the bytes are. One that is missing starts where the plan
    /// ends; none starts behind a section that is cut off, or behind the last rule.
    pub(crate) fn starting_at(start: usize, plan: &[u8]) -> Option<Self> {
        // the head has the numbers of slots and of rules in these bytes
        let count = |byte| plan.get(byte).map_or(0, |&count| usize::from(count));
        let slots = (1..=count(4)).map(Section::Slot);
        let rules = (1..=count(5)).map(Section::Rule);
        // always a tail of the plan, so that no sum of lengths is ever made
        let mut rest = plan.get(1..)?;
        for section in iter::once(Section::Head).chain(slots).chain(rules) {
            if plan.len() - rest.len() == start {
                return Some(section);
            }
            let (length, behind) = rest.split_first_chunk()?;
            rest = behind.get(usize::from(u16::from_be_bytes(*length))..)?;
        }
        None
    }
}

impl fmt::Display for Section {
    fn fmt(&self, f: &mut fmt::Formatter<'_>) -> fmt::Result {
        match self {
            Section::Head => write!(f, "the head"),
            Section::Slot(number) => write!(f, "slot {number}"),
            Section::Rule(number) => write!(f, "rule {number}"),
        }
    }
}

/// A turn of a turn list.
#[derive(Clone, Copy, Debug, PartialEq, Eq)]
pub struct Turn {
    /// Its number in the list, from 0.
    pub number: usize,
    /// Its first byte: 0 for the desk, otherwise a kitchen's number, which may be one that the plan does not have.
    pub actor: u8,
    /// Its second byte: what the actor is to do.
    pub deed: u8,
}

impl Turn {
    /// The turn with a number, if the list has so many.
    pub(crate) fn numbered(number: usize, turns: &[u8]) -> Option<Self> {
        let turn = turns.chunks_exact(2).nth(number)?;
        Some(Turn { number, actor: turn[0], deed: turn[1] })
    }
}

impl fmt::Display for Turn {
    fn fmt(&self, f: &mut fmt::Formatter<'_>) -> fmt::Result {
        let Turn { number, actor, deed } = self;
        write!(f, "turn {number}, counted from 0: actor {actor}, deed {deed}")
    }
}
