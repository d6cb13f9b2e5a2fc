//! Why a call is declined.

use crate::{Section, Turn, LIST_CELLS, TURN_BYTES, WORK_CELLS};
use std::error::Error;
use std::fmt;

/// Why a call was declined, with the place that goes with it. A declined call changed no lent cell.
///
/// There is a variant for each number, with the name that its constant has in `include/tinshrew.h`. Where several
/// apply, `docs/FORMAT.md` says which is given. Later versions add declines, so a `match` needs an arm for the rest.
///
/// Printed, a decline is a line for a log. With the plan or the turn list at hand it tells what it is about:
///
/// ```
/// use tinshrew::{check_plan, Decline, Section};
///
/// let plan = [
///     1,             // version
///     0, 3, 1, 2, 0, // head: 1 kitchen, 2 slots, no rule
///     0, 2, 1, 0,    // slot 1, kitchen 1: no dish
///     0, 2, 2, 0,    // slot 2, kitchen 2: no dish
/// ];
/// let decline = check_plan(&plan).unwrap_err();
/// assert_eq!(decline, Decline::BadNumber { section_start: 10 });
/// assert_eq!(decline.section(&plan), Some(Section::Slot(2)));
/// assert_eq!(
///     decline.to_string(),
///     "declined 5: kitchen or slot number out of range, or slots of a rule not ascending, in the section at byte 10"
/// );
/// ```
#[derive(Clone, Copy, Debug, PartialEq, Eq)]
#[non_exhaustive]
pub enum Decline {
    /// 1: the plan is empty, or a section or its length is cut off.
    Truncated {
        /// Byte at which the section starts, or would; 0 for an empty plan.
        section_start: usize,
    },
    /// 2: the version byte is neither 1 nor 2.
    BadVersion,
    /// 3: a section's length is not the one that its content calls for.
    BadLength {
        /// Byte at which the section starts.
        section_start: usize,
    },
    /// 4: the number of kitchens, of slots, of rules, of a slot's dishes or of a set rule's further slots is out of
    /// range; or there are more than 512 dishes with this slot's, or more than 128 different pairs of slots with this
    /// rule's.
    BadCount {
        /// Byte at which the section starts.
        section_start: usize,
    },
    /// 5: the number of a kitchen or of a slot is out of range, or a rule's slots are not strictly ascending.
    BadNumber {
        /// Byte at which the section starts.
        section_start: usize,
    },
    /// 6: a code stands twice in a slot.
    RepeatedCode {
        /// Byte at which the section starts.
        section_start: usize,
    },
    /// 7: a rule's kind is above 1, in version 2 above 2, or its table has a bit at or past the second slot's count of
    /// dishes.
    BadRule {
        /// Byte at which the section starts.
        section_start: usize,
    },
    /// 8: there are bytes after the last section.
    TrailingBytes {
        /// The first such byte.
        byte: usize,
    },
    /// 9: there are fewer than [`WORK_CELLS`] work cells.
    ShortWork,
    /// 10: a list buffer has fewer than [`LIST_CELLS`] cells.
    ShortLists,
    /// 11: the turn list has an odd number of bytes, or more than [`TURN_BYTES`].
    BadTurnList,
    /// 12: a turn is not allowed.
    BadTurn {
        /// Number of the first such turn, from 0.
        turn: usize,
    },
    /// A number, or a place with it, that no library of this version gives.
    Unknown {
        /// The number, as the library gives it.
        number: usize,
        /// The place, as the library gives it.
        place: usize,
    },
}

impl Decline {
    /// Every pair is taken, so that no number of the library can stop a caller's process.
    pub(crate) fn new(number: usize, place: usize) -> Self {
        match (number, place) {
            (1, section_start) => Decline::Truncated { section_start },
            (2, 0) => Decline::BadVersion,
            (3, section_start) => Decline::BadLength { section_start },
            (4, section_start) => Decline::BadCount { section_start },
            (5, section_start) => Decline::BadNumber { section_start },
            (6, section_start) => Decline::RepeatedCode { section_start },
            (7, section_start) => Decline::BadRule { section_start },
            (8, byte) => Decline::TrailingBytes { byte },
            (9, 0) => Decline::ShortWork,
            (10, 0) => Decline::ShortLists,
            (11, 0) => Decline::BadTurnList,
            (12, turn) => Decline::BadTurn { turn },
            _ => Decline::Unknown { number, place },
        }
    }

    /// The decline's number, as the C interface gives it.
    pub fn number(self) -> usize {
        match self {
            Decline::Truncated { .. } => 1,
            Decline::BadVersion => 2,
            Decline::BadLength { .. } => 3,
            Decline::BadCount { .. } => 4,
            Decline::BadNumber { .. } => 5,
            Decline::RepeatedCode { .. } => 6,
            Decline::BadRule { .. } => 7,
            Decline::TrailingBytes { .. } => 8,
            Decline::ShortWork => 9,
            Decline::ShortLists => 10,
            Decline::BadTurnList => 11,
            Decline::BadTurn { .. } => 12,
            Decline::Unknown { number, .. } => number,
        }
    }

    /// The decline's place, as the C interface gives it: a byte of the plan, the number of a turn, or 0.
    pub fn place(self) -> usize {
        match self {
            Decline::TrailingBytes { byte } => byte,
            Decline::BadTurn { turn } => turn,
            Decline::Unknown { place, .. } => place,
            _ => self.section_start().unwrap_or(0),
        }
    }

    /// Which section of the declined plan it is about. None if it is about no section, or if no section of this plan
    /// starts at its place.
    pub fn section(self, plan: &[u8]) -> Option<Section> {
        Section::starting_at(self.section_start()?, plan)
    }

    /// The byte at which the section starts that it is about.
    fn section_start(self) -> Option<usize> {
        match self {
            Decline::Truncated { section_start }
            | Decline::BadLength { section_start }
            | Decline::BadCount { section_start }
            | Decline::BadNumber { section_start }
            | Decline::RepeatedCode { section_start }
            | Decline::BadRule { section_start } => Some(section_start),
            _ => None,
        }
    }

    /// Which turn of the declined list is not allowed. None if it is about no turn, or if this list has no such turn.
    pub fn turn(self, turns: &[u8]) -> Option<Turn> {
        match self {
            Decline::BadTurn { turn } => Turn::numbered(turn, turns),
            _ => None,
        }
    }
}

impl Error for Decline {}

impl fmt::Display for Decline {
    fn fmt(&self, f: &mut fmt::Formatter<'_>) -> fmt::Result {
        write!(f, "declined {}: ", self.number())?;
        match *self {
            Decline::Truncated { section_start: 0 } => write!(f, "plan is empty"),
            Decline::Truncated { section_start } => {
                write!(f, "plan ends before the section at byte {section_start} is complete")
            }
            Decline::BadVersion => write!(f, "version byte is neither 1 nor 2, at byte 0"),
            Decline::BadLength { section_start } => {
                in_section(f, section_start, "length is not the one that the content calls for")
            }
            Decline::BadCount { section_start } => in_section(
                f,
                section_start,
                "number of kitchens, slots, rules, dishes, further slots or pairs of slots out of range",
            ),
            Decline::BadNumber { section_start } => {
                in_section(f, section_start, "kitchen or slot number out of range, or slots of a rule not ascending")
            }
            Decline::RepeatedCode { section_start } => in_section(f, section_start, "a code stands twice in a slot"),
            Decline::BadRule { section_start } => in_section(
                f,
                section_start,
                "kind not of the plan's version, or a table bit at or past the second slot's count of dishes",
            ),
            Decline::TrailingBytes { byte } => write!(f, "bytes after the last section, from byte {byte} on"),
            Decline::ShortWork => write!(f, "fewer than {WORK_CELLS} work cells"),
            Decline::ShortLists => write!(f, "fewer than {LIST_CELLS} cells in a list buffer"),
            Decline::BadTurnList => write!(f, "turn list of odd length or over {TURN_BYTES} bytes"),
            Decline::BadTurn { turn } => write!(f, "turn {turn}, counted from 0, is not allowed"),
            Decline::Unknown { place, .. } => write!(f, "not of this version, at place {place}"),
        }
    }
}

fn in_section(f: &mut fmt::Formatter<'_>, start: usize, what: &str) -> fmt::Result {
    write!(f, "{what}, in the section at byte {start}")
}

/// The first two numbers of an answer: 0 and a number that the call gives, or a decline and its place.
pub(crate) fn accepted(number: usize, second: usize) -> Result<usize, Decline> {
    match number {
        0 => Ok(second),
        _ => Err(Decline::new(number, second)),
    }
}
