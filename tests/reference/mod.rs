// A plain implementation of the scope document and of the changes asked for
// since, written from their text alone, in the simplest way that can be read
// next to it: channels are queues of messages, states are compared as values, the
// largest lists come from deleting unsupported labels until nothing changes.

pub mod largest;
pub mod lists;
pub mod plan;
pub mod run;
pub mod scope;
pub mod state;
pub mod sweep;
pub mod trace;
pub mod version;
pub mod worked;

/// Work cells a run needs and leaves at 0.
pub const WORK_CELLS: usize = 30_720;
/// List cells a run needs, and each of the two buffers of the sweeps.
pub const LIST_CELLS: usize = 64;
/// Longest turn list in bytes.
pub const TURN_BYTES: usize = 65_536;

/// A declined call: the number of the reason and its place.
#[derive(Clone, Copy, Debug, PartialEq, Eq)]
pub struct Decline {
    pub number: usize,
    pub place: usize,
}

pub fn decline<T>(number: usize, place: usize) -> Result<T, Decline> {
    Err(Decline { number, place })
}
