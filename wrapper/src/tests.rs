//! The plans that document 01 works by hand, and what the tests share.

use super::*;

mod declines;
mod header;
mod places;
mod sets;
mod sweeps;
mod version_2;

/// The plan P of `docs/FORMAT.md`, which has what each part of it means.
const P: &str = "01 0003020302 000A 0102 000B012C 000C0384 000A 0202 001501F4 00160320 \
                 000A 0202 001F0064 0020FFFF 0005 010201 04B0 0007 010300 0001 0002";
const T: &str = "0109 010A 0201 0209 0209 020A 0102 0109 0001 0002 000C 0100 0200 010B 020B 0001 0002";

fn hex(text: &str) -> Vec<u8> {
    let digits: Vec<u32> = text.chars().filter_map(|c| c.to_digit(16)).collect();
    digits.chunks(2).map(|pair| (pair[0] * 16 + pair[1]) as u8).collect()
}

/// What each cell holds before a call.
const HELD: u16 = 7;

struct Buffers {
    work: Vec<u16>,
    lists: Vec<u16>,
}

impl Buffers {
    fn new(work: usize, lists: usize) -> Self {
        Buffers { work: vec![HELD; work], lists: vec![HELD; lists] }
    }

    /// A cell more than a run needs.
    fn ample() -> Self {
        Self::new(WORK_CELLS + 1, LIST_CELLS + 1)
    }

    fn turns(&mut self, plan: &[u8], turns: &[u8]) -> Result<Report, Decline> {
        run_turns(plan, turns, &mut self.work, &mut self.lists)
    }

    fn round(&mut self, plan: &[u8]) -> Result<Report, Decline> {
        run_round(plan, &mut self.work, &mut self.lists)
    }

    /// So many list cells, those of the slots, once all other cells are seen to be as a run leaves them.
    fn cells(&self, count: usize) -> &[u16] {
        assert!(self.work[..WORK_CELLS].iter().all(|&c| c == 0));
        assert!(self.work[WORK_CELLS..].iter().all(|&c| c == HELD));
        assert!(self.lists[count..].iter().all(|&c| c == HELD));
        &self.lists[..count]
    }

    fn unchanged(&self) -> bool {
        self.work.iter().chain(&self.lists).all(|&c| c == HELD)
    }
}

/// The two list buffers of the sweeps.
struct SweepBuffers {
    first: Vec<u16>,
    second: Vec<u16>,
}

impl SweepBuffers {
    fn new(first: usize, second: usize) -> Self {
        SweepBuffers { first: vec![HELD; first], second: vec![HELD; second] }
    }

    /// A cell more than the sweeps need.
    fn ample() -> Self {
        Self::new(LIST_CELLS + 1, LIST_CELLS + 1)
    }

    fn sweeps(&mut self, plan: &[u8]) -> Result<usize, Decline> {
        run_sweeps(plan, &mut self.first, &mut self.second)
    }

    /// So many cells of both, those of the slots, once all later cells are seen to be as they were.
    fn cells(&self, count: usize) -> [&[u16]; 2] {
        [&self.first, &self.second].map(|buffer| {
            assert!(buffer[count..].iter().all(|&c| c == HELD));
            &buffer[..count]
        })
    }

    fn unchanged(&self) -> bool {
        self.first.iter().chain(&self.second).all(|&c| c == HELD)
    }
}

/// Rounds, and sweeps of which there are so many, end with these cells.
fn ends_with(plan: &[u8], sweeps: usize, cells: &[u16]) {
    let mut b = Buffers::ample();
    assert_eq!(b.round(plan).map(|r| r.status), Ok(Status::Closed));
    assert_eq!(b.cells(cells.len()), cells);
    let mut s = SweepBuffers::ample();
    assert_eq!(s.sweeps(plan), Ok(sweeps));
    assert_eq!(s.cells(cells.len()), [cells; 2]);
    assert_eq!(last_sweep(&s.first, &s.second, sweeps, cells.len()), cells);
}

#[test]
fn p_is_accepted() {
    let counts = Counts { kitchens: 2, slots: 3, rules: 2, dishes: 6 };
    assert_eq!(check_plan(&hex(P)), Ok(counts));
}

#[test]
fn p_with_t() {
    let mut b = Buffers::ample();
    let report = Report { status: Status::Closed, changing_turns: 17, lists_sent: 2, polls_sent: 1, empty_slot: None };
    assert_eq!(b.turns(&hex(P), &hex(T)), Ok(report));
    assert_eq!(b.cells(3), [1, 3, 1]);
}

#[test]
fn p_with_no_turns() {
    let mut b = Buffers::ample();
    let report = Report { status: Status::Open, changing_turns: 0, lists_sent: 0, polls_sent: 0, empty_slot: None };
    assert_eq!(b.turns(&hex(P), &[]), Ok(report));
    assert_eq!(b.cells(3), [1, 3, 3]);
}

#[test]
fn p_with_t_less_its_last_turn() {
    let mut b = Buffers::ample();
    let report = Report { status: Status::Open, changing_turns: 16, lists_sent: 2, polls_sent: 1, empty_slot: None };
    assert_eq!(b.turns(&hex(P), &hex(&T[..T.len() - 4])), Ok(report));
    assert_eq!(b.cells(3), [1, 3, 1]);
}

#[test]
fn a_slot_without_dishes_is_bare() {
    let mut b = Buffers::ample();
    let report = Report { status: Status::Bare, changing_turns: 4, lists_sent: 0, polls_sent: 1, empty_slot: Some(1) };
    assert_eq!(b.turns(&hex("01 0003 010100 0002 0100"), &hex("000C 0100 010B 0001")), Ok(report));
    assert_eq!(b.cells(1), [0]);
}

#[test]
fn rounds_close_p() {
    let mut b = Buffers::ample();
    assert_eq!(b.round(&hex(P)).map(|r| (r.status, r.empty_slot)), Ok((Status::Closed, None)));
    assert_eq!(b.cells(3), [1, 3, 1]);
}

/// Numbers that no library of this version gives are handed on.
#[test]
fn an_unknown_status_is_handed_on() {
    let report =
        Report { status: Status::Unknown(3), changing_turns: 4, lists_sent: 5, polls_sent: 6, empty_slot: Some(7) };
    assert_eq!(Report::new([0, 3, 4, 5, 6, 7]), Ok(report));
}
