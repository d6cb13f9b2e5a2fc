//! Plans of version 2: up to 32 dishes in a slot, and two list cells for each, the higher half first.

use super::*;

/// P as a plan of version 2: its table has rows of 32 bits.
const P2: &str = "02 0003020302 000A 0102 000B012C 000C0384 000A 0202 001501F4 00160320 \
                  000A 0202 001F0064 0020FFFF 0005 010201 04B0 000B 010300 00000001 00000002";

/// The section of a slot of kitchen 1 with dishes 1, 2, .. up to a count.
fn slot(count: u8) -> Vec<u8> {
    let mut section = vec![0, 2 + 4 * count, 1, count];
    for code in 1..=count {
        section.extend([0, code, 0, 0]);
    }
    section
}

/// A plan of kitchen 1 and of two slots, with a table over them.
fn two_slots(first: u8, second: u8, rows: &[u32]) -> Vec<u8> {
    let mut plan = hex("02 0003 010201");
    plan.extend(slot(first));
    plan.extend(slot(second));
    plan.extend([0, 3 + 4 * first, 1, 2, 0]);
    plan.extend(rows.iter().flat_map(|row| row.to_be_bytes()));
    plan
}

/// A plan of kitchen 1 and of slots with so many dishes each, without rules.
fn without_rules(counts: &[u8]) -> Vec<u8> {
    let mut plan = hex("02 0003 01");
    plan.extend([counts.len() as u8, 0]);
    plan.extend(counts.iter().flat_map(|&count| slot(count)));
    plan
}

#[test]
fn p_in_version_2() {
    let counts = Counts { kitchens: 2, slots: 3, rules: 2, dishes: 6 };
    assert_eq!(check_plan(&hex(P2)), Ok(counts));
    ends_with(&hex(P2), 3, &[0, 1, 0, 3, 0, 1]);
}

#[test]
fn p_in_version_2_with_t() {
    let mut b = Buffers::ample();
    let report = Report { status: Status::Closed, changing_turns: 17, lists_sent: 2, polls_sent: 1, empty_slot: None };
    assert_eq!(b.turns(&hex(P2), &hex(T)), Ok(report));
    assert_eq!(b.cells(6), [0, 1, 0, 3, 0, 1]);
}

#[test]
fn p_in_version_2_with_no_turns() {
    let mut b = Buffers::ample();
    let report = Report { status: Status::Open, changing_turns: 0, lists_sent: 0, polls_sent: 0, empty_slot: None };
    assert_eq!(b.turns(&hex(P2), &[]), Ok(report));
    assert_eq!(b.cells(6), [0, 1, 0, 3, 0, 3]);
}

/// Of 32 dishes the table allows the first, the 17th and the last.
#[test]
fn dishes_of_both_halves() {
    let mut rows = [0; 32];
    for dish in [1, 17, 32] {
        rows[dish - 1] = 1;
    }
    ends_with(&two_slots(32, 1, &rows), 2, &[0x8001, 0x0001, 0, 1]);
    ends_with(&two_slots(1, 32, &[0x8001_0001]), 2, &[0, 1, 0x8001, 0x0001]);
}

/// Dish d of one slot may stand with dish d of the other, but for the 17th, which is thus struck from both.
#[test]
fn a_dish_of_the_higher_half_is_struck() {
    let mut rows: Vec<u32> = (0..32).map(|dish| 1 << dish).collect();
    rows[16] = 0;
    ends_with(&two_slots(32, 32, &rows), 2, &[0xFFFE, 0xFFFF, 0xFFFE, 0xFFFF]);
}

/// As many slots as there may be, on buffers as short as they can be: every list cell is written.
#[test]
fn all_list_cells() {
    let plan = without_rules(&[16; 32]);
    let cells = [0, 0xFFFF].repeat(32);
    let mut b = Buffers::new(30_720, 64);
    assert_eq!(b.round(&plan).map(|r| r.status), Ok(Status::Closed));
    assert_eq!(b.cells(64), cells);
    let mut s = SweepBuffers::new(64, 64);
    assert_eq!(s.sweeps(&plan), Ok(1));
    assert_eq!(s.cells(64), [&cells; 2]);
}

/// An empty list has two cells of 0, and is named by its slot.
#[test]
fn an_empty_list() {
    let plan = without_rules(&[17, 0]);
    let mut b = Buffers::ample();
    assert_eq!(b.round(&plan).map(|r| (r.status, r.empty_slot)), Ok((Status::Bare, Some(2))));
    assert_eq!(b.cells(4), [0x0001, 0xFFFF, 0, 0]);
}

#[test]
fn dishes_of_a_slot() {
    assert_eq!(check_plan(&without_rules(&[32])).map(|c| c.dishes), Ok(32));
    assert_eq!(check_plan(&without_rules(&[33])), Err(Decline::BadCount { section_start: 6 }));
    let mut version_1 = without_rules(&[17]);
    version_1[0] = 1;
    assert_eq!(check_plan(&version_1), Err(Decline::BadCount { section_start: 6 }));
}

/// The slot is named that passes the limit, also where its length is wrong. A section of 32 dishes has 132 bytes.
#[test]
fn dishes_together() {
    let full = without_rules(&[32; 16]);
    assert_eq!(check_plan(&full).map(|c| c.dishes), Ok(512));
    let mut one_more = without_rules(&[[32; 16].as_slice(), &[1, 0]].concat());
    for length in [6, 2] {
        one_more[2_119] = length;
        let decline = check_plan(&one_more).unwrap_err();
        assert_eq!(decline, Decline::BadCount { section_start: 6 + 16 * 132 });
        assert_eq!(decline.section(&one_more), Some(Section::Slot(17)));
    }
}
