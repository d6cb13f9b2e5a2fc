//! What places point at, in plans and turn lists of any bytes: also in ones that are not those that were declined.

use super::*;
use Section::{Head, Rule, Slot};

fn section(plan: &[u8], section_start: usize) -> Option<Section> {
    Decline::BadLength { section_start }.section(plan)
}

/// The sections of a plan that start below byte 70,000, each with its start.
fn sections(plan: &[u8]) -> Vec<(usize, Section)> {
    (0..70_000).filter_map(|start| Some((start, section(plan, start)?))).collect()
}

#[test]
fn the_sections_of_p() {
    let starts = [(1, Head), (6, Slot(1)), (18, Slot(2)), (30, Slot(3)), (42, Rule(1)), (49, Rule(2))];
    assert_eq!(sections(&hex(P)), starts);
    assert_eq!(sections(&hex(&format!("{P} 0000"))), starts);
}

#[test]
fn each_decline_of_a_section_asks_the_plan() {
    for (number, found) in [(1, true), (2, false), (3, true), (4, true), (5, true), (6, true), (7, true), (8, false)] {
        assert_eq!(Decline::new(number, 18).section(&hex(P)), found.then_some(Slot(2)), "{number}");
    }
    for number in 9..=20 {
        assert_eq!(Decline::new(number, 18).section(&hex(P)), None, "{number}");
    }
}

#[test]
fn a_missing_section_starts_where_the_plan_ends() {
    assert_eq!(sections(&[]), []);
    assert_eq!(sections(&hex("01")), [(1, Head)]);
    assert_eq!(sections(&hex("01 0003 010200")), [(1, Head), (6, Slot(1))]);
    assert_eq!(sections(&hex("01 0003 010101 0002 0100")), [(1, Head), (6, Slot(1)), (10, Rule(1))]);
}

#[test]
fn no_section_starts_behind_one_that_is_cut_off() {
    assert_eq!(sections(&hex("01 00")), [(1, Head)]);
    assert_eq!(sections(&hex("01 0003 0202")), [(1, Head)]);
    assert_eq!(sections(&hex("01 0003 020200 00")), [(1, Head), (6, Slot(1))]);
    assert_eq!(sections(&hex("01 0003 020200 FFFF 00")), [(1, Head), (6, Slot(1))]);
}

#[test]
fn no_section_starts_behind_the_last_rule() {
    assert_eq!(sections(&hex("01 0003 010000 0000")), [(1, Head)]);
    assert_eq!(sections(&hex("01 0003 010100 0000 0000")), [(1, Head), (6, Slot(1))]);
    assert_eq!(sections(&hex("01 0003 010001 0000 0000")), [(1, Head), (6, Rule(1))]);
    // a head that is too short for its counts
    assert_eq!(sections(&hex("01 0000")), [(1, Head)]);
}

/// More slots and rules than a plan may have, and all of them empty: a start every two bytes.
#[test]
fn counts_out_of_range() {
    let mut plan = hex("01 0003 FFFFFF");
    plan.resize(2_000, 0);
    let found = sections(&plan);
    assert_eq!(found.len(), 1 + 255 + 255);
    assert_eq!([found[1], found[255]], [(6, Slot(1)), (514, Slot(255))]);
    assert_eq!([found[256], found[510]], [(516, Rule(1)), (1_024, Rule(255))]);
}

#[test]
fn the_longest_section() {
    let mut plan = hex("01 0003 010101 FFFF");
    plan.resize(8 + 65_535, 0xFF);
    assert_eq!(sections(&plan), [(1, Head), (6, Slot(1)), (65_543, Rule(1))]);
    plan.pop();
    assert_eq!(sections(&plan), [(1, Head), (6, Slot(1))]);
}

#[test]
fn no_section_starts_far_behind_a_plan() {
    assert_eq!(section(&hex(P), usize::MAX), None);
    assert_eq!(section(&[], usize::MAX), None);
    assert_eq!(section(&[0xFF; 100], usize::MAX), None);
}

#[test]
fn a_turn_is_read_off_its_list() {
    let turn = |number, turns: &str| Decline::BadTurn { turn: number }.turn(&hex(turns));
    assert_eq!(turn(0, "0109 020A"), Some(Turn { number: 0, actor: 1, deed: 9 }));
    assert_eq!(turn(1, "0109 020A"), Some(Turn { number: 1, actor: 2, deed: 10 }));
    assert_eq!(turn(2, "0109 020A"), None);
    assert_eq!(turn(0, ""), None);
    // half a turn
    assert_eq!(turn(1, "0109 02"), None);
    assert_eq!(turn(usize::MAX, "0109 020A"), None);
    // twice this number is 0 in a machine's numbers
    assert_eq!(turn(usize::MAX / 2 + 1, "0109 020A"), None);
    assert_eq!(Decline::TrailingBytes { byte: 0 }.turn(&hex("0109")), None);
}

#[test]
fn places_are_printed() {
    assert_eq!(Head.to_string(), "the head");
    assert_eq!(Slot(2).to_string(), "slot 2");
    assert_eq!(Rule(1).to_string(), "rule 1");
    assert_eq!(Turn { number: 3, actor: 1, deed: 9 }.to_string(), "turn 3, counted from 0: actor 1, deed 9");
}
