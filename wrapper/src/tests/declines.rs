//! Each decline as the library gives it, on P as it is damaged here. The sections of P start at bytes 1 (head), 6, 18
//! and 30 (slots), 42 and 49 (rules), and it has 58 bytes; `docs/FORMAT.md` has what each byte means.

use super::*;
use Section::{Head, Rule, Slot};

/// P with the bytes from `at` on written over.
fn damaged(at: usize, bytes: &str) -> Vec<u8> {
    let (mut plan, bytes) = (hex(P), hex(bytes));
    plan[at..at + bytes.len()].copy_from_slice(&bytes);
    plan
}

/// A decline with what it tells whatever the inputs are.
struct Told<'a> {
    decline: Decline,
    number: usize,
    place: usize,
    text: &'a str,
}

impl Told<'_> {
    fn tells(&self) {
        assert_eq!(self.decline.number(), self.number);
        assert_eq!(self.decline.place(), self.place);
        assert_eq!(self.decline.to_string(), self.text);
    }

    /// Of a plan that every call which takes one declines so.
    fn of_plan(&self, plan: &[u8], section: Option<Section>) {
        self.tells();
        assert_eq!(check_plan(plan), Err(self.decline));
        let mut b = Buffers::ample();
        assert_eq!(b.turns(plan, &hex(T)), Err(self.decline));
        assert_eq!(b.round(plan), Err(self.decline));
        assert!(b.unchanged());
        let mut s = SweepBuffers::ample();
        assert_eq!(s.sweeps(plan), Err(self.decline));
        assert!(s.unchanged());
        assert_eq!(self.decline.section(plan), section);
        assert_eq!(self.decline.turn(&hex(T)), None);
    }

    /// Of a turn run on P, with so many work cells and list cells.
    fn of_run(&self, cells: [usize; 2], turns: &[u8], turn: Option<Turn>) {
        self.tells();
        let mut b = Buffers::new(cells[0], cells[1]);
        assert_eq!(b.turns(&hex(P), turns), Err(self.decline));
        assert!(b.unchanged());
        assert_eq!(self.decline.turn(turns), turn);
        assert_eq!(self.decline.section(&hex(P)), None);
    }
}

/// Where P is damaged and with what, and the place and the section of the decline.
type Damage = (usize, &'static str, usize, Section);

/// Each damage gives the same decline, about a section.
fn in_sections(decline: fn(usize) -> Decline, number: usize, what: &str, damages: &[Damage]) {
    for &(at, bytes, place, section) in damages {
        let text = &format!("declined {number}: {what}, in the section at byte {place}");
        Told { decline: decline(place), number, place, text }.of_plan(&damaged(at, bytes), Some(section));
    }
}

#[test]
fn an_empty_plan_is_truncated() {
    let decline = Decline::Truncated { section_start: 0 };
    Told { decline, number: 1, place: 0, text: "declined 1: plan is empty" }.of_plan(&[], None);
}

/// P cut to any length ends in the last section that starts before its end, or lacks the one that would start there.
#[test]
fn truncated() {
    let sections =
        [(1..6, Head), (6..18, Slot(1)), (18..30, Slot(2)), (30..42, Slot(3)), (42..49, Rule(1)), (49..58, Rule(2))];
    for (lengths, section) in sections {
        let place = lengths.start;
        let text = &format!("declined 1: plan ends before the section at byte {place} is complete");
        for length in lengths {
            let decline = Decline::Truncated { section_start: place };
            Told { decline, number: 1, place, text }.of_plan(&hex(P)[..length], Some(section));
        }
    }
}

#[test]
fn bad_version() {
    let text = "declined 2: version byte is neither 1 nor 2, at byte 0";
    let told = Told { decline: Decline::BadVersion, number: 2, place: 0, text };
    for version in ["00", "03", "FF"] {
        told.of_plan(&damaged(0, version), None);
    }
}

#[test]
fn bad_length() {
    let damages = [
        (1, "0004", 1, Head),      // for 3
        (18, "000B", 18, Slot(2)), // for 10, of two dishes
        (42, "0006", 42, Rule(1)), // for 5, of a sodium rule
        (49, "0005", 49, Rule(2)), // for 7, of a table over two dishes
        (0, "02", 49, Rule(2)),    // for 11, of such a table in version 2
    ];
    let what = "length is not the one that the content calls for";
    in_sections(|section_start| Decline::BadLength { section_start }, 3, what, &damages);
}

#[test]
fn bad_count() {
    let damages = [
        (3, "00", 1, Head),    // no kitchen
        (4, "21", 1, Head),    // 33 slots
        (5, "81", 1, Head),    // 129 rules
        (9, "11", 6, Slot(1)), // 17 dishes
    ];
    let what = "number of kitchens, slots, rules, dishes, further slots or pairs of slots out of range";
    in_sections(|section_start| Decline::BadCount { section_start }, 4, what, &damages);
}

#[test]
fn bad_number() {
    let damages = [
        (20, "03", 18, Slot(2)),   // kitchen 3 of 2
        (44, "0202", 42, Rule(1)), // slots 2 and 2
        (51, "0104", 49, Rule(2)), // slots 1 and 4, of 3
    ];
    let what = "kitchen or slot number out of range, or slots of a rule not ascending";
    in_sections(|section_start| Decline::BadNumber { section_start }, 5, what, &damages);
}

#[test]
fn repeated_code() {
    let damages = [(38, "001F", 30, Slot(3))]; // the code of its first dish
    let what = "a code stands twice in a slot";
    in_sections(|section_start| Decline::RepeatedCode { section_start }, 6, what, &damages);
}

#[test]
fn bad_rule() {
    let damages = [
        (46, "02", 42, Rule(1)),   // kind 2, in version 1
        (56, "0004", 49, Rule(2)), // 12 with a third dish of slot 3, which has two
    ];
    let what = "kind not of the plan's version, or a table bit at or past the second slot's count of dishes";
    in_sections(|section_start| Decline::BadRule { section_start }, 7, what, &damages);
}

#[test]
fn trailing_bytes() {
    let decline = Decline::TrailingBytes { byte: 58 };
    let text = "declined 8: bytes after the last section, from byte 58 on";
    Told { decline, number: 8, place: 58, text }.of_plan(&hex(&format!("{P} 0000")), None);
}

// In the runs below a decline that comes later in the order applies too.

#[test]
fn short_work() {
    let text = "declined 9: fewer than 30720 work cells";
    let told = Told { decline: Decline::ShortWork, number: 9, place: 0, text };
    told.of_run([30_719, 63], &hex("0101"), None);
    let mut b = Buffers::new(30_719, 63);
    assert_eq!(b.round(&hex(P)), Err(told.decline));
    assert!(b.unchanged());
}

#[test]
fn short_lists() {
    let text = "declined 10: fewer than 64 cells in a list buffer";
    let told = Told { decline: Decline::ShortLists, number: 10, place: 0, text };
    told.of_run([30_720, 63], &hex("0101"), None);
    let mut b = Buffers::new(30_720, 63);
    assert_eq!(b.round(&[]), Err(told.decline));
    assert!(b.unchanged());
    for [first, second] in [[63, 64], [64, 63], [0, 128]] {
        let mut s = SweepBuffers::new(first, second);
        assert_eq!(s.sweeps(&[]), Err(told.decline));
        assert!(s.unchanged());
    }
}

#[test]
fn bad_turn_list() {
    let text = "declined 11: turn list of odd length or over 65536 bytes";
    let told = Told { decline: Decline::BadTurnList, number: 11, place: 0, text };
    told.of_run([30_720, 64], &hex("0101 09"), None);
    told.of_run([30_720, 64], &[1; 65_538], None);
}

#[test]
fn bad_turn() {
    // kitchen 1 reads from itself; the desk has no deed 13
    let decline = Decline::BadTurn { turn: 1 };
    let told = Told { decline, number: 12, place: 1, text: "declined 12: turn 1, counted from 0, is not allowed" };
    told.of_run([30_720, 64], &hex("0109 0101 000D"), Some(Turn { number: 1, actor: 1, deed: 1 }));
    told.of_run([30_720, 64], &hex("0109 000D 0101"), Some(Turn { number: 1, actor: 0, deed: 13 }));

    // a list of the greatest length, with its last turn at fault
    let mut turns = [1, 9].repeat(32_768);
    turns[65_534..].copy_from_slice(&[9, 10]);
    let decline = Decline::BadTurn { turn: 32_767 };
    let text = "declined 12: turn 32767, counted from 0, is not allowed";
    let turn = Turn { number: 32_767, actor: 9, deed: 10 };
    Told { decline, number: 12, place: 32_767, text }.of_run([30_720, 64], &turns, Some(turn));
}

/// Wherever a plan is damaged, a decline about a section finds it, and is one that such a section can have.
pub fn every_byte_changed(plan: &[u8], of_a_rule: &[usize]) {
    for at in 0..plan.len() {
        for byte in 0..=255 {
            let mut plan = plan.to_vec();
            plan[at] = byte;
            let Err(decline) = check_plan(&plan) else { continue };
            let numbers: &[usize] = match decline.section(&plan) {
                Some(Head) => &[1, 3, 4],
                Some(Slot(_)) => &[1, 3, 4, 5, 6],
                Some(Rule(_)) => of_a_rule,
                None => &[2, 8],
            };
            assert!(numbers.contains(&decline.number()), "byte {at} is {byte}: {decline}");
        }
    }
}

#[test]
fn every_byte_of_p_changed() {
    every_byte_changed(&hex(P), &[1, 3, 5, 7]);
}

/// A number of a later version, and a place that this version has not for its number.
#[test]
fn unknown() {
    let text = "declined 13: not of this version, at place 7";
    let decline = Decline::Unknown { number: 13, place: 7 };
    Told { decline, number: 13, place: 7, text }.tells();
    assert_eq!(Report::new([13, 7, 0, 0, 0, 0]), Err(decline));
    assert_eq!(Counts::new([2, 1, 0, 0, 0]), Err(Decline::Unknown { number: 2, place: 1 }));
}

/// Number and place are those of the C interface, whatever they are.
#[test]
fn nothing_of_a_decline_is_lost() {
    for number in 1..=20 {
        for place in [0, 1, 58, usize::MAX] {
            let decline = Decline::new(number, place);
            assert_eq!((decline.number(), decline.place()), (number, place));
        }
    }
}

/// With `?` a decline goes into any error, and is printed as itself there.
#[test]
fn a_decline_is_an_error() {
    fn checked(plan: &[u8]) -> Result<Counts, Box<dyn std::error::Error + Send + Sync>> {
        Ok(check_plan(plan)?)
    }
    assert_eq!(checked(&[]).unwrap_err().to_string(), "declined 1: plan is empty");
}
