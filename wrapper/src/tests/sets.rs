//! Set rules: one limit on every two slots of a set.

use super::declines::every_byte_changed;
use super::*;

/// A plan of version 2 with these rules. Slot 1 (kitchen 1) has 101 with 300 mg and 102 with 900, slot 2 (kitchen 2) 201
/// with 500 and 202 with 800, slot 3 (kitchen 1) 301 with 400, 302 with 700 and 303 without a figure. The rules start at
/// byte 46.
fn ward(count: &str, rules: &str) -> Vec<u8> {
    hex(&format!(
        "02 0003 0203{count} 000A 0102 0065012C 00660384 000A 0202 00C901F4 00CA0320 \
         000E 0103 012D0190 012E02BC 012FFFFF {rules}"
    ))
}

/// Slots 1, 2 and 3: at most 1,200 mg on every two.
const SET: &str = "0007 010202 04B0 01 03";

/// The same, typed rule by rule.
const PAIRS: &str = "0005 010201 04B0 0005 010301 04B0 0005 020301 04B0";

/// 102 is above the limit with both of slot 2, and 303 has no figure. Each other dish has a support in both other slots;
/// 202 too, though it has 1,500 mg or more together with one dish of each.
#[test]
fn a_limit_on_every_two_slots() {
    for (count, rules) in [("01", SET), ("03", PAIRS)] {
        ends_with(&ward(count, rules), 2, &[0, 1, 0, 3, 0, 3]);
    }
}

#[test]
fn a_set_rule_counts_as_one_rule() {
    let rules = |count, rules| check_plan(&ward(count, rules)).map(|c| c.rules);
    assert_eq!((rules("01", SET), rules("03", PAIRS)), (Ok(1), Ok(3)));
}

/// A decline of the plan whose one rule is this.
fn decline(rule: &str) -> (Option<Decline>, Option<Section>) {
    let plan = ward("01", rule);
    let decline = check_plan(&plan).err();
    (decline, decline.and_then(|decline| decline.section(&plan)))
}

#[test]
fn damaged() {
    let at = 46;
    for (rule, expected) in [
        ("0005 010202 04B0", Decline::BadLength { section_start: at }),
        // seven further slots
        ("0006 010202 04B0 07", Decline::BadCount { section_start: at }),
        // one more than there is
        ("0006 010202 04B0 01", Decline::BadLength { section_start: at }),
        // slot 2 again, and slot 4 of 3
        ("0007 010202 04B0 01 02", Decline::BadNumber { section_start: at }),
        ("0007 010202 04B0 01 04", Decline::BadNumber { section_start: at }),
        ("0007 010203 04B0 01 03", Decline::BadRule { section_start: at }),
    ] {
        assert_eq!(decline(rule), (Some(expected), Some(Section::Rule(1))), "{rule}");
    }
}

/// Version 1 has no set rules.
#[test]
fn a_set_rule_in_version_1() {
    let mut plan = ward("01", SET);
    plan[0] = 1;
    assert_eq!(check_plan(&plan), Err(Decline::BadRule { section_start: 46 }));
}

/// Of 17 slots without dishes the first 16 have 120 pairs, which six sets of eight slots touch. Slot 17 with 1 to 7, and
/// with 8, are the next eight; slots 9 and 17 are one pair too many. A slot has 4 bytes, a set of eight 14, one of two 8.
#[test]
fn pairs_of_slots() {
    let (low, high) = ([[1, 2, 3, 4], [5, 6, 7, 8]], [[9, 10, 11, 12], [13, 14, 15, 16]]);
    let mut sets = vec![low.concat(), high.concat()];
    for one in low {
        sets.extend(high.map(|other| [one, other].concat()));
    }
    sets.extend([vec![1, 2, 3, 4, 5, 6, 7, 17], vec![8, 17]]);
    let plan = |sets: &[Vec<u8>]| {
        let mut plan = hex("02 0003 0111");
        plan.push(sets.len() as u8);
        plan.extend(hex("0002 0100").repeat(17));
        for set in sets {
            let further = set.len() as u8 - 2;
            plan.extend([&[0, 6 + further, set[0], set[1], 2, 0, 0, further], &set[2..]].concat());
        }
        plan
    };
    assert_eq!(check_plan(&plan(&sets)).map(|c| c.rules), Ok(8));
    sets.push(vec![9, 17]);
    let plan = plan(&sets);
    let decline = check_plan(&plan).unwrap_err();
    assert_eq!(decline, Decline::BadCount { section_start: 6 + 17 * 4 + 7 * 14 + 8 });
    assert_eq!(decline.section(&plan), Some(Section::Rule(9)));
}

#[test]
fn every_byte_of_a_plan_with_a_set_rule_changed() {
    every_byte_changed(&ward("01", SET), &[1, 3, 4, 5, 7]);
}
