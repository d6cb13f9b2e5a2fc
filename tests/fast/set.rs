// Set rules.

use super::fault::{Fault, Faults};
use super::pairs::{lowest, Pairs};
use super::plan::Net;
use super::row::Row;
use super::{bits, Declined, MAX};

/// The most variables of a set rule beside its first two.
const MOST_FURTHER: usize = 6;

/// The variables of a set rule, as a mask; the first two have been checked.
pub fn decode_set<F: Faults>(
    f: F,
    body: &[u8],
    start: usize,
    n: usize,
    pairs: &Pairs,
) -> Result<u32, Declined> {
    if body.len() < 6 {
        return Err((3, start));
    }
    let further = usize::from(body[5]);
    let wrong_length = body.len() != 6 + further;
    if f.has(Fault::FurtherAfterLength) && wrong_length {
        return Err((3, start));
    }
    if further > most_further(f) {
        return Err((4, start));
    }
    if wrong_length {
        return Err((3, start));
    }
    decode_further(f, body, start, n, pairs)
}

fn most_further<F: Faults>(f: F) -> usize {
    MOST_FURTHER + usize::from(f.has(Fault::Further7)) - usize::from(f.has(Fault::Further5))
}

/// Such a mask, once the length is right.
fn decode_further<F: Faults>(
    f: F,
    body: &[u8],
    start: usize,
    n: usize,
    pairs: &Pairs,
) -> Result<u32, Declined> {
    let mut scope = masked(body[0]) | masked(body[1]);
    let mut before = if f.has(Fault::FurtherFromZero) { 0 } else { body[1] };
    for &next in &body[6..] {
        let repeats = next == before && next > 0 && f.has(Fault::FurtherRepeats);
        let beyond = usize::from(next) > n && !f.has(Fault::FurtherBeyond);
        if next <= before && !repeats || beyond {
            return Err((5, start));
        }
        scope |= masked(next);
        before = next;
        if f.has(Fault::PairsWhileReading) && pairs.too_many_with(f, scope) {
            return Err((4, start));
        }
    }
    Ok(scope)
}

/// A variable, from 1, as a mask. Only a wrong variant comes to one above `MAX`.
fn masked(variable: u8) -> u32 {
    if usize::from(variable) > MAX {
        return 0;
    }
    1 << (variable - 1)
}

/// The variables of a set rule that are judged: all, but for wrong variants.
pub fn judged<F: Faults, R: Row>(f: F, net: &Net<R>, scope: u32) -> u32 {
    let others = scope & !lowest(scope);
    if f.has(Fault::SetFirstTwo) {
        lowest(scope) | lowest(others)
    } else if f.has(Fault::SetLastUnjudged) && others != lowest(others) {
        scope & !(1 << scope.ilog2())
    } else if f.has(Fault::SetSkipsEmpty) {
        bits(scope).filter(|&s| net.size(s) > 0).fold(0, |some, s| some | 1 << s)
    } else {
        scope
    }
}
