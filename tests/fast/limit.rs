// What limits on sodium figures allow.

use super::bits;
use super::fault::{Fault, Faults};
use super::plan::{Net, Sodium};
use super::row::{Row, WIDEST};

/// The rows that a limit on two recorded figures together allows.
pub fn sodium_rows<F: Faults, R: Row>(
    f: F,
    limit: u16,
    net: &Net<R>,
    sodium: &Sodium,
    a: usize,
    b: usize,
) -> [R; WIDEST] {
    let figures = |s: usize| &sodium[R::VALUES * s..][..net.size(s)];
    let mut rows = [R::default(); WIDEST];
    for (row, &one) in rows.iter_mut().zip(figures(a)) {
        let allows = |&other: &u16| u32::from(sodium_allows(f, one, other, limit));
        let others = figures(b).iter().map(allows).enumerate();
        *row = R::cut(others.fold(0, |row, (e, allowed)| row | allowed << e));
    }
    rows
}

fn sodium_allows<F: Faults>(f: F, one: u16, other: u16, limit: u16) -> bool {
    if unrecorded(f, one, Fault::FirstUnrecordedSummed)
        || unrecorded(f, other, Fault::SecondUnrecordedSummed)
    {
        return f.has(Fault::UnrecordedAllowed);
    }
    if f.has(Fault::Wraps) {
        return one.wrapping_add(other) <= limit;
    }
    let sum = summand(f, one) + summand(f, other);
    if f.has(Fault::LimitExcluded) {
        return sum < u32::from(limit);
    }
    sum <= u32::from(limit) || f.has(Fault::HighestLimitIsNone) && limit == u16::MAX
}

/// Whether a figure is taken for not recorded. With the fault `untested` none
/// is.
fn unrecorded<F: Faults>(f: F, figure: u16, untested: Fault) -> bool {
    let tested = !f.has(Fault::UnrecordedSummed) && !f.has(Fault::UnrecordedIsZero);
    tested
        && !f.has(untested)
        && (figure == u16::MAX || f.has(Fault::ZeroUnrecorded) && figure == 0)
}

/// What a figure adds to the sum.
fn summand<F: Faults>(f: F, figure: u16) -> u32 {
    if f.has(Fault::UnrecordedIsZero) && figure == u16::MAX {
        return 0;
    }
    u32::from(figure)
}

/// What a set rule's limit is for two of its variables: the same, whatever the
/// others are. Only a wrong variant takes off the least figure of each of those.
pub fn limit_on<F: Faults, R: Row>(
    f: F,
    limit: u16,
    net: &Net<R>,
    sodium: &Sodium,
    others: u32,
) -> u16 {
    if !f.has(Fault::SetSumsAll) {
        return limit;
    }
    let least = |s: usize| (0..net.size(s)).map(|d| sodium[R::VALUES * s + d]).min().unwrap_or(0);
    bits(others).fold(limit, |left, s| left.saturating_sub(least(s)))
}
