// Pairs of variables, both from 0: how many of them constraints touch, and the
// lowest limit on each. The variables of a constraint are a mask.

use super::fault::{Fault, Faults};
use super::{bits, Declined, MAX};

/// The most pairs that a plan touches.
const MOST_PAIRS: usize = 128;

pub struct Pairs {
    /// By variable: the higher ones that it shares a constraint with.
    touched: [u32; MAX],
    /// How many pairs these are.
    count: usize,
    /// By variable: the higher ones that it shares a limit with.
    limited: [u32; MAX],
    /// By variable and such a higher one: the lowest limit.
    limits: [[u16; MAX]; MAX],
}

/// Those of a mask that are higher than `a`.
fn above(mask: u32, a: usize) -> u32 {
    mask & u32::MAX << a << 1
}

/// The lowest one of a mask, as a mask.
pub fn lowest(mask: u32) -> u32 {
    mask & mask.wrapping_neg()
}

impl Pairs {
    pub fn new() -> Pairs {
        Pairs { touched: [0; MAX], count: 0, limited: [0; MAX], limits: [[0; MAX]; MAX] }
    }

    /// Touches every two of these variables, or declines the constraint that
    /// brings the pairs above their limit.
    pub fn touch<F: Faults>(&mut self, f: F, scope: u32, start: usize) -> Result<(), Declined> {
        self.add(f, scope);
        let single = scope.count_ones() == 2;
        let untested = f.has(Fault::PairsUntested)
            || f.has(Fault::PairsAtEnd)
            || f.has(Fault::SinglePairsUntested) && single
            || f.has(Fault::PairsOfSetsUntested) && !single;
        if self.too_many(f) && !untested {
            return Err((4, if f.has(Fault::PairsAtHead) { 1 } else { start }));
        }
        Ok(())
    }

    fn add<F: Faults>(&mut self, f: F, scope: u32) {
        let mut others = scope;
        while others != lowest(others) {
            let a = others.trailing_zeros() as usize;
            others &= others - 1;
            let known = if f.has(Fault::PairsCountedTwice) { 0 } else { self.touched[a] };
            self.count += (others & !known).count_ones() as usize;
            self.touched[a] |= others;
        }
    }

    pub fn too_many<F: Faults>(&self, f: F) -> bool {
        let more = usize::from(f.has(Fault::Pairs129));
        let fewer = usize::from(f.has(Fault::Pairs127));
        self.count > MOST_PAIRS + more - fewer
    }

    /// Whether there would be too many with such a constraint.
    pub fn too_many_with<F: Faults>(&self, f: F, scope: u32) -> bool {
        let mut with = Pairs { ..*self };
        with.add(f, scope);
        with.too_many(f)
    }

    /// Puts a limit on every two of these variables that are judged.
    pub fn limit<F: Faults>(&mut self, f: F, scope: u32, limit: impl Fn(usize, usize) -> u16) {
        for a in bits(scope) {
            for b in bits(judged(f, scope, a)) {
                let (limit, held) = (limit(a, b), &mut self.limits[a][b]);
                let known = self.limited[a] >> b & 1 == 1;
                *held = if known { lower(f, *held, limit) } else { limit };
                self.limited[a] |= 1 << b;
            }
        }
    }

    /// The pairs that have a limit, with the lowest.
    pub fn limits(&self) -> impl Iterator<Item = (usize, usize, u16)> + '_ {
        (0..MAX).flat_map(move |a| bits(self.limited[a]).map(move |b| (a, b, self.limits[a][b])))
    }
}

/// The limit on a pair that has both of these.
fn lower<F: Faults>(f: F, earlier: u16, later: u16) -> u16 {
    if f.has(Fault::LatestLimit) {
        later
    } else if f.has(Fault::HighestLimit) {
        earlier.max(later)
    } else {
        earlier.min(later)
    }
}

/// The higher variables that variable `a` of a constraint is judged with.
fn judged<F: Faults>(f: F, scope: u32, a: usize) -> u32 {
    let others = above(scope, a);
    if f.has(Fault::SetNeighbours) {
        lowest(others)
    } else if f.has(Fault::SetFromFirst) && lowest(scope) != 1 << a {
        0
    } else {
        others
    }
}
