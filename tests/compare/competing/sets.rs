// The faults of set rules, and too many pairs of variables.

use tinshrew_tests::generate::sets::filling;
use tinshrew_tests::reference::plan::Constraint;
use tinshrew_tests::reference::scope::MOST_PAIRS;
use tinshrew_tests::rng::Rng;

use super::{Draft, Raw, Spoil};

/// Where the number of a set rule's further variables stands, and where they do.
const COUNT: usize = 5;
const FURTHER: usize = 6;

pub const FAULTS: &[(&str, Spoil)] = &[
    ("3 set under 6", |d, r| {
        let length = r.between(3, 5);
        d.set_rule(r).content.truncate(length);
    }),
    ("3 further", |d, r| {
        let count = d.set_rule(r).get(COUNT);
        d.constraint().set(COUNT, count.wrapping_add(r.pick(&[1, 255])));
    }),
    ("4 further", |d, r| {
        let count = r.pick(&[7, 8, 255]);
        d.set_rule(r).set(COUNT, count);
    }),
    ("4 further with their length", |d, r| {
        let count = r.between(7, 9);
        let set = d.set_rule(r);
        set.content.resize(FURTHER + count, 32);
        set.set(COUNT, count as u8);
    }),
    ("5 further 0", |d, r| {
        let (at, _) = d.further(r);
        d.constraint().set(at, 0);
    }),
    ("5 further", |d, r| {
        let (at, _) = d.further(r);
        let variable = r.pick(&[d.head.get(1).wrapping_add(1), 255]);
        d.constraint().set(at, variable);
    }),
    ("5 further repeated", |d, r| {
        let (at, before) = d.further(r);
        d.constraint().set(at, before);
    }),
    ("5 further below", |d, r| {
        let (at, before) = d.further(r);
        d.constraint().set(at, r.between(1, usize::from(before).max(1)) as u8);
    }),
    ("4 pairs", |d, r| d.fill_pairs(r)),
];

impl Draft {
    /// Turns to a set rule; where there was none, the constraint becomes one.
    fn set_rule(&mut self, rng: &mut Rng) -> &mut Raw {
        self.turn_to(rng, 2);
        let one = &mut self.plan.constraints[self.constraint];
        if one.kind() != 2 {
            *one = Constraint::set(&[one.first, one.second], 0);
            self.constraints[self.constraint] = Raw::new(one.encode(self.plan.version));
        }
        self.constraint()
    }

    /// Turns to a set rule, which gets a further variable if it has none: where
    /// one of these stands, and the variable before it.
    fn further(&mut self, rng: &mut Rng) -> (usize, u8) {
        let set = self.set_rule(rng);
        if set.content.len() == FURTHER {
            set.content.push(set.get(1).wrapping_add(1));
            set.set(COUNT, 1);
        }
        let at = FURTHER + rng.below(set.content.len().saturating_sub(FURTHER));
        (at, set.get(if at == FURTHER { 1 } else { at - 1 }))
    }

    /// Puts constraints before this one so that it touches the first pair above
    /// the limit: its first two variables, unless those were touched before.
    fn fill_pairs(&mut self, rng: &mut Rng) {
        let (plan, here) = (&mut self.plan, self.constraint);
        let n = plan.variables.len();
        if n * (n - 1) / 2 <= MOST_PAIRS {
            return;
        }
        let own = (plan.constraints[here].first, plan.constraints[here].second);
        let before = plan.constraints[..here].iter().flat_map(Constraint::pairs).collect();
        let more = filling(rng, &plan.variables, before, MOST_PAIRS, Some(own));
        let raw = more.iter().map(|one| Raw::new(one.encode(plan.version)));
        self.constraints.splice(here..here, raw);
        self.constraint += more.len();
        let count = self.head.get(2).wrapping_add(more.len() as u8);
        self.head.set(2, count);
        plan.constraints.splice(here..here, more);
    }
}
