//! The split of a part that became too heavy, over numbers alone.

use crate::rules::Asked;

/// A node of the part, in document order.
pub struct Spot {
    /// Which child it is, counted as the document does.
    pub position: u32,
    pub weight: u32,
    /// What it weighs with all below it.
    pub within: u32,
    pub asked: Asked,
    /// How many nodes stand below it.
    pub below: usize,
}

/// How a node stands in a plan.
#[derive(Clone, Copy, PartialEq)]
pub enum Cut {
    /// In the part of its parent.
    Stays,
    /// As the first member of an interval.
    Begins,
    /// In the interval of its neighbour before it.
    GoesOn,
}

/// How each node stands in the split of a part that is too heavy and none of whose nodes is. Where no part of the
/// separator's plan weighs more than `k`, it is that; else a plan whose neighbours don't fit together, and that cuts
/// no cluster edge where it needn't. In the first case the root of the separator stays with the node above, where that
/// has room for what stays with the root, which isn't standalone.
pub fn split(spots: &[Spot], room: u32, k: u32, target: u32, tolerance: u32) -> Vec<Cut> {
    let whole: u32 = spots.iter().map(|spot| spot.weight).sum();
    let mut plan = Plan {
        spots,
        k,
        point: whole * target / 100,
        tolerance,
        keep: true,
        waiting: Vec::new(),
        cuts: vec![Cut::Stays; spots.len()],
    };
    plan.separate(0, spots.len(), 0, true, true);
    if plan.weigh(0, spots.len()).heaviest > k {
        plan.keep = plan.are_light(0, spots.len());
        plan.cuts.fill(Cut::Begins);
        plan.wish(0, spots.len());
        plan.settle(0, spots.len(), 0);
    } else {
        plan.raise(room);
    }
    plan.cuts
}

/// What stays with the node above some nodes, and the heaviest of their intervals.
struct Weighed {
    left: u32,
    heaviest: u32,
}

/// An interval that waits until the part above it is known.
#[derive(Clone, Copy)]
struct Run {
    first: usize,
    /// The position of its last member.
    last: u32,
    members: usize,
    weight: u32,
}

struct Plan<'a> {
    spots: &'a [Spot],
    k: u32,
    point: u32,
    tolerance: u32,
    /// Whether cluster children have to stay with their parents.
    keep: bool,
    waiting: Vec<Run>,
    cuts: Vec<Cut>,
}

impl Plan<'_> {
    /// The index behind a node and all below it.
    fn end(&self, at: usize) -> usize {
        at + 1 + self.spots[at].below
    }

    /// The separator's plan of siblings, before which so much comes; they stand below the helper, or below it or a
    /// node of the separator.
    fn separate(&mut self, first: usize, end: usize, before: u32, root: bool, wide: bool) {
        let (mut at, mut before, mut row) = (first, before, None);
        while at < end {
            let (spot, next) = (&self.spots[at], self.end(at));
            let behind = before + spot.within;
            let (position, left) = (spot.position, behind <= self.point);
            let within = before <= self.point && self.point < behind;
            let marked = within && self.tolerance < spot.within;
            let alone = spot.asked == Asked::Standalone || (root && marked);
            let loose = spot.asked == Asked::Free && wide && !marked;
            self.cuts[at] = match row {
                _ if alone => Cut::Begins,
                _ if !loose => Cut::Stays,
                Some(last) if last == (position.wrapping_sub(1), left) => Cut::GoesOn,
                _ => Cut::Begins,
            };
            row = (loose && !alone).then_some((position, left));
            self.separate(at + 1, next, before + spot.weight, false, marked);
            (at, before) = (next, behind);
        }
    }

    fn weigh(&self, first: usize, end: usize) -> Weighed {
        let mut found = Weighed {
            left: 0,
            heaviest: 0,
        };
        let (mut at, mut row) = (first, 0);
        while at < end {
            let next = self.end(at);
            let inner = self.weigh(at + 1, next);
            let own = self.spots[at].weight + inner.left;
            match self.cuts[at] {
                Cut::Stays => found.left += own,
                Cut::Begins => row = own,
                Cut::GoesOn => row += own,
            }
            found.heaviest = found.heaviest.max(inner.heaviest).max(row);
            at = next;
        }
        found
    }

    /// Lets the root of the separator stay with the node above, where it may.
    fn raise(&mut self, room: u32) {
        let (mut at, mut begins) = (0, 0);
        while at < self.spots.len() {
            let (spot, next) = (&self.spots[at], self.end(at));
            let ends = begins + spot.within;
            if begins <= self.point && self.point < ends && spot.within > self.tolerance {
                let own = spot.weight + self.weigh(at + 1, next).left;
                if spot.asked != Asked::Standalone && own <= room {
                    self.cuts[at] = Cut::Stays;
                }
                return;
            }
            (at, begins) = (next, ends);
        }
    }

    fn stays(&self, at: usize) -> bool {
        self.keep && self.spots[at].asked == Asked::Cluster
    }

    /// What of these siblings and below has to stay with the node above.
    fn core(&self, first: usize, end: usize) -> u32 {
        let (mut at, mut weight) = (first, 0);
        while at < end {
            let next = self.end(at);
            if self.stays(at) {
                weight += self.spots[at].weight + self.core(at + 1, next);
            }
            at = next;
        }
        weight
    }

    /// Whether each node that hasn't to stay has room for those that have to stay with it.
    fn are_light(&self, first: usize, end: usize) -> bool {
        let own = |at: usize| self.spots[at].weight + self.core(at + 1, self.end(at));
        (first..end).all(|at| self.stays(at) || own(at) <= self.k)
    }

    /// Marks which intervals are wished to stay in the part above, the lightest first, from below. Answers what has
    /// to stay with the node above these siblings.
    fn wish(&mut self, first: usize, end: usize) -> u32 {
        let (mut at, mut kept, mut row) = (first, 0, None);
        while at < end {
            let (next, weight, begun) = (self.end(at), self.spots[at].weight, self.waiting.len());
            if self.stays(at) {
                self.waiting.extend(row.take());
                kept += weight + self.wish(at + 1, next);
                at = next;
                continue;
            }
            let inner = self.wish(at + 1, next);
            let own = Run {
                first: at,
                last: self.spots[at].position,
                members: 1,
                weight: self.join(weight + inner, begun),
            };
            row = if self.spots[at].asked == Asked::Standalone {
                self.waiting.extend(row);
                None
            } else {
                Some(self.prolong(row, own))
            };
            at = next;
        }
        self.waiting.extend(row);
        kept
    }

    /// The interval with one member more where it fits; else that member's own, and the other one waits.
    fn prolong(&mut self, row: Option<Run>, own: Run) -> Run {
        let Some(run) = row else {
            return own;
        };
        let weight = run.weight + own.weight;
        if run.last + 1 == own.last && weight <= self.k {
            return Run {
                last: own.last,
                members: run.members + 1,
                weight,
                ..run
            };
        }
        self.waiting.push(run);
        own
    }

    /// Joins the lightest intervals that wait from an index on to a part of that weight, and answers its new one.
    fn join(&mut self, weight: u32, begun: usize) -> u32 {
        let mut load = weight;
        self.waiting[begun..].sort_by_key(|run| run.weight);
        for run in self.waiting.drain(begun..) {
            if load + run.weight <= self.k {
                load += run.weight;
                let mut at = run.first;
                for _ in 0..run.members {
                    self.cuts[at] = Cut::Stays;
                    at += 1 + self.spots[at].below;
                }
            }
        }
        load
    }

    /// Draws these siblings and all below them, where there is so much room in the part above, and answers what is
    /// left of it. A node that stays so far is wished there.
    fn settle(&mut self, first: usize, end: usize, room: u32) -> u32 {
        let (mut at, mut room) = (first, room);
        // The last member of the interval that may go on, and what that weighs.
        let mut row: Option<(u32, u32)> = None;
        while at < end {
            let (next, spot) = (self.end(at), &self.spots[at]);
            if self.stays(at) {
                room = self.settle(at + 1, next, room);
                self.cuts[at] = Cut::Stays;
                (at, row) = (next, None);
                continue;
            }
            let own = spot.weight + self.core(at + 1, next);
            let load = self.k - self.settle(at + 1, next, self.k - own);
            let last = spot.position;
            (self.cuts[at], row) = match row {
                _ if spot.asked == Asked::Standalone => (Cut::Begins, None),
                _ if self.cuts[at] == Cut::Stays && load <= room => {
                    room -= load;
                    (Cut::Stays, None)
                }
                Some((before, weight)) if before + 1 == last && weight + load <= self.k => {
                    (Cut::GoesOn, Some((last, weight + load)))
                }
                _ => (Cut::Begins, Some((last, load))),
            };
            at = next;
        }
        room
    }
}
