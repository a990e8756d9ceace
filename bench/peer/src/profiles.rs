//! What the choices over the children of a node leave with it, by what they cost.
//!
//! A choice leaves each child uncut or puts it into an interval of neighbours. An uncut
//! child has its first form: as many intervals as are claimed to be the fewest, and what
//! its part weighs then. A member of an interval has its first form or the second one,
//! with one interval more. The members of an interval weigh at most `k` together. A choice
//! costs its intervals and its members in second form.

use crate::parts::Bound;
use std::collections::VecDeque;

/// What a child of a node weighs in its first form and in its second.
#[derive(Clone, Copy)]
pub struct Child {
    lean: u32,
    nearly: u32,
}

impl Child {
    pub fn new(k: u32, weight: u32, claim: Bound) -> Child {
        let counted = |claimed: u32| claimed.max(weight).min(k);
        Child {
            lean: counted(claim.lean),
            nearly: counted(claim.nearly),
        }
    }

    fn lighter(&self) -> u32 {
        self.lean.min(self.nearly)
    }
}

/// For each cost of a choice the least weight that is left: none below `base`, and nothing
/// beyond the list's end.
#[derive(Default)]
pub struct Profile {
    pub base: u32,
    lefts: Vec<u32>,
}

impl Profile {
    fn end(&self) -> u32 {
        self.base + self.lefts.len() as u32
    }

    /// What is left by a choice that costs at most `cost`, from the base on.
    pub fn left(&self, cost: u32) -> u32 {
        self.lefts.get((cost - self.base) as usize).copied().unwrap_or(0)
    }

    fn left_or(&self, none: u32, extra: u32, cost: u32) -> u32 {
        match cost.checked_sub(extra) {
            Some(cost) if cost >= self.base => self.left(cost),
            _ => none,
        }
    }

    /// The first child is uncut, or the first ones are an interval.
    fn start(&mut self, lean: u32, room: u32, after: &Profile, beyond: &Profile) {
        self.base = after.base;
        self.lefts.clear();
        self.lefts.extend((after.base..=beyond.end()).map(|cost| {
            let uncut = after.left(cost) + lean;
            uncut.min(beyond.left_or(room + 1, 1, cost))
        }));
    }

    fn lower(&mut self, extra: u32, room: u32, beyond: &Profile) {
        for (cost, left) in (self.base..).zip(&mut self.lefts) {
            *left = beyond.left_or(room + 1, extra, cost).min(*left);
        }
    }

    fn cut(&mut self, room: u32) {
        if let Some(index) = self.lefts.iter().position(|&left| left == 0) {
            self.lefts.truncate(index);
        }
        if self.lefts.first().is_some_and(|&left| left > room) {
            self.base += 1;
            self.lefts.remove(0);
        }
    }
}

/// The longest interval that may begin a list of children.
#[derive(Clone, Copy, Default)]
struct Reach {
    len: usize,
    sum: u32,
}

impl Reach {
    fn extend(&mut self, k: u32, children: &[Child], weight: impl Fn(&Child) -> u32) {
        self.len += 1;
        self.sum += weight(&children[0]);
        while self.sum > k {
            self.len -= 1;
            self.sum -= weight(&children[self.len]);
        }
    }
}

#[derive(Default)]
pub struct Profiles {
    /// Those of the last children, of those without the first, and so on.
    kept: VecDeque<Profile>,
    spares: Vec<Profile>,
    /// The lightest intervals of the first children, by their members in second form.
    weights: Vec<u32>,
}

impl Profiles {
    /// The profile of all choices over the children.
    pub fn build(&mut self, k: u32, room: u32, children: &[Child]) -> &Profile {
        self.spares.extend(self.kept.drain(..));
        let mut none = self.spare(k);
        none.base = 0;
        none.lefts.clear();
        self.kept.push_front(none);
        let (mut plain, mut light) = (Reach::default(), Reach::default());
        for at in (0..children.len()).rev() {
            let rest = &children[at..];
            plain.extend(k, rest, |child| child.lean);
            light.extend(k, rest, Child::lighter);
            let mut next = self.spare(k);
            next.start(rest[0].lean, room, &self.kept[0], &self.kept[plain.len - 1]);
            self.cut_longer(&mut next, k, room, &rest[..light.len], plain.len);
            next.cut(room);
            self.kept.push_front(next);
        }
        &self.kept[0]
    }

    /// An interval has at most `k` members, so no more profiles are kept.
    fn spare(&mut self, k: u32) -> Profile {
        let last = (self.kept.len() > k as usize).then(|| self.kept.pop_back()).flatten();
        last.or_else(|| self.spares.pop()).unwrap_or_default()
    }

    /// Intervals that are longer than the longest plain one, as long as they are of use.
    fn cut_longer(&mut self, next: &mut Profile, k: u32, room: u32, members: &[Child], plain: usize) {
        if plain == members.len() {
            return;
        }
        let extras = next.end().saturating_sub(self.kept[members.len() - 1].base + 1);
        if extras == 0 {
            return;
        }
        self.weights.clear();
        self.weights.resize(extras as usize, 0);
        for (len, child) in members.iter().enumerate() {
            add_member(&mut self.weights, child);
            if len < plain {
                continue;
            }
            if let Some(extra) = self.weights.iter().position(|&weight| weight <= k) {
                next.lower(1 + extra as u32, room, &self.kept[len]);
            }
        }
    }
}

fn add_member(weights: &mut [u32], child: &Child) {
    for most in (1..weights.len()).rev() {
        weights[most] = (weights[most] + child.lean).min(weights[most - 1] + child.nearly);
    }
    weights[0] += child.lean;
}
