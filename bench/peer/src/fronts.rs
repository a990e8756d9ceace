//! What choices over the children of a node reach.
//!
//! A choice leaves each child uncut or puts it into an interval of neighbours. An uncut
//! child has its first form: as many intervals as are claimed to be the fewest, and what
//! its part weighs then. A member of an interval has its first form or the second one,
//! with one interval more. The members of an interval weigh at most `k` together.

use crate::parts::Bound;
use std::cmp::Reverse;
use std::mem;
use std::ops::Range;

/// What a child of a node weighs in its first form, and in the lighter one of its forms.
#[derive(Clone, Copy)]
pub struct Child {
    first: u32,
    lighter: u32,
}

impl Child {
    pub fn new(k: u32, weight: u32, claim: Bound) -> Child {
        let counted = |claimed: u32| claimed.max(weight).min(k);
        Child {
            first: counted(claim.lean),
            lighter: counted(claim.lean.min(claim.nearly)),
        }
    }

    fn saving(&self) -> u32 {
        self.first - self.lighter
    }
}

/// What a choice reaches.
#[derive(Clone, Copy)]
pub struct Point {
    /// The intervals beyond those that the children have in their first forms.
    pub extra: u32,
    /// What the uncut children weigh.
    pub weight: u16,
    /// How many members the last interval has, 0 where the last child is uncut.
    members: u16,
}

impl Point {
    fn with_uncut(&self, weight: u32) -> Point {
        Point {
            weight: self.weight + weight as u16,
            members: 0,
            ..*self
        }
    }

    fn with_interval(&self, members: usize, upgrades: usize) -> Point {
        Point {
            extra: self.extra + 1 + upgrades as u32,
            members: members as u16,
            ..*self
        }
    }
}

/// Makes one list of two, without the points that another one makes useless. Each list
/// rises in `extra` and falls in `weight`.
fn merge(
    kept: impl Iterator<Item = Point>,
    cut: impl Iterator<Item = Point>,
    points: &mut Vec<Point>,
) {
    points.clear();
    let (mut kept, mut cut) = (kept.peekable(), cut.peekable());
    let order = |point: &Point| (point.extra, point.weight);
    loop {
        let point = match (kept.peek(), cut.peek()) {
            (Some(one), Some(other)) if order(one) > order(other) => cut.next(),
            (Some(_), _) => kept.next(),
            (None, _) => cut.next(),
        };
        let Some(point) = point else { return };
        if points.last().is_none_or(|last| point.weight < last.weight) {
            points.push(point);
        }
    }
}

/// The longest interval up to a child with all members in their first form.
#[derive(Default)]
struct Window {
    begin: usize,
    weight: u32,
    /// What it weighs with each member in its lighter form.
    lighter: u32,
}

impl Window {
    /// Moves on to the last of the children.
    fn slide(&mut self, k: u32, children: &[Child]) {
        let last = children[children.len() - 1];
        self.weight += last.first;
        self.lighter += last.lighter;
        while self.weight > k {
            self.weight -= children[self.begin].first;
            self.lighter -= children[self.begin].lighter;
            self.begin += 1;
        }
    }
}

/// An interval that grows, with the fewest members in their second form that bring it to
/// `k`.
#[derive(Default)]
struct Reach {
    /// What the members save in their second form, the greatest saving first.
    savings: Vec<u32>,
    upgrades: usize,
    /// What the upgrades save together.
    saved: u32,
    weight: u32,
    /// What it weighs with each member in its lighter form.
    lighter: u32,
}

impl Reach {
    fn clear(&mut self) {
        self.savings.clear();
        self.upgrades = 0;
        self.saved = 0;
        self.weight = 0;
        self.lighter = 0;
    }

    fn add(&mut self, k: u32, child: Child) {
        self.weight += child.first;
        self.lighter += child.lighter;
        let saving = child.saving();
        if saving > 0 {
            let place = self.savings.partition_point(|&other| other >= saving);
            self.savings.insert(place, saving);
            if place < self.upgrades {
                self.saved += saving;
                self.saved -= self.savings[self.upgrades];
            }
        }
        while self.weight > k + self.saved {
            self.saved += self.savings[self.upgrades];
            self.upgrades += 1;
        }
    }
}

/// The fronts of the first 0, 1, 2 and so on children, one behind the other. A front has
/// the points that no other point makes useless.
#[derive(Default)]
struct Rows {
    points: Vec<Point>,
    /// Where each front ends.
    ends: Vec<usize>,
}

impl Rows {
    fn clear(&mut self) {
        self.points.clear();
        self.ends.clear();
    }

    fn push(&mut self, front: &[Point]) {
        self.points.extend_from_slice(front);
        self.ends.push(self.points.len());
    }

    /// The front of the first so many children.
    fn get(&self, count: usize) -> &[Point] {
        let begin = if count == 0 { 0 } else { self.ends[count - 1] };
        &self.points[begin..self.ends[count]]
    }
}

/// The fronts of one node after another. The memory is kept.
#[derive(Default)]
pub struct Fronts {
    k: u32,
    children: Vec<Child>,
    rows: Rows,
    reach: Reach,
    /// The front that is made, and room for the next.
    points: Vec<Point>,
    spare: Vec<Point>,
}

impl Fronts {
    /// Makes the fronts for these children, of which the node's part can take `room`.
    pub fn build(&mut self, k: u32, room: u32, children: impl Iterator<Item = Child>) {
        self.k = k;
        self.children.clear();
        self.children.extend(children);
        self.rows.clear();
        self.rows.push(&[Point {
            extra: 0,
            weight: 0,
            members: 0,
        }]);
        let mut plain = Window::default();
        for last in 0..self.children.len() {
            plain.slide(k, &self.children[..=last]);
            self.step(room, last, &plain);
        }
    }

    /// The front of all children.
    pub fn front(&self) -> &[Point] {
        self.rows.get(self.children.len())
    }

    /// The lightest point with the fewest intervals, and that with at most one more.
    pub fn forms(&self) -> [Point; 2] {
        let front = self.front();
        let first = front[0];
        let next = front.get(1).filter(|next| next.extra == first.extra + 1);
        [first, *next.unwrap_or(&first)]
    }

    fn step(&mut self, room: u32, last: usize, plain: &Window) {
        let weight = self.children[last].first;
        let uncut = self.rows.get(last).iter();
        let uncut = uncut.map(|point| point.with_uncut(weight));
        let uncut = uncut.skip_while(|point| u32::from(point.weight) > room);
        let members = last + 1 - plain.begin;
        let cut = self.rows.get(plain.begin).iter();
        let cut = cut.map(|point| point.with_interval(members, 0));
        merge(uncut, cut, &mut self.points);
        if self.can_grow(plain.begin, plain.lighter) {
            self.add_longer(last);
        }
        self.rows.push(&self.points);
    }

    /// Whether the interval that begins here, with this weight in lighter forms, can have
    /// one member more.
    fn can_grow(&self, begin: usize, lighter: u32) -> bool {
        begin > 0 && lighter + self.children[begin - 1].lighter <= self.k
    }

    /// Adds the intervals up to the last child with members in their second form. Of those
    /// with the same number of them the longest is the best.
    fn add_longer(&mut self, last: usize) {
        self.reach.clear();
        let mut begin = last + 1;
        while self.can_grow(begin, self.reach.lighter) {
            let upgrades = self.reach.upgrades;
            self.reach.add(self.k, self.children[begin - 1]);
            if 0 < upgrades && upgrades < self.reach.upgrades {
                self.add_interval(begin..last + 1, upgrades);
            }
            begin -= 1;
        }
        if 0 < self.reach.upgrades {
            self.add_interval(begin..last + 1, self.reach.upgrades);
        }
    }

    fn add_interval(&mut self, members: Range<usize>, upgrades: usize) {
        let cut = self.rows.get(members.start).iter();
        let cut = cut.map(|point| point.with_interval(members.len(), upgrades));
        merge(self.points.iter().copied(), cut, &mut self.spare);
        mem::swap(&mut self.points, &mut self.spare);
    }

    /// Tells the intervals of a choice that reaches a point of the front of all children,
    /// the last interval first: its members, and those of them in their second form.
    pub fn walk_back(&self, mut point: Point, mut tell: impl FnMut(Range<usize>, &[usize])) {
        let mut count = self.children.len();
        while count > 0 {
            let mut extra = point.extra;
            if point.members == 0 {
                count -= 1;
            } else {
                let members = count - usize::from(point.members)..count;
                count = members.start;
                let upgraded = self.upgraded(members.clone());
                extra -= 1 + upgraded.len() as u32;
                tell(members, &upgraded);
            }
            let front = self.rows.get(count);
            let place = front.binary_search_by_key(&extra, |before| before.extra);
            point = front[place.expect("the point before")];
        }
    }

    /// The fewest members that bring their interval to `k` in their second form.
    fn upgraded(&self, members: Range<usize>) -> Vec<usize> {
        let first = |member: &usize| self.children[*member].first;
        let saving = |member: &usize| self.children[*member].saving();
        let mut weight: u32 = members.clone().map(|member| first(&member)).sum();
        let mut members = Vec::from_iter(members);
        members.sort_by_key(|member| Reverse(saving(member)));
        let mut count = 0;
        while weight > self.k {
            weight -= saving(&members[count]);
            count += 1;
        }
        members.truncate(count);
        members
    }
}
