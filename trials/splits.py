"""Intervals of a document and what an edit makes of them, by docs/FORMATS.md: "Intervals of a stored document"."""

import re


class Wrong(Exception):
    """What a program told, or left, that can't be."""


class Law:
    """What a test may turn, to see that it is found."""

    def may_be_full(self, nodes, pages, rules, limit):
        """Nodes, and pages of long contents, are those before and those after together."""
        return 3 * nodes + pages + rules + 8 >= limit

    def rule_order(self, pair):
        return pair

    def fewest(self, bounds):
        """How many intervals a load has, and the weight of the root's part, by the root's bound."""
        return bounds[0], bounds[1]

    def is_change(self, word):
        """Whether a command that begins so may stand in a transaction."""
        return word in (b"load", b"drop", b"rename", b"insert", b"delete", b"retext", b"rule")

    def number(self, at):
        """What a command of a transaction is called, by how many are before it."""
        return at + 1

    def behind_refusal(self, before, now):
        """The state behind a transaction that is refused, by that before it and that behind its commands before the refused one."""
        return before

    def is_inside(self, first, last, position):
        return first < position <= last

    def runs_with(self, entry, position, runs):
        """The intervals of a node's children where a child with this entry comes to a position."""
        found = []
        for first, last in runs:
            if not self.is_inside(first, last, position):
                found.append([first, last] if last < position else [first + 1, last + 1])
            elif entry == "free":
                found.append([first, last + 1])
            else:
                found += [[first, position - 1], [position + 1, last + 1]]
        return sorted([*found, [position, position]]) if entry == "standalone" else found

    def runs_without(self, position, runs):
        found = [[first - (position < first), last - (position <= last)] for first, last in runs]
        return [run for run in found if run[0] <= run[1]]

    def root_entry(self, entry):
        return "free" if entry == "cluster" else entry

    def point(self, weight, target):
        return weight * target // 100

    def is_marked(self, spot, point, tolerance):
        return spot.begins <= point < spot.ends and spot.ends - spot.begins > tolerance

    def is_left(self, spot, point):
        return spot.ends <= point

    def room(self, k, weight):
        """What the part above a heavy one has left."""
        return k - weight

    def may_be_raised(self, entry, weight, room):
        """Whether a root of the separator joins the part above, by what its part weighs in the plan."""
        return entry != "standalone" and weight <= room

    def do_not_fit(self, weight, k):
        return weight > k

    def may_be_cut(self, components_are_light):
        """Whether a cluster node may be a member of an interval of a split that isn't the separator's."""
        return not components_are_light


class Part:
    """The interval of children of a node, from a first to a last one, the part that the node is in, and the weight of its own part. That of the root has no node, and none above."""

    __slots__ = ("node", "path", "first", "last", "above", "weight")

    def __init__(self, node, path, first, last, above):
        self.node, self.path, self.first, self.last, self.above, self.weight = node, path, first, last, above, 0

    def key(self):
        return self.path, self.first, self.last

    def line(self):
        if self.node is None:
            return b"root %d" % self.weight
        return b"run %s %d %d %d" % (self.path or b"/", self.first, self.last, self.weight)


def parts_of(root):
    """The intervals with the weights of their parts, in document order of the first members."""
    part = Part(None, None, 0, 0, None)
    part.weight = root.weight
    return add_parts(root, b"", part, [part])


def add_parts(node, path, own, found):
    runs = iter(node.runs)
    run, inside = next(runs, None), None
    for at, child in enumerate(node.children):
        if run and at == run[0]:
            inside = Part(node, path, *run, own)
            found.append(inside)
        owner = inside or own
        owner.weight += child.weight
        if child.children:
            add_parts(child, b"%s/%d" % (path, at), owner, found)
        if run and at == run[1]:
            run, inside = next(runs, None), None
    return found


def take(root, reply):
    """Draws the intervals of a reply to `layout` into a document: the parts, which have to give this reply."""
    forget(root)
    for line in reply[1:]:
        found = re.fullmatch(rb"run (/|(?:/\d+)+) (\d+) (\d+) \d+", line)
        if not found:
            raise Wrong(f"the layout has a line {line[:80]!r}")
        node = root
        for position in found[1].split(b"/")[1:]:
            if position and int(position) >= len(node.children):
                raise Wrong(f"the layout has {line[:80]!r}, and no such node is there")
            node = node.children[int(position)] if position else node
        first, last = int(found[2]), int(found[3])
        if not first <= last < len(node.children) or (node.runs and node.runs[-1][1] >= first):
            raise Wrong(f"the layout has {line[:80]!r}, which is no interval, or stands out of order")
        node.runs.append([first, last])
    parts = parts_of(root)
    if [part.line() for part in parts] != reply:
        wrong = next((pair for pair in zip([part.line() for part in parts], reply) if pair[0] != pair[1]), (len(parts), len(reply)))
        raise Wrong(f"the layout of these intervals has {wrong[0]} where the reply has {wrong[1]}")
    return parts


def forget(node):
    node.runs = []
    for child in node.children:
        if child.children:
            forget(child)


# Splits.


class Spot:
    """A node of a part. It begins and ends at weights; `children` are those that are in the part."""

    __slots__ = ("position", "weight", "entry", "children", "begins", "ends", "path", "marked")

    def __init__(self, position, weight, entry, path):
        self.position, self.weight, self.entry, self.path = position, weight, entry, path
        self.children, self.begins, self.ends, self.marked = [], 0, 0, False


class Sketch:
    """The nodes of a part as a split sees them, below a helper."""

    def __init__(self, model, root, part):
        self.model, self.k, self.law = model, model.k, model.law
        self.room = self.law.room(self.k, part.above.weight) if part.above else 0
        self.helper = Spot(0, 0, "free", None)
        self.spots, self.weight = [], 0
        if part.node is None:
            self.add(self.helper, root, 0, b"", "free")
        else:
            self.helper.path = part.path
            for at in range(part.first, part.last + 1):
                child = part.node.children[at]
                entry = self.law.root_entry(self.entry(part.node, child))
                self.add(self.helper, child, at, b"%s/%d" % (part.path, at), entry)
        self.point = self.law.point(self.weight, model.target)
        for spot in self.spots:
            spot.marked = self.law.is_marked(spot, self.point, model.tolerance)

    def entry(self, parent, child):
        return self.model.rules.get((parent.label(), child.label()), "free")

    def add(self, above, node, position, path, entry):
        spot = Spot(position, node.weight, entry, path)
        above.children.append(spot)
        self.spots.append(spot)
        spot.begins = self.weight
        self.weight += node.weight
        runs = iter(node.runs)
        run = next(runs, None)
        for at, child in enumerate(node.children):
            while run and run[1] < at:
                run = next(runs, None)
            if not run or at < run[0]:
                self.add(spot, child, at, b"%s/%d" % (path, at), self.entry(node, child))
        spot.ends = self.weight

    def separators_plan(self):
        """Its intervals, each as the path of the node above, and the first and the last position."""
        found = set()
        for above in (self.helper, *self.spots):
            rows = []
            for spot in above.children:
                if spot.entry == "standalone" or (above is self.helper and spot.marked):
                    found.add((above.path, spot.position, spot.position))
                elif (above is self.helper or above.marked) and spot.entry == "free" and not spot.marked:
                    left = self.law.is_left(spot, self.point)
                    if rows and rows[-1][0] == left and rows[-1][2] + 1 == spot.position:
                        rows[-1][2] = spot.position
                    else:
                        rows.append([left, spot.position, spot.position])
            found.update((above.path, first, last) for _, first, last in rows)
        return found

    def weights(self, plan):
        """By interval of a plan, what its part weighs."""
        found, by_path = dict.fromkeys(plan, 0), {}
        for path, first, last in plan:
            by_path.setdefault(path, []).append((first, last))

        def add(above, owner):
            runs = by_path.get(above.path, ())
            for spot in above.children:
                run = next((run for run in runs if run[0] <= spot.position <= run[1]), None)
                own = (above.path, *run) if run else owner
                found[own] = found.get(own, 0) + spot.weight
                add(spot, own)

        add(self.helper, None)
        return found

    def component(self, spot):
        return spot.weight + sum(self.component(child) for child in spot.children if child.entry == "cluster")

    def raised(self, weights):
        """The interval of the root that joins the part above, by what the parts of the separator's plan weigh: a set with it, or an empty one."""
        roots = ((spot.entry, (self.helper.path, spot.position, spot.position)) for spot in self.helper.children if spot.marked)
        return {interval for entry, interval in roots if self.law.may_be_raised(entry, weights[interval], self.room)}

    def check(self, plan, seen):
        """Says by `Wrong` why these intervals, each of the part's nodes, are no split."""
        separators = self.separators_plan()
        weights = self.weights(separators)
        if max(weights.values()) <= self.k:
            raised = self.raised(weights)
            seen["splits by the separator" + (", which joins the part above" if raised else "")] += 1
            if plan != separators - raised:
                raise Wrong(f"the split {shown(plan)} isn't the separator's plan {shown(separators)} without {shown(raised) or 'any'}")
            return
        seen["splits of another kind"] += 1
        weights = self.weights(plan)
        if None in weights or max(weights.values()) > self.k:
            raise Wrong(f"the split {shown(plan)} leaves a root out, or a part too heavy: {weights}")
        members = self.members(plan)
        singles = {(above.path, spot.position, spot.position) for above in (self.helper, *self.spots) for spot in above.children if spot.entry == "standalone"}
        if singles - plan:
            raise Wrong(f"the split {shown(plan)} has no intervals {shown(singles - plan)}, which are standalone")
        self.check_neighbours(plan - singles, weights, seen)
        self.check_clusters(plan, any(spot.entry == "cluster" for spots in members.values() for spot in spots), seen)

    def members(self, plan):
        """By interval of a plan its members, which have to be of the part."""
        children = {above.path: {spot.position: spot for spot in above.children} for above in (self.helper, *self.spots)}
        found = {}
        for path, first, last in plan:
            found[path, first, last] = [children[path].get(position) for position in range(first, last + 1)]
            if None in found[path, first, last]:
                raise Wrong(f"the split {shown(plan)} has members below {path} that aren't of the part")
        return found

    def check_neighbours(self, ordinary, weights, seen):
        """Intervals without a standalone member."""
        behind = {(path, first): (path, first, last) for path, first, last in ordinary}
        for interval in ordinary:
            other = behind.get((interval[0], interval[2] + 1))
            if not other:
                continue
            seen["neighbours in such splits"] += 1
            if not self.law.do_not_fit(weights[interval] + weights[other], self.k):
                raise Wrong(f"the split {shown(ordinary)} has neighbours {shown({interval, other})} that weigh {weights[interval]} and {weights[other]}")

    def check_clusters(self, plan, is_cut, seen):
        light = all(self.component(spot) <= self.k for spot in self.spots if spot.entry != "cluster")
        seen["such splits where clusters may stay whole"] += light and any(spot.entry == "cluster" for spot in self.spots)
        seen["such splits where a cluster is too heavy"] += not light
        if is_cut and not self.law.may_be_cut(light):
            raise Wrong(f"the split {shown(plan)} has a cluster node as a member, and no component is too heavy")


def judge(model, document, parts, heavy, reply):
    """Judges a reply to `layout` behind an edit that made a part too heavy, and draws it into the document."""
    sketch = Sketch(model, document.root, heavy)
    others = {part.key() for part in parts if part is not heavy}
    now = take(document.root, reply)
    keys = {part.key() for part in now}
    if others - keys:
        raise Wrong(f"the intervals {shown(others - keys)} are gone, which weren't too heavy")
    plan = keys - others
    paths = {spot.path for spot in (sketch.helper, *sketch.spots)}
    if {interval[0] for interval in plan} - paths:
        raise Wrong(f"the split {shown(plan)} has intervals below nodes that aren't of the part")
    sketch.check(plan, model.seen)
    return [part.line() for part in now]


def shown(plan):
    texts = [f"{(path if path is not None else b'root').decode() or '/'} {first} {last}" for path, first, last in sorted(plan, key=str)]
    return ", ".join(texts[:8]) + (f" and {len(texts) - 8} more" if len(texts) > 8 else "")
