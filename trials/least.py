"""The fewest intervals of a feasible partitioning, by the choices of docs/FORMATS.md ("What supports a bound"): a plain search."""

from bisect import insort


class TooLong(Exception):
    pass


def bounds_of(root, k, most_steps, of_all=None):
    """LEAST, LEAN and NEARLY of a document's root, none of whose nodes weighs more than k; None where that takes too many steps.
    Those of all nodes, in document order, are put into the list `of_all`."""
    left = [most_steps]
    try:
        return bound(root, k, left, of_all)
    except TooLong:
        return None


def bound(node, k, left, of_all):
    if of_all is not None:
        of_all.append(None)
        place = len(of_all) - 1
    below = [bound(child, k, left, of_all) for child in node.children]
    found = chosen(node.weight, below, k, left)
    if of_all is not None:
        of_all[place] = found
    return found


def chosen(weight, below, k, left):
    """The bound of a node that weighs so much, by those of its children."""
    # For each number of children so far: by how many intervals more, the least that the node and its uncut children weigh.
    rooms = [{0: weight}]
    for at, (_, lean, _) in enumerate(below):
        now = {count: room + lean for count, room in rooms[at].items() if room + lean <= k}
        total, gains, nearest = 0, [], 0
        for first in range(at, -1, -1):
            _, lean, nearly = below[first]
            total, nearest = total + lean, nearest + nearly
            if nearest > k:
                break
            insort(gains, nearly - lean)
            more = seconds(total, gains, k)
            left[0] -= len(rooms[first])
            for count, room in rooms[first].items():
                if room < now.get(count + more, k + 1):
                    now[count + more] = room
        if left[0] < 0:
            raise TooLong
        rooms.append(lighter(now))
    last = rooms[-1]
    fewest = min(last)
    lean = last[fewest]
    return fewest + 1 + sum(least - 1 for least, _, _ in below), lean, min(lean, last.get(fewest + 1, lean))


def seconds(total, gains, k):
    """How many intervals more a row of children takes that weigh so much together: itself, and each child in its second form."""
    more = 1
    for gain in gains:
        if total <= k:
            break
        total, more = total + gain, more + 1
    return more


def lighter(rooms):
    """Without what weighs no less than one of fewer intervals."""
    found, best = {}, None
    for count in sorted(rooms):
        if best is None or rooms[count] < best:
            best = found[count] = rooms[count]
    return found
