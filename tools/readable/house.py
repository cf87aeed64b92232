"""The crates of crates.txt by layers, and where each stands in a picture: the ground is below, and no arrow goes up."""

from collections import namedtuple

Crate = namedtuple("Crate", "name needs subject layer")
Edge = namedtuple("Edge", "upper lower points")  # points: an item of each row from the upper crate to the lower
SWEEPS, SETTLING = 40, 500  # rounds of ordering, and of placing: hardly anything moves any more


class HouseError(Exception):
    """A line of crates.txt that can't be drawn; the text says why."""


class Item:
    """A crate, or the place where an arrow passes a row; x is its middle."""

    def __init__(self, row, width, crate=None):
        self.row, self.width, self.crate = row, width, crate
        self.x, self.above, self.below = 0.0, [], []


def read(text):
    """The crates in their order; comment lines of one word name the layers, a comment behind a crate is its subject. Behind its name may stand what kind of
    crate it is, as `staticlib`."""
    crates, layer = {}, None
    for number, line in enumerate(text.splitlines(), 1):
        said, _, comment = (part.strip() for part in line.partition("#"))
        if not said:
            layer = comment if len(comment.split()) == 1 else layer
            continue
        kind, _, needs = said.partition(":")
        name = kind.split()[0] if kind.split() else ""
        if not layer or not comment:
            raise HouseError("crates.txt, line %d: %s has no %s" % (number, name, "subject" if layer else "layer"))
        crates[name] = Crate(name, needs.split(), comment, layer)
    return {name: crate._replace(needs=[other for other in crate.needs if other in crates]) for name, crate in crates.items()}


def below(crates, name):
    """All crates that one stands on, directly or not."""
    found = set()
    for other in crates[name].needs:
        found |= {other} | below(crates, other)
    return found


def arrows(crates):
    """What each crate stands on and no crate below it does: the rest is implied."""
    return [(name, other) for name, crate in crates.items() for other in crate.needs
            if not any(other in below(crates, between) for between in crate.needs)]


def rows(crates):
    """The row of each crate from the ground up: the layers stand on each other, and within a layer a crate stands above what it needs."""
    found, first = {}, 0
    layers = list(dict.fromkeys(crate.layer for crate in crates.values()))
    for layer in layers:
        inside = [name for name, crate in crates.items() if crate.layer == layer]
        for name in sorted(inside, key=lambda one: len(below(crates, one) & set(inside))):
            found[name] = max([first] + [found[other] + 1 for other in crates[name].needs if crates[other].layer == layer])
        first = max(found[name] for name in inside) + 1
    for name, other in arrows(crates):
        if found[other] >= found[name]:
            raise HouseError("crates.txt: %s stands on %s, which is not below it" % (name, other))
    return found


def items(crates, width_of, pass_width):
    """Rows of items, each in the order of crates.txt, and the edges between them."""
    place = rows(crates)
    by_row = [[] for _ in range(max(place.values()) + 1)]
    of = {name: Item(place[name], width_of(crate), crate) for name, crate in crates.items()}
    for item in of.values():
        by_row[item.row].append(item)
    edges = []
    for upper, lower in arrows(crates):
        passing = [Item(row, pass_width) for row in range(place[upper] - 1, place[lower], -1)]
        for item in passing:
            by_row[item.row].append(item)
        points = [of[upper], *passing, of[lower]]
        for one, other in zip(points, points[1:]):
            one.below.append(other)
            other.above.append(one)
        edges.append(Edge(upper, lower, points))
    return by_row, edges


def mean(values):
    return sum(values) / len(values)


def crossings(by_row):
    """How many pairs of edges cross between neighbouring rows."""
    count = 0
    for row in by_row:
        at = {id(item): number for line in by_row for number, item in enumerate(line)}
        ends = [(number, at[id(other)]) for number, item in enumerate(row) for other in item.below]
        count += sum((a - c) * (b - d) < 0 for i, (a, b) in enumerate(ends) for c, d in ends[:i])
    return count


def order(by_row):
    """Moves every item near the middle of its neighbours, up and down again and again; the order with the fewest crossings stays."""
    best, fewest = [list(row) for row in by_row], crossings(by_row)
    for sweep in range(SWEEPS):
        for number in range(len(by_row))[::1 if sweep % 2 else -1]:
            at = {id(item): place for row in by_row for place, item in enumerate(row)}
            near = {id(item): [at[id(other)] for other in (item.below if sweep % 2 else item.above)] or [at[id(item)]] for item in by_row[number]}
            by_row[number].sort(key=lambda item: mean(near[id(item)]))
        found = crossings(by_row)
        if found < fewest:
            best, fewest = [list(row) for row in by_row], found
    return best


def spaced(row, wanted, gap):
    """Places as near to the wanted ones as the order and the gaps allow: neighbours that would overlap move as one."""
    offsets, groups = [0.0], []
    for one, other in zip(row, row[1:]):
        offsets.append(offsets[-1] + (one.width + other.width) / 2 + gap)
    for number, item in enumerate(row):
        weight = 1 if item.crate else 3  # a straight arrow is worth more than a centred box
        groups.append([weight, weight * (wanted[number] - offsets[number]), 1])
        while len(groups) > 1 and groups[-2][1] / groups[-2][0] > groups[-1][1] / groups[-1][0]:
            last = groups.pop()
            groups[-1] = [a + b for a, b in zip(groups[-1], last)]
    starts = [total / weight for weight, total, count in groups for _ in range(count)]
    return [start + offset for start, offset in zip(starts, offsets)]


def place(by_row, gap):
    """Gives every item its x: the middle of its neighbours, as far as there is room."""
    for row in by_row:
        for item, x in zip(row, spaced(row, [0.0] * len(row), gap)):
            item.x = x
    for _ in range(SETTLING):
        for row in by_row:
            wanted = [mean([other.x for other in item.above + item.below] or [item.x]) for item in row]
            for item, x in zip(row, spaced(row, wanted, gap)):
                item.x = x
    left = min(item.x - item.width / 2 for row in by_row for item in row)
    for row in by_row:
        for item in row:
            item.x -= left
