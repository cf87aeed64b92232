"""Groups of boxes that touch, so that a picture can show where they are."""

FULL = 1024          # spans are in 1024ths of the unit box
SMALL = 24           # pixels; a group below it is ringed and enlarged


class Group:
    """Boxes, each given as its spans, and the spans of them all together."""

    def __init__(self, boxes):
        self.boxes = boxes
        self.spans = [(min(low for low, _ in spans), max(high for _, high in spans))
                      for spans in zip(*boxes)]

    def anchor(self):
        """The middle of the box nearest to the group's middle."""
        def distance(box):
            return sum((a - b) ** 2 for a, b in zip(middle(box), middle(self.spans)))

        return middle(min(self.boxes, key=distance))

    def is_small(self, length):
        return all((high - low) * length < SMALL * FULL for low, high in self.spans)


def middle(spans):
    return [(low + high) / 2 for low, high in spans]


def touching(one, other):
    return all(a[0] <= b[1] and b[0] <= a[1] for a, b in zip(one, other))


def groups_of(boxes):
    """The groups of boxes given as spans, in the order of their first boxes."""
    groups = []
    for box in boxes:
        near = [any(touching(box, member) for member in group) for group in groups]
        if not any(near):
            groups.append([box])
            continue
        first = near.index(True)
        joined = [member for group, is_near in zip(groups, near) if is_near for member in group]
        groups[first] = joined + [box]
        groups = [group for index, (group, is_near) in enumerate(zip(groups, near))
                  if index == first or not is_near]
    return [Group(group) for group in groups]
