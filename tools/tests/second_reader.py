"""A second reader of the system file, made apart from the tool's own: it only
says which refusal a file gets, as (number, offset), or None for a valid file."""


def refusal(data):
    def two(at):
        return data[at] + 256 * data[at + 1]

    def header(at, kind, lengths):
        if at + 4 > len(data):
            return 1, at
        if two(at + 2) != kind:
            return 2, at
        if two(at) not in lengths:
            return 3, at
        return (1, at) if at + 4 + two(at) > len(data) else None

    bad = header(0, 1, [8])
    if bad:
        return bad
    variables, count, *rest = data[4:12]
    degrees, depths = rest[:3], rest[3:]
    room = (degrees[0] + 1) * (degrees[1] + 1) * (degrees[2] + 1)
    if (variables not in (1, 2, 3) or count not in (1, 2, 3) or max(degrees) > 6
            or max(depths) > 10 or any(degrees[variables:] + depths[variables:]) or room > 64):
        return 4, 0
    at = 12
    for number in range(1, count + 1):
        bad = header(at, 2, range(1, 2 + 7 * room, 7))
        if bad:
            return bad
        if data[at + 4] != number:
            return 2, at
        end = at + 4 + two(at)
        before = None
        for term in range(at + 5, end, 7):
            exponents = list(data[term:term + 3])
            coefficient = int.from_bytes(data[term + 3:term + 7], "little", signed=True)
            if any(e > n for e, n in zip(exponents, degrees)):
                return 5, term
            if coefficient == 0 or not -10 ** 9 <= coefficient <= 10 ** 9:
                return 6, term
            # within the degrees the order of places is that of the exponents
            if before is not None and exponents <= before:
                return 7, term
            before = exponents
        at = end
    bad = header(at, 3, [0])
    if bad:
        return bad
    return (8, at + 4) if len(data) > at + 4 else None
