"""What the program brute_force must write, worked out by sets of cells.

Run from the repository's root:

    python3 tests/brute_force.py > crates/brute_force/stdout

It shares with the program the thirteen pieces, the sequence of drawn ones and the form of the output, and none of its
code. A set is a Python set of cells (x, y) with no edge and no window. Sums, positions that fit, the cells to the left of a
side and opposed diagonal rows are taken word for word from the definitions; a spread is filled where its operands are opposed,
and that no octagon has just its sums is asserted beside it. The triangles of a split are picked from all the ways to take
pieces from what the rows leave until nothing is left. Folds in two calls are those of the smallest octagon that holds what
the first gave. As many folds as the limit has, or nearly, are told from the plot, moved by that many times each cell of the
element. A plot is opened too by the smallest octagon that holds the sums of its element and that of the pair before, or K2 or
K4; that the opening lies inside the one by the element alone is asserted. "agreed" is the number of comparisons that the
program makes, since every answer has to agree.
"""

from fractions import Fraction
from functools import cache

MOST = 2**31 - 1
LIMIT = 2000000
FOLDS = 4000001
STEPS = [(1, 0), (1, 1), (0, 1), (-1, 1), (-1, 0), (-1, -1), (0, -1), (1, -1)]


def forms(cell):
    x, y = cell
    return [-y, x - y, x, x + y, y, -x + y, -x, -x - y]


def square(middle, reach):
    x, y = middle
    return [(x + a, y + b) for a in range(-reach, reach + 1) for b in range(-reach, reach + 1)]


def cells(bounds, middle):
    """The cells within eight bounds. Those of the octagons here are at most 8 from a middle; 12 shows that no more are left out."""
    some = {c for c in square(middle, 12) if all(f <= b for f, b in zip(forms(c), bounds))}
    assert all(max(abs(x - middle[0]), abs(y - middle[1])) <= 8 for x, y in some)
    return some


def tightest(some):
    """The maxima of the eight forms."""
    return [max(values) for values in zip(*map(forms, some))]


def smallest(some):
    """The cells of the smallest octagon that holds some cells, within a rectangle about them."""
    xs = [x for x, _ in some]
    ys = [y for _, y in some]
    bounds = tightest(some)
    about = [(x, y) for x in range(min(xs), max(xs) + 1) for y in range(min(ys), max(ys) + 1)]
    return {c for c in about if all(f <= b for f, b in zip(forms(c), bounds))}


def is_octagon(some):
    return some == smallest(some)


def is_off_map(some):
    return any(abs(x) > LIMIT or abs(y) > LIMIT for x, y in some)


def dilation(a, b):
    return {(x + u, y + v) for x, y in a for u, v in b}


def erosion(a, b):
    u, v = next(iter(b))
    candidates = {(x - u, y - v) for x, y in a}
    return {(x, y) for x, y in candidates if all((x + s, y + t) in a for s, t in b)}


def is_row(some, line):
    return len(some) > 1 and len({line(x, y) for x, y in some}) == 1


def is_opposed(a, b):
    def rising(some):
        return is_row(some, lambda x, y: x - y)

    def falling(some):
        return is_row(some, lambda x, y: x + y)

    return (rising(a) and falling(b)) or (falling(a) and rising(b))


# ---- answers: a list of ten numbers, the refusal number, and the mark


def row(numbers, number=0, filled=False):
    return numbers + [0] * (10 - len(numbers)) + [number, int(filled)]


def refused(number):
    return row([], number)


def lifted(numbers):
    """Signed numbers as the program writes them."""
    return [n + 2**32 for n in numbers]


def bounded(some, filled):
    """The bounds of cells with a mark, if they are on the map."""
    return refused(2) if is_off_map(some) else row(lifted(tightest(some)), filled=filled)


def accepted(some, filled=False):
    """Cells that are those of an octagon."""
    assert is_octagon(some)
    return bounded(some, filled)


def normal(some):
    return accepted(some) if some else refused(1)


def is_filled(a, b, folds, sums):
    """Whether so many folds of two sets, and their sums, are filled."""
    filled = folds > 0 and is_opposed(a, b)
    assert filled != is_octagon(sums)
    return filled


def spread(a, b):
    """The answer to a spread of cells on the map."""
    sums = dilation(a, b)
    return bounded(sums, is_filled(a, b, 1, sums))


def trimmed(left, filled=False):
    return accepted(left, filled) if left else refused(5)


def trim(a, b):
    return trimmed(erosion(a, b))


def close(a, b):
    """The answer to a closing whose spread is accepted."""
    sums = dilation(a, b)
    return trimmed(erosion(sums, b), is_filled(a, b, 1, sums))


# ---- outlines


def corners(start, sides):
    """The corners of a walk, and where it ends."""
    x, y = start
    found = [start]
    for n, (dx, dy) in zip(sides, STEPS):
        x, y = x + n * dx, y + n * dy
        found.append((x, y))
    return found


def outline(some):
    """The start and the sides: the corner after side k is the last cell of the set along step k."""
    x, y = start = min(some, key=lambda c: (c[1], c[0]))
    sides = []
    for dx, dy in STEPS:
        n = 0
        while (x + dx, y + dy) in some:
            x, y, n = x + dx, y + dy, n + 1
        sides.append(n)
    assert (x, y) == start
    assert set(corners(start, sides)) <= some and inside(start, sides) == some
    return start, sides


def inside(start, sides):
    """The cells on or to the left of each side. Those of the walks here are at most 10 from the start; 12 shows that no more are left out."""
    found = corners(start, sides)
    assert found[8] == start
    some = {
        (x, y)
        for x, y in square(start, 12)
        if all(dx * (y - v) - dy * (x - u) >= 0 for (dx, dy), (u, v) in zip(STEPS, found))
    }
    assert all(max(abs(x - start[0]), abs(y - start[1])) <= 10 for x, y in some)
    return some


def outline_row(start, sides):
    return row(sides + lifted(start))


def octagon_of(start, sides):
    return accepted(inside(start, sides)) if corners(start, sides)[8] == start else refused(3)


def corner_row(some, k):
    if k > 7:
        return refused(7)
    start, sides = outline(some)
    corner = corners(start, sides)[k]
    # a quarter of a cell number is a float of its own
    assert all(Fraction(n / 4) == Fraction(n, 4) for n in corner)
    return row(lifted(corner))


# ---- pieces

PIECES = [
    [1, 0, 0, 0, 1, 0, 0, 0],
    [0, 1, 0, 0, 0, 1, 0, 0],
    [0, 0, 1, 0, 0, 0, 1, 0],
    [0, 0, 0, 1, 0, 0, 0, 1],
    [1, 0, 1, 0, 0, 1, 0, 0],
    [1, 0, 0, 1, 0, 0, 1, 0],
    [0, 1, 0, 0, 1, 0, 1, 0],
    [0, 0, 1, 0, 1, 0, 0, 1],
    [2, 0, 0, 1, 0, 1, 0, 0],
    [0, 1, 0, 0, 2, 0, 0, 1],
    [0, 1, 0, 1, 0, 0, 2, 0],
    [0, 0, 2, 0, 0, 1, 0, 1],
    [0, 1, 0, 1, 0, 1, 0, 1],
]


# the kinds K5 to K12 that stand together
TOGETHER = [{6, 11}, {8, 10}, {5, 9}, {7, 11}, {8, 12}, {6, 9}, {7, 10}, {5, 12}]


@cache
def makings(sides, least=5):
    """All the ways to make sides of the pieces K5 to K12, each as its kinds in rising order."""
    if not any(sides):
        return [()]
    return [
        (k, *others)
        for k in range(least, 13)
        if all(a >= b for a, b in zip(sides, PIECES[k - 1]))
        for others in makings(tuple(a - b for a, b in zip(sides, PIECES[k - 1])), k)
    ]


def split(sides):
    """The thirteen counts by the rule, of which one choice fits."""
    counts = [min(sides[k], sides[k + 4]) for k in range(4)]
    rest = tuple(n - counts[k % 4] for k, n in enumerate(sides))
    (chosen,) = [kinds for kinds in makings(rest) if any(set(kinds) <= pair for pair in TOGETHER)]
    counts += [chosen.count(k) for k in range(5, 13)]
    k1, k2, k3, k4, *others = counts
    if k2 >= 1 and k4 >= 1 and not any([k1, k3, *others]):
        return [0, k2 - 1, 0, k4 - 1] + [0] * 8 + [1]
    return counts + [0]


# ---- drawn octagons


def bytes_from(seed):
    while True:
        seed = (seed * 1103515245 + 12345) % 2**31
        yield seed // 2**16 % 256


def coordinate(draw):
    n = draw // 16
    return {0: 1999992 + n, 1: -1999992 - n}.get(draw % 16, n - 7)


def piece(draw):
    """K2 or K4 in one draw of four."""
    n = draw // 4 % 13
    return PIECES[n % 2 * 2 + 1 if draw % 4 == 0 else n]


def drawn(draw, most):
    """The bounds of one octagon from ten draws, and the middle of the cells that it has."""
    d = [0] + [next(draw) for _ in range(10)]
    middle = coordinate(d[6]), coordinate(d[7])
    m, n = d[2] % (most + 1), d[4] % (most + 1)
    sides = [m * a + n * b for a, b in zip(piece(d[1]), piece(d[3]))]
    bounds = tightest(inside(middle, sides))
    for k in range(8):
        n = d[8 + k % 3]
        if d[5] % 8 == 7:
            bounds[k] -= n % 3
        elif d[5] % 8 == k % 2:
            bounds[k] = MOST if n % 8 == 0 else bounds[k] + n // 8 % 4
    return bounds, middle


# ---- the tally

# what is counted of a call: accepted ones as 0, and the refusals
NUMBERS = [0, 1, 2, 3, 5, 6, 7]


class Kind:
    def __init__(self):
        self.numbers = dict.fromkeys(NUMBERS, 0)
        self.filled = 0
        self.digest = 0

    def note(self, expected, counts=()):
        self.numbers[expected[10]] += 1
        self.filled += expected[11]
        for value in [*expected, *counts]:
            self.digest = (self.digest * 31 + value) % 1000000007


CALLS = {
    name: Kind()
    for name in (
        "normalise count_cells to_outline vertex_place to_octagon decompose "
        "dilate erode closing opening dilate_n erode_n dilate_m_n erode_m_n open_by_both"
    ).split()
}
# those on two operands
OPERATIONS = list(CALLS)[6:14]


def compare_operand(pair, some):
    expected = normal(some)
    number = expected[10]
    CALLS["normalise"].note(expected)
    CALLS["count_cells"].note(refused(number) if number else row([len(some)]))
    CALLS["to_outline"].note(refused(number) if number else outline_row(*outline(some)))
    CALLS["vertex_place"].note(refused(number) if number else corner_row(some, pair % 9))
    return number


def compare_split(number, some):
    if number:
        CALLS["decompose"].note(refused(number), [0] * 13)
    else:
        start, sides = outline(some)
        CALLS["decompose"].note(outline_row(start, sides), split(sides))


def compare_back(pair, some):
    """An outline of the set, with one side longer, or two opposite ones, or as it is."""
    start, sides = outline(some)
    choice = pair % 20
    if choice < 16:
        sides[choice % 8] += 1
    if 8 <= choice < 16:
        sides[(choice + 4) % 8] += 1
    CALLS["to_octagon"].note(octagon_of(start, sides))


def compare_steps(p, e):
    first = spread(p, e)
    CALLS["dilate"].note(first)
    CALLS["closing"].note(first if first[10] else close(p, e))
    first = trim(p, e)
    CALLS["erode"].note(first)
    CALLS["opening"].note(first if first[10] else spread(erosion(p, e), e))


def dilations(a, b, n):
    """A set and its sums after one fold to n."""
    found = [a]
    for _ in range(n):
        found.append(dilation(found[-1], b))
    return found


def erosions(a, b, n):
    found = [a]
    for _ in range(n):
        found.append(erosion(found[-1], b) if found[-1] else set())
    return found


def moved(p, e, n):
    """A set moved by n times the one cell of e, which is what n folds of it give, or -n trims."""
    ((u, v),) = e
    return {(x + n * u, y + n * v) for x, y in p}


def most_sums(p, e, n):
    """The answer to so many spreads that with those of p already made they are as many as the limit: the sums have p moved by that many times
    each cell of e."""
    if len(e) == 1:
        return accepted(moved(p, e, n))
    assert any(is_off_map(moved(p, [cell], n)) for cell in e)
    return refused(2)


def most_then_few(p, e, m):
    """The answer to all but m of as many spreads as the limit has, and then to the m."""
    if len(e) > 1:
        # the octagon of the first call, if there is one, holds its sums, and so that of the second all the sums
        return most_sums(p, e, FOLDS)
    first = accepted(moved(p, e, FOLDS - m))
    return first if first[10] else accepted(dilations(moved(p, e, FOLDS - m), e, m)[m])


def most_left(p, e, n):
    """The answer to so many trims, about as many as the limit: what is left lies in p moved back by that many times each cell of e."""
    if len(e) == 1:
        return trimmed(moved(p, e, -n))
    assert not set.intersection(*(moved(p, [cell], -n) for cell in e))
    return refused(5)


def second_spreads(more, e):
    """For each m up to 4 the answers to m spreads and then none to 4 - m: those of the smallest octagon that holds the sums."""
    found = []
    for m, sums in enumerate(more):
        given = smallest(sums)
        later = more[m:] if given == sums else dilations(given, e, 4 - m)
        first = [refused(2)] * len(later) if is_off_map(sums) else None
        found.append(first or [bounded(some, is_filled(given, e, n, some)) for n, some in enumerate(later)])
    return found


def compare_spreads(p, e):
    more = dilations(p, e, 4)
    given = second_spreads(more, e)
    for k, sums in enumerate(more):
        at_once = bounded(sums, is_filled(p, e, k, sums))
        CALLS["dilate_n"].note(at_once)
        for m in range(k + 1):
            # folds add up, but for the mark
            assert given[m][k - m][:11] == at_once[:11]
            CALLS["dilate_m_n"].note(given[m][k - m])
    most = most_sums(p, e, FOLDS)
    CALLS["dilate_n"].note(most)
    for m in range(5):
        # few folds and then the rest, and the other way round
        CALLS["dilate_m_n"].note(refused(2) if is_off_map(more[m]) else most_sums(smallest(more[m]), e, FOLDS - m))
        CALLS["dilate_m_n"].note(most_then_few(p, e, m))
    CALLS["dilate_n"].note(refused(6))


def compare_trims(p, e):
    less = erosions(p, e, 4)
    for k, left in enumerate(less):
        CALLS["erode_n"].note(trimmed(left))
        for first in less[: k + 1]:
            # where the first of two trims leaves the map, nothing is compared
            if trimmed(first)[10] != 2:
                CALLS["erode_m_n"].note(trimmed(left))
    most = most_left(p, e, FOLDS)
    CALLS["erode_n"].note(most)
    for m, left in enumerate(less):
        first, other = trimmed(left), most_left(p, e, FOLDS - m)
        if first[10] != 2:
            CALLS["erode_m_n"].note(first if first[10] else most_left(left, e, FOLDS - m))
        CALLS["erode_m_n"].note(other if other[10] else trimmed(erosions(moved(p, e, m - FOLDS), e, m)[m]))
    CALLS["erode_n"].note(refused(6))


def opened_by(p, frame):
    """The answer to an opening of cells on the map, and the cells of the octagon handed back, if any."""
    left = erosion(p, frame)
    first = trimmed(left)
    if first[10]:
        return first, None
    return spread(left, frame), smallest(dilation(left, frame))


def by_both(p, e, third):
    """The answer to a plot opened by what one element spread with a third set gives."""
    number = normal(e)[10] or normal(third)[10]
    if number:
        return refused(number)
    sums = dilation(e, third)
    number = bounded(sums, False)[10] or normal(p)[10]
    if number:
        return refused(number)
    answer, less = opened_by(p, smallest(sums))
    if less:
        alone, more = opened_by(p, e)
        # inside what the element alone opens, which is nothing only where that is off the map
        assert less <= more if more else alone[10] == 2
    return answer


def compare(pair, plot, element, third):
    p, e = cells(*plot), cells(*element)
    compare_pair(pair, p, e)
    CALLS["open_by_both"].note(by_both(p, e, third))
    return e


def compare_pair(pair, p, e):
    first, second = compare_operand(pair, p), compare_operand(pair, e)
    compare_split(first, p)
    if p:
        compare_back(pair, p)
    if first or second:
        for name in OPERATIONS:
            CALLS[name].note(refused(first or second))
        return
    compare_steps(p, e)
    compare_spreads(p, e)
    compare_trims(p, e)


def main():
    draw = bytes_from(0)
    third = set()
    for pair in range(2500):
        plot = drawn(draw, 2)
        element = compare(pair, plot, drawn(draw, 1), third)
        third = element if pair % 2 else inside((0, 0), PIECES[pair % 4 + 1])
    print("call         accepted, of these filled, refused with 1, 2, 3, 5, 6, 7, agreed, digest")
    for name, kind in CALLS.items():
        accepts, *refusals = kind.numbers.values()
        print(f"{name:<12}", accepts, kind.filled, *refusals, accepts + sum(refusals), kind.digest)


main()
