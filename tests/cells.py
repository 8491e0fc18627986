"""Document 01's octagons, outlines and splits as sets of cells, for cases.py, exports.py, examples.py, openings.py, spectra.py,
clearances.py and the scripts of the tapes.

It shares nothing with the library. A set is a Python set of cells (x, y). Bounds hold the cells that pass the eight inequalities; the
bounds of an answer are the greatest values of their left sides. Sums, positions that fit, walks, opposed rows and the split are taken
word for word from document 01; a spread of opposed rows is filled, and the limits of the map and of folds are U10's, as document 02 has them.
A refusal is raised with its number.
"""
import sheets
from sheets import STEPS, Refused, corners

LIMIT = 2000000
FOLD_LIMIT = 4000001
WRONG_LENGTH = 255

# ---- octagons as sets


def forms(cell):
    x, y = cell
    return [-y, x - y, x, x + y, y, -x + y, -x, -x - y]


def within(bounds):
    box = [(x, y) for x in range(-bounds[6], bounds[2] + 1) for y in range(-bounds[0], bounds[4] + 1)]
    return {cell for cell in box if all(form <= bound for form, bound in zip(forms(cell), bounds))}


def tightest(cells):
    return [max(values) for values in zip(*map(forms, cells))]


def filled_up(cells):
    """The cells of the smallest octagon that holds these."""
    return within(tightest(cells))


def on_map(cells):
    """The same cells."""
    if any(abs(x) > LIMIT or abs(y) > LIMIT for x, y in cells):
        raise Refused(2)
    return cells


def octagonal(cells):
    """The same cells, which are on the map and those of an octagon."""
    assert filled_up(on_map(cells)) == cells
    return cells


def some(bounds):
    """The cells of an operand."""
    cells = within(bounds)
    if not cells:
        raise Refused(1)
    return octagonal(cells)


def is_row(cells, line):
    return len(cells) > 1 and len({line(x, y) for x, y in cells}) == 1


def are_opposed(a, b):
    def rising(cells):
        return is_row(cells, lambda x, y: x - y)

    def falling(cells):
        return is_row(cells, lambda x, y: x + y)

    return (rising(a) and falling(b)) or (falling(a) and rising(b))


def sums(a, b):
    return {(x + u, y + v) for x, y in a for u, v in b}


def positions(a, b):
    """The cells that, moved by every cell of b, are in a: each is a cell of a less one of b."""
    u, v = min(b)
    return {(x - u, y - v) for x, y in a if all((x - u + s, y - v + t) in a for s, t in b)}


def repeated(step, cells, n):
    """The cells after n steps. A step that leaves them as they are leaves them so however often it is made."""
    for _ in range(n):
        before, cells = cells, step(cells)
        if cells == before:
            break
    return cells


def sums_on_map(a, b, n):
    return on_map(repeated(lambda cells: sums(cells, b), a, n))


def spread(a, b, n=1):
    """The cells of the smallest octagon that holds the sums, and whether it is filled: no octagon has just the sums."""
    made = sums_on_map(a, b, n)
    cells = filled_up(made)
    filled = n > 0 and are_opposed(a, b)
    assert filled == (cells != made)
    return cells, filled


def trim(a, b, n=1):
    left = repeated(lambda cells: positions(cells, b), a, n)
    if not left:
        raise Refused(5)
    return octagonal(left)


def close(a, b):
    """The positions in the sums, filled or not, and the mark of the spread."""
    cells, filled = spread(a, b)
    closed = trim(sums_on_map(a, b, 1), b)
    assert positions(cells, b) == closed
    return closed, filled


def exact(cells):
    return cells, False


def folded(operation):
    def call(p, f, n):
        if n > FOLD_LIMIT:
            raise Refused(6)
        return operation(some(p), some(f), n)

    return call


# each answers the cells, and whether they are filled
PAIRED = {
    "dilate": lambda p, f, n: spread(some(p), some(f)),
    "erode": lambda p, f, n: exact(trim(some(p), some(f))),
    "opening": lambda p, f, n: spread(trim(some(p), some(f)), some(f)),
    "closing": lambda p, f, n: close(some(p), some(f)),
    "dilate_n": folded(spread),
    "erode_n": folded(lambda a, b, n: exact(trim(a, b, n))),
}

# ---- outlines, places and splits


def inside(start, sides):
    """The cells on or to the left of each side of a walk, within the box of its corners."""
    places = corners(*start, sides)
    if places[8] != tuple(start):
        raise Refused(3)
    xs, ys = zip(*places)
    box = [(x, y) for x in range(min(xs), max(xs) + 1) for y in range(min(ys), max(ys) + 1)]
    return octagonal({(x, y) for x, y in box if sheets.inside(places, x, y)})


def outline(cells):
    """The start, and the sides: each goes on along its step as long as there are cells."""
    x, y = start = min(cells, key=lambda cell: (cell[1], cell[0]))
    sides = []
    for dx, dy in STEPS:
        sides.append(0)
        while (x + dx, y + dy) in cells:
            x, y = x + dx, y + dy
            sides[-1] += 1
    assert inside(start, sides) == cells
    return list(start), sides


def corner(bounds, k):
    cells = some(bounds)
    if k > 7:
        raise Refused(7)
    start, sides = outline(cells)
    return [n / 4 for n in corners(*start, sides)[k]]


# K1 to K13, each by its sides of length 1; a side of length 2 stands twice
PIECES = [[row.count(str(k)) for k in range(8)] for row in "04 15 26 37 025 036 146 247 0035 1447 1366 2257 1357".split()]
PAIRS = (6, 11), (8, 10), (5, 9), (7, 11), (8, 12), (6, 9), (7, 10), (5, 12)


def pairs_that_make(rest):
    """The pairs that make a rest, by trial: the place of each in PAIRS, and the counts of K5 to K12."""
    for place, (first, second) in enumerate(PAIRS):
        for a in range(max(rest) + 1):
            for b in range(max(rest) + 1):
                made = [a * n + b * m for n, m in zip(PIECES[first - 1], PIECES[second - 1])]
                if made == rest:
                    yield place, tuple({first: a, second: b}.get(k, 0) for k in range(5, 13))


def rows_and_rest(n):
    """The counts of K1 to K4, and the sides that these rows leave."""
    rows = [min(n[k], n[k + 4]) for k in range(4)]
    return rows, [n[k] - rows[k % 4] for k in range(8)]


def split(bounds):
    """The start and the counts; the pieces so counted, spread one after the other, make the plot."""
    cells = some(bounds)
    start, n = outline(cells)
    rows, rest = rows_and_rest(n)
    (triangles,) = {counts for _, counts in pairs_that_make(rest)}
    counts = rows + list(triangles) + [0]
    if counts[1] > 0 and counts[3] > 0 and sum(counts) == counts[1] + counts[3]:
        counts = [0, counts[1] - 1, 0, counts[3] - 1] + [0] * 8 + [1]
    made = {tuple(start)}
    for count, sides in zip(counts, PIECES):
        for _ in range(count):
            made = sums(made, inside((0, 0), sides))
    assert made == cells
    return start, counts
