"""Octagons by their rows, for cases.py: the tight bounds and the number of cells of any eight bounds.

In row y the cells run from the greatest of three lower limits to the least of three upper limits. Both are piecewise linear in y, the
width of a row is concave, and so is the greatest value of x, x-y, x+y and their opposites in a row. So the rows that have a cell are found
from the widest row by bisection, each tight bound by ternary search over them, and the cells are counted row by row. None of this uses the
library's normal form or its cell count.
"""
from cells import LIMIT


def ends(c, y):
    return max(-c[6], y - c[5], -c[7] - y), min(c[2], c[1] + y, c[3] - y)


def peak(f, low, high):
    """A place of the greatest value of a concave function on whole numbers."""
    while high - low > 2:
        a = low + (high - low) // 3
        b = high - (high - low) // 3
        if f(a) < f(b):
            low = a + 1
        elif f(a) > f(b):
            high = b - 1
        else:
            low, high = a, b
    return max(range(low, high + 1), key=f)


def first(test, low, high):
    """The first place in low..high that passes a test which, once passed, stays so; high passes it."""
    while low < high:
        mid = (low + high) // 2
        if test(mid):
            high = mid
        else:
            low = mid + 1
    return low


def normal(c):
    """The tight bounds, or a refusal number."""
    low, high = -c[0], c[4]
    if low > high:
        return 1

    def width(y):
        a, b = ends(c, y)
        return b - a

    # rows of equal width but another parity may lie beside the peak
    top = peak(width, low, high)
    rows = [y for y in range(max(low, top - 3), min(high, top + 3) + 1) if width(y) >= 0]
    if not rows:
        return 1
    mid = rows[0]
    bottom = first(lambda y: width(y) >= 0, low, mid)
    up = -first(lambda y: width(-y) >= 0, -high, -mid)

    def most(f):
        return f(peak(f, bottom, up))

    t = (
        -bottom,
        most(lambda y: ends(c, y)[1] - y),
        most(lambda y: ends(c, y)[1]),
        most(lambda y: ends(c, y)[1] + y),
        up,
        most(lambda y: -ends(c, y)[0] + y),
        most(lambda y: -ends(c, y)[0]),
        most(lambda y: -ends(c, y)[0] - y),
    )
    if max(t[0], t[2], t[4], t[6]) > LIMIT:
        return 2
    return t, sum(max(0, width(y) + 1) for y in range(bottom, up + 1))
