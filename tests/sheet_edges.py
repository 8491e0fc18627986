"""Plots up to each edge of the map and of the old map, and one cell past it, and sheets that hold them, for sheet_cases.py, join_pairs.py and
conversions.py. How far a plot goes is written as a number here, and tested on the corners of its walk."""
from sheets import broad, corners, fee_row, laid, numbered, wide

# plots whose farthest cell is 16,000 cells from the middle of the map to the east, the north, the west and the south, and 16,001
OLD_REACHING = [(70001, wide(15439, 211)), (80002, wide(-322, 14702)), (90003, wide(-15484, 433)), (100004, wide(544, -16000))]
OLD_LEAVING = [(110005, wide(15440, -655)), (120006, wide(766, 14703)), (130007, wide(-15485, -877)), (140008, wide(-988, -16001))]

# the same for 2,000,000 and 2,000,001
REACHING = [(150009, broad(1855823, 20011)), (160010, broad(-30022, 1666414)), (170011, broad(-1867388, 40033)), (180012, broad(50044, -2000000))]
LEAVING = [(190013, broad(1855824, -60055)), (200014, broad(70066, 1666415)), (210015, broad(-1867389, -80077)), (220016, broad(-90088, -2000001))]


def reach(outline):
    """How far the walk goes to the east, the north, the west and the south."""
    xs, ys = zip(*corners(*outline))
    return [max(xs), max(ys), -min(xs), -min(ys)]


for plots, far in ((OLD_REACHING, 16000), (OLD_LEAVING, 16001), (REACHING, 2000000), (LEAVING, 2000001)):
    for side, (_, outline) in enumerate(plots):
        assert reach(outline)[side] == far == max(reach(outline))


def about_edge(size):
    """The plots up to the edges of the map for records of a size, and those past them."""
    return REACHING + LEAVING if size == 46 else OLD_REACHING + OLD_LEAVING


def holding(size, numbers, *far):
    """The sheet of the plots with these numbers and then of such plots, by so many bytes a record."""
    return laid(size, b"", *numbered(*numbers), *((number, outline, fee_row(number)) for number, outline in far))
