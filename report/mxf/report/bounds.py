"""How much a page shows at most."""
from __future__ import annotations

CELLS = 1000  # of a bar, which is as many units of a drawing wide
STRIP = 400  # cells of a strip of edit units, of which a page may have several
ROWS = 200  # of a table
NODES = 30  # of the drawing of partitions
NAMES = 4  # that are shown for one cell
SOURCES = 50  # that are told of a reading; if there are no more than a few, with their names
INDEXES = 4  # of which edit units are shown
LETTERS = 300  # of a text of the recording
SHOWN = 10  # letters of a name for which a page of many always has room
UNITS = 1_000_000  # that mxf_tool reports in one call
RECORDINGS = 10_000  # of a page of many
