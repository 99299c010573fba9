"""Writes the sheets of tests/desk and what is to become of them: make_expected.py FOLDER the files that stand in tests/desk,
make_expected.py FOLDER more those that are too large to stand there. By desk.py alone, and by samples/ for the map's counts."""
import sys
from pathlib import Path

from desk import extent, grid, packed_row, padded, pgm, plain_row, plain_table, png, record, sheet, text

SAMPLES = Path(__file__).resolve().parent.parent.parent / "samples"

# rows of many lengths, of none too; row numbers 2 and 5 are missing; the ends of greys, and bad spots
SPOTS = {
    0: [0, 22, 23, 2048, 4093, 4094, 4095],
    1: [1000, 1001, 1499, 1500, 999],
    3: [4095, 4094, 1200, 1300, 1400, 1500, 1600, 1700, 1800],
    4: [3000, 0],
    6: [],
}
LINE = record(4, bytes([2, 0, 5, 6]))
SPOTS_SHEET = sheet(SPOTS, lambda number, heights: plain_row(4, heights) if number == 4 else packed_row(number, heights)) + LINE

# two rows, a third whose first step leads below 0, and behind it rows 5 to 23, a line, a kind that is none, a row too short for
# its number, and a row that is cut off
BROKEN = {0: list(range(100, 4100, 200)), 1: [4095, 0, 4093]}
FAULT = record(2, bytes([4, 0, 9, 0]) + bytes(4))
BEHIND = b"".join(packed_row(number, [7] * number) for number in range(5, 24)) + LINE
BEHIND += record(9, bytes([200, 0])) + record(2, b"") + packed_row(90, [1, 2, 3])[:-1]
BROKEN_SHEET = sheet(BROKEN) + FAULT + BEHIND
SHORT_SHEET = sheet({0: BROKEN[1]}) + packed_row(1, [5] * 40)[:-1]

HEIGHTS = [[0, 1, 4093, 4094], [4095, 766, 767, 4093], [0, 4093, 0, 4093]]


def counts():
    lines = (SAMPLES / "foot.map.txt").read_text().splitlines()[:128]
    return [int(count) for line in lines for count in line.split()]


def picture(rows, rest=None, **look):
    return png(grid(rows, extent(rows, rest), **look))


def stored():
    return {
        "spots.sheet": SPOTS_SHEET,
        "spots.png": picture(SPOTS),
        "spots_range.png": picture(SPOTS, times=3, low=1000, high=1499),
        "spots.pgm": pgm(padded(SPOTS, 4095)),
        "spots.txt": text(SPOTS).encode(),
        "broken.sheet": BROKEN_SHEET,
        "broken.png": picture(BROKEN, FAULT + BEHIND),
        "heights.pgm": pgm(HEIGHTS),
        "heights.sheet": sheet(dict(enumerate(HEIGHTS))),
    }


def more():
    tall = {0: [1], 65535: [4093]}
    return {
        "spots_map.png": picture(SPOTS, beside=counts()),
        "spots_unread.png": picture(SPOTS, beside=None),
        "spots_big.png": picture(SPOTS, times=15, low=4093, high=4093),
        "broken_map.png": picture(BROKEN, FAULT + BEHIND, times=11, beside=counts()),
        "short.sheet": SHORT_SHEET,
        "short.png": picture({0: BROKEN[1]}, b""),
        "table.sheet": record(1, plain_table()),
        "table.png": picture({}),
        "empty.png": picture({}, b""),
        "tall.sheet": sheet(tall),
        "tall.png": picture(tall),
        "tall.pgm": pgm(padded(tall, 0)),
    }


for name, content in (more() if sys.argv[2:] == ["more"] else stored()).items():
    (Path(sys.argv[1]) / name).write_bytes(content)
