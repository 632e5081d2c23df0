"""A recording of `rowlist`'s full size: 65,536 bytes, 32 rows of 1,024 tiles, hundreds of fills."""
import random
import struct

BYTES, ROWS, TILES = 65536, 32, 1024


def full():
    """The recording's bytes; the same ones each time."""
    chance = random.Random(7)
    paints = [(int(k % 3 != 2), k + 1, 0, 0) for k in range(24)]
    segments, draws = [], []
    # What a row has room for, with care.
    room = [(60, 60)] * ROWS

    def draw(spans, paint):
        draws.append((0, len(segments), len(segments) + len(spans), paint, 0, 3, 0))
        segments.extend(spans)

    def words():
        out = [1, 0, 0, 4 * TILES, 4 * ROWS]
        for section in (paints, segments, draws):
            out += [len(section), *(word for record in section for word in record)]
        return out + [0, 1, 0, len(draws), 0, 1, 0, 1]

    draw([(0, row, 0, TILES, 0) for row in range(ROWS)], 0)
    misses = 0
    while misses < 200 and 4 * len(words()) < BYTES - 200:
        row, paint = chance.randrange(ROWS), chance.randrange(24)
        rows = range(row, min(ROWS, row + chance.randrange(1, 5)))
        first, soft = chance.randrange(1000), paint % 3 == 2
        end = min(TILES, first + (chance.randrange(1, 24) if soft else chance.randrange(30, 400)))
        alpha = 16 * chance.randrange(2000) if soft else 0
        if any(room[it][0] < 3 or room[it][1] < 2 for it in rows):
            misses += 1
            continue
        misses = 0
        for it in rows:
            room[it] = room[it][0] - 2, room[it][1] - 1
        draw([(int(soft), it, first, end, alpha) for it in rows], paint)
    # What is left is filled up with segments and paints that nothing names, of 20 and 16 bytes.
    while (BYTES - 4 * len(words())) % 16:
        segments.append((0, 0, 0, 1, 0))
    while 4 * len(words()) < BYTES:
        paints.append((0, 1, 0, 0))
    found = words()
    return struct.pack('<%dI' % len(found), *found)
