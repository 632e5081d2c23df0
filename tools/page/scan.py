"""Questions about every tile, in the background: what is under the pointer first, and how far it is."""
import os
import re
import sys
import threading

from . import programs

# Tiles that one run is asked about, and how many attributes a recording may have for `why` to be asked about all of them at once.
CHUNK = 32
FEW_ATTRIBUTES = 24
WORKERS = max(1, (os.cpu_count() or 2) - 1)


class Scan:
    """A question about every tile. Answers are runs: row, first tile, end tile, the answer's number in `texts`."""

    def __init__(self, rows, tiles, slow_chunk=None):
        size = slow_chunk or CHUNK
        self.total, self.count, self.tiles = rows * tiles, 0, tiles
        self.runs, self.texts, self.numbers, self.failed = [], [], {}, ''
        self.left = {row: [(a, min(a + size, tiles)) for a in range(0, tiles, size)] for row in range(rows)}
        self.focus, self.stopped, self.lock = (0, 0), False, threading.Lock()

    def start(self, workers=WORKERS):
        for _ in range(workers):
            threading.Thread(target=self.work, daemon=True).start()

    def stop(self):
        self.stopped = True

    def look(self, row, tile):
        """What is asked next is nearest to this tile."""
        self.focus = (row, tile)

    def take(self):
        """The nearest chunk of the nearest row that has one left."""
        with self.lock:
            if self.stopped or not self.left:
                return None
            row, tile = self.focus
            at = min(self.left, key=lambda it: abs(it - row))
            chunks = self.left[at]
            found = min(chunks, key=lambda it: abs(it[0] + it[1] - 2 * tile))
            chunks.remove(found)
            if not chunks:
                del self.left[at]
            return at, *found

    def work(self):
        while True:
            taken = self.take()
            if not taken:
                return
            row, first, end = taken
            try:
                answers = self.answer(row, first, end)
            except programs.Failed as error:
                self.failed = str(error)
                self.stop()
                return
            self.note(row, first, answers)

    def note(self, row, first, answers):
        with self.lock:
            begun = first
            for at, text in enumerate(answers, first):
                if at + 1 - first == len(answers) or answers[at + 1 - first] != text:
                    number = self.numbers.setdefault(text, len(self.texts))
                    if number == len(self.texts):
                        self.texts.append(text)
                    self.runs.append((row, begun, at + 1, number))
                    begun = at + 1
            self.count += len(answers)

    def told(self, after):
        with self.lock:
            return {'done': self.count, 'total': self.total, 'failed': self.failed, 'texts': self.texts, 'runs': self.runs[after:after + 20000],
                    'next': min(len(self.runs), after + 20000)}


class Marks(Scan):
    """The reason of one attribute at every tile, in `why`'s words."""

    def __init__(self, recording, kind, number):
        slow = recording.made.is_slow
        room = min(programs.UNPROVED_INPUT // (len(recording.data) + 12), programs.UNPROVED_OUTPUT // (90 * (recording.attributes + 1)))
        super().__init__(recording.rows, recording.tiles, max(1, min(room, recording.tiles)) if slow else None)
        self.recording, self.kind, self.number = recording, kind, number
        self.by_stream = slow or recording.attributes <= FEW_ATTRIBUTES
        if not self.by_stream:
            self.take_painted()
        self.start(1 if slow else WORKERS)

    def take_painted(self):
        """Where the attribute is painted it is shown (theorem_reason): these tiles need no question of their own."""
        piece = re.compile(r'^%s %d (\d+) (\d+) ' % ('p' if self.kind == 'draw' else 'l', self.number), re.M)
        for row, text in enumerate(self.recording.painted()):
            painted = {tile for first, end in piece.findall(text) for tile in range(int(first), int(end))}
            if not painted:
                continue
            # Stretches of tiles that are painted or are not, no longer than a chunk.
            cuts = [t for t in range(self.tiles) if t % CHUNK == 0 or (t in painted) != (t - 1 in painted)] + [self.tiles]
            stretches = list(zip(cuts, cuts[1:]))
            self.left[row] = [it for it in stretches if it[0] not in painted]
            if not self.left[row]:
                del self.left[row]
            for first, end in stretches:
                if first in painted:
                    self.note(row, first, ['shown'] * (end - first))

    def answer(self, row, first, end):
        it = self.recording
        if not self.by_stream:
            return [it.made.ask('why', [*it.words, str(row), str(tile), self.kind, str(self.number)], it.data).strip() for tile in range(first, end)]
        found = it.reasons.get((row, first))
        if found is None:
            # All attributes are answered at once, and kept for the other attributes' marks.
            found = [sys.intern(text) for text in it.stream('why', row, range(first, end))]
            it.reasons[row, first] = found
        asked = re.compile(r'^%s %d: (.*)$' % (self.kind, self.number), re.M)
        reasons = []
        for text in found:
            reason = asked.search(text)
            reasons.append(reason[1] if reason else text.strip())
        return reasons


class Lists(Scan):
    """Whether the two recordings' lists of a tile differ: `same`, `differs`, or that one of them has no such tile."""

    def __init__(self, a, b):
        super().__init__(max(a.rows, b.rows), max(a.tiles, b.tiles), max(a.tiles, b.tiles, 1) if a.made.is_slow else None)
        self.pair = (a, b)
        # What a tile receives is what its row paints there (theorem_reason), so rows whose painted lines are the same need no question.
        for row, (one, other) in enumerate(zip(a.painted(), b.painted())):
            if one == other and a.tiles == b.tiles and self.left.pop(row, None):
                self.note(row, 0, ['same'] * a.tiles)
        self.start(1 if a.made.is_slow else WORKERS)

    def answer(self, row, first, end):
        a, b = (it.stream('tilelist', row, range(first, end)) for it in self.pair)
        off = 'refused 12\n'
        return ['same' if x == y else 'only the second has the tile' if x == off else 'only the first has the tile' if y == off else 'differs' for x, y in zip(a, b)]
