#!/usr/bin/env python3
"""Sequences of calls, as readable text, to the words that `test_answers` and `oracle answers` read.

    tools/calls.py < FILE.calls > CALLS

A line is a call; `#` starts a comment. What is left out is 0; a blend is 0 3, an opacity 1.0, a bucket 128 pixels wide.

    sequence NAME                                  what follows is called on a screen of its own
    paints opaque|clear HANDLE, ..                 the paints that fills are lent from here on
    segments solid|alpha ROW FIRST END [ALPHA], .. the segments that fills and pops are lent; none without any
    draws START END PAINT [PANEL], ..              the draws that lists of fills are lent
    reset X0 Y0 X1 Y1 C D [snap] [width N]
    fill START END PAINT [thread T] [blend MIX COMPOSE] [mask M] [panel P]
    fills START END [words N]                      of the draws; of their words only N are lent
    push [blend MIX COMPOSE] [opacity X] [mask M] [clip X0 Y0 X1 Y1 START END THREAD] [panel P]
    pop
    filter [picture HANDLE] [dest X0 Y0 X1 Y1] [source X Y] [paints N] [panel P]
    begin
    step ROW WORDS                                 WORDS: of the list that is lent
    unset ROW FIRST END WORDS
    visible ROW ID FIRST END WORDS
    write ROW ID FIRST END WORDS                   in buckets
    can_skip ROW FIRST END ID
    hidden ROW FIRST END ID                        in buckets
    compact ROW
    next_id N                                      the id that the next step takes
    show
    repeat N .. end                                the lines between, N times
"""
import struct
import sys

KINDS = {"solid": 0, "alpha": 1, "clear": 0, "opaque": 1}
PLAIN = {"begin": 5, "step": 6, "unset": 7, "visible": 8, "write": 9, "can_skip": 10, "next_id": 11, "show": 12, "hidden": 17, "compact": 18}
COUNTS = {"begin": 0, "step": 2, "unset": 4, "visible": 5, "write": 5, "can_skip": 4, "next_id": 1, "show": 0, "hidden": 4, "compact": 1}


class Line:
    """The words of a line, taken one after the other."""

    def __init__(self, number, words):
        self.number, self.words, self.seen = number, words, set()

    def fail(self, what):
        sys.exit(f"calls: line {self.number}: {what}")

    def next(self):
        if not self.words:
            self.fail("something is missing")
        return self.words.pop(0)

    def number_(self):
        word = self.next()
        if not word.isdigit() or int(word) >> 32:
            self.fail(f"{word!r} is no number")
        return int(word)

    def numbers(self, n):
        return [self.number_() for _ in range(n)]

    def options(self, places):
        """What is named, each name once: its numbers; else the numbers that stand for it."""
        found = {name: list(default) for name, default in places.items()}
        while self.words:
            name = self.next()
            if name not in places:
                self.fail(f"there is no {name} here")
            if name in self.seen:
                self.fail(f"{name} stands twice")
            self.seen.add(name)
            found[name] = [self.opacity()] if name == "opacity" else self.numbers(len(places[name])) or [1]
        return found

    def opacity(self):
        word = self.next()
        try:
            return struct.unpack("<I", struct.pack("<f", float(word)))[0]
        except (ValueError, OverflowError):
            self.fail(f"{word!r} is no opacity")

    def draws(self):
        """Draws between commas, as their words."""
        found = []
        for record in " ".join(self.words).split(","):
            words = record.split()
            if not 3 <= len(words) <= 4 or not all(word.isdigit() for word in words):
                self.fail(f"{record.strip()!r} is no draw")
            start, end, paint, panel = map(int, [*words, 0][:4])
            found += [0, start, end, paint, 0, 3, 0, panel]
        self.words = []
        return found

    def records(self, widths):
        """Records between commas: a kind's name, then numbers; what is left out at the end is 0."""
        records = []
        for record in " ".join(self.words).split(","):
            words = record.split()
            if not words:
                continue
            if words[0] not in KINDS or not all(word.isdigit() for word in words[1:]) or not widths[0] <= len(words) <= widths[1]:
                self.fail(f"{record.strip()!r} is no record")
            numbers = [KINDS[words[0]], *map(int, words[1:])]
            records.append(numbers + [0] * (widths[1] - len(numbers)))
        self.words = []
        return records


def lists(lent):
    """The paints and the segments, each after their number."""
    both = [lent["paints"], lent["segments"]]
    return [word for records in both for word in [len(records), *(word for record in records for word in record)]]


def call(line, kind, lent):
    if kind == "reset":
        box, rooms = line.numbers(4), line.numbers(2)
        found = line.options({"snap": [], "width": [128]})
        return [0, *box, *rooms, *(found["snap"] or [0]), *found["width"]]
    if kind == "fill":
        start, end, paint = line.numbers(3)
        found = line.options({"thread": [0], "blend": [0, 3], "mask": [0], "panel": [0]})
        return [1, *found["thread"], start, end, paint, *found["blend"], *found["mask"], *found["panel"], *lists(lent)]
    if kind == "fills":
        range_ = line.numbers(2)
        found = line.options({"words": [len(lent["draws"])]})
        draws = lent["draws"][: found["words"][0]]
        return [16, *range_, len(draws), *draws, *lists(lent)]
    if kind == "push":
        found = line.options({"blend": [0, 3], "opacity": [0x3F800000], "mask": [0], "clip": [0] * 7, "panel": [0]})
        return [2, *found["blend"], *found["opacity"], *found["mask"], int("clip" in line.seen), *found["clip"], *found["panel"]]
    if kind == "pop":
        return [3, len(lent["segments"]), *(word for record in lent["segments"] for word in record)]
    if kind == "filter":
        found = line.options({"picture": [0], "dest": [0] * 4, "source": [0, 0], "paints": [0], "panel": [0]})
        return [4, int("picture" in line.seen), *found["picture"], *found["dest"], *found["source"], *found["paints"], *found["panel"]]
    if kind in PLAIN:
        return [PLAIN[kind], *line.numbers(COUNTS[kind])]
    line.fail(f"{kind!r} is no call")


def unrolled(lines):
    """The lines, those between `repeat N` and its `end` so many times; repeats stand in no repeat."""
    at = 0
    while at < len(lines):
        line = lines[at]
        if line.words[0] != "repeat":
            yield line
            at += 1
            continue
        n = Line(line.number, line.words[1:]).number_()
        ends = [k for k in range(at, len(lines)) if lines[k].words == ["end"]]
        if not ends:
            line.fail("its end is missing")
        for _ in range(n):
            for inner in lines[at + 1 : ends[0]]:
                yield Line(inner.number, list(inner.words))
        at = ends[0] + 1


def main():
    if sys.argv[1:] in (["--help"], ["-h"]):
        print(__doc__.strip())
        return
    if sys.argv[1:]:
        print(f"calls: {sys.argv[1]!r} is no argument\n{__doc__.strip()}", file=sys.stderr)
        sys.exit(2)
    lines = [(number, text.split("#")[0].split()) for number, text in enumerate(sys.stdin, 1)]
    sequences, lent = [], {}
    for line in unrolled([Line(number, words) for number, words in lines if words]):
        kind = line.next()
        if kind == "sequence":
            line.words = []
            sequences.append([])
            lent = {"paints": [], "segments": [], "draws": []}
            continue
        if not sequences:
            line.fail("a sequence is expected first")
        if kind in lent:
            lent[kind] = line.draws() if kind == "draws" else line.records((2, 4) if kind == "paints" else (4, 5))
        else:
            sequences[-1] += call(line, kind, lent)
        if line.words:
            line.fail(f"{line.words[0]!r} is too much")
    for words in sequences:
        sys.stdout.buffer.write(struct.pack(f"<{len(words) + 1}I", len(words), *words))


if __name__ == "__main__":
    main()
