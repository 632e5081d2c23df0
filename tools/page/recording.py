"""The recordings that are open, and what the programs say of them, as text. Nothing here reckons what covers a tile."""
import re
import struct
import threading

from . import programs
from .scan import Lists, Marks

SLOTS = ('a', 'b')
WIDTHS, EDITIONS = ('64', '128', '256'), ('1', '2')
KINDS = ('draw', 'layer')
# A tile has 4 pixels a side.
TILE_PIXELS = 4


def options_of(snap, width, edition):
    """The options as the programs take them, each of a fixed set; None where one is not."""
    if snap not in ('0', '1') or width not in WIDTHS or edition not in EDITIONS:
        return None
    return {'snap': snap == '1', 'width': int(width), 'edition': int(edition)}


def words_of(options):
    words = ['--width', str(options['width']), '--edition', str(options['edition'])]
    return ['--snap'] * options['snap'] + words


class Recording:
    """One file, the options that it is read with, and the programs' text about it."""

    def __init__(self, made, name, data, options, serial):
        self.made, self.name, self.data, self.options, self.serial = made, name, data, options, serial
        self.words = words_of(options)
        self.rows = self.buckets = self.tiles = 0
        self.refused, self.note = None, ''
        self.marks, self.reasons, self.lock = {}, {}, threading.Lock()
        texts = self.together([('rowlist', self.words, data), ('rowdump', [*self.words, '--panels'], struct.pack('<I', len(data)) + data)])
        self.listed, self.dumped = texts[0], texts[1].partition('\n')[2]
        refused = re.fullmatch(r'refused (\d+)\n', self.listed)
        head = re.match(r'rows (\d+) buckets (\d+) ids (\d+)\n', self.listed)
        if refused:
            self.refused = int(refused[1])
        elif head:
            self.rows, self.buckets = int(head[1]), int(head[2])
            if not self.dumped.startswith(self.listed):
                self.note = 'rowlist and rowdump do not say the same of the rows'
            self.tiles = self.end_of_row()
        else:
            raise programs.Failed('rowlist wrote what is no list of rows')
        self.attributes = sum(int(n) for n in re.findall(r'^(?:paint|layer) attributes (\d+)$', self.dumped, re.M))

    def together(self, asked):
        """The answers to several questions at once."""
        found = [None] * len(asked)

        def one(k):
            try:
                found[k] = self.made.ask(*asked[k])
            except programs.Failed as error:
                found[k] = error

        threads = [threading.Thread(target=one, args=(k,), daemon=True) for k in range(len(asked))]
        for it in threads:
            it.start()
        for it in threads:
            it.join()
        for it in found:
            if isinstance(it, Exception):
                raise it
        return found

    @property
    def bucket_tiles(self):
        return self.options['width'] // TILE_PIXELS

    def end_of_row(self):
        """How many tiles a row has: in the last bucket `tilelist` says which tile is the first that is not there."""
        if not self.rows or not self.buckets:
            return 0
        first = self.bucket_tiles * (self.buckets - 1)
        for at, text in enumerate(self.stream('tilelist', 0, range(first, first + self.bucket_tiles))):
            if text == 'refused 12\n':
                return first + at
        return first + self.bucket_tiles

    def stream(self, name, row, tiles):
        """The program's text for each of these tiles of a row, by one stream of questions."""
        head, data = {'why': 'question', 'tilelist': 'list'}[name], self.data
        asked = b''.join(struct.pack('<III', len(data), row, tile) + data for tile in tiles)
        parts = re.split(r'^%s \d+\n' % head, self.made.ask(name, [*self.words, '--stream'], asked), flags=re.M)
        if len(parts) != len(tiles) + 1:
            raise programs.Failed('%s gave %d answers to %d questions' % (name, len(parts) - 1, len(tiles)))
        return parts[1:]

    def tile(self, row, tile):
        """Every attribute's reason at the tile, and the tile's list."""
        why, found = self.together([(name, [*self.words, str(row), str(tile)], self.data) for name in ('why', 'tilelist')])
        return {'why': why, 'list': found}

    def marks_of(self, kind, number):
        """The reasons of one attribute at every tile, as far as they are asked for; the first call begins it."""
        with self.lock:
            if (kind, number) not in self.marks:
                # (a few are kept, and the eldest is let go)
                while len(self.marks) >= 8:
                    self.marks.pop(next(iter(self.marks))).stop()
                self.marks[kind, number] = Marks(self, kind, number)
            return self.marks[kind, number]

    def stop(self):
        with self.lock:
            for it in self.marks.values():
                it.stop()

    def painted(self):
        """The painted lines of each row, as `rowdump` has them."""
        return re.findall(r'^painted \d+ pieces \d+\n((?:[pl] .*\n)*)', self.dumped, re.M)

    def told(self):
        """What the page is told of the recording."""
        words = self.made.refusals.get(self.refused, '') if self.refused is not None else ''
        return {'name': self.name, 'size': len(self.data), 'serial': self.serial, 'options': self.options, 'refused': self.refused, 'words': words, 'note': self.note,
                'rows': self.rows, 'buckets': self.buckets, 'tiles': self.tiles, 'bucketTiles': self.bucket_tiles, 'text': self.dumped}


class Desk:
    """The programs, at most two recordings, and how they compare."""

    def __init__(self, made):
        self.made, self.slots, self.serial, self.lists = made, dict.fromkeys(SLOTS), 0, None
        self.lock = threading.Lock()

    def open(self, slot, name, data, options):
        with self.lock:
            self.serial += 1
            serial = self.serial
        found = Recording(self.made, name, data, options, serial)
        with self.lock:
            self.put(slot, found)
        return found

    def close(self, slot):
        with self.lock:
            self.put(slot, None)

    def put(self, slot, found):
        old, self.slots[slot] = self.slots[slot], found
        if old:
            old.stop()
        if self.lists:
            self.lists.stop()
            self.lists = None

    def find(self, slot, serial):
        """The recording in the slot, if it is the one that the page means and was not refused."""
        found = self.slots.get(slot)
        return found if found and found.serial == serial and found.refused is None else None

    def comparison(self):
        """The lists of the two recordings, tile by tile; the first call begins it. None where there are no two."""
        with self.lock:
            pair = [self.slots[it] for it in SLOTS]
            if not all(it and it.refused is None for it in pair):
                return None
            if not self.lists:
                self.lists = Lists(*pair)
            return self.lists

    def stop(self):
        for slot in SLOTS:
            self.close(slot)
        self.made.stop()
