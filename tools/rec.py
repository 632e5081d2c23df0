#!/usr/bin/env python3
"""A readable text form of a recording file, and back.

    tools/rec.py text [--edition N] < FILE.rec > FILE.txt        N is 1 or 2, and 1 without it: the file's edition is told, not found out
    tools/rec.py file < FILE.txt > FILE.rec                      of the edition that a line of the text says, else of edition 1

A line is a record; `#` starts a comment. Records of a kind are numbered from 0 in the order of their lines, and kinds may be mixed.

    edition N
    viewport X0 Y0 X1 Y1
    paint opaque|clear HANDLE [shift DX DY]
    segment solid|alpha row R tiles FIRST END [index ALPHA]
    draw segments START END paint P [blend MIX COMPOSE] [mask M] [thread T] [panel N]
    layer regular|filter [nodes START END] [blend MIX COMPOSE] [opacity X] [mask M]
          [clip] [box X0 Y0 X1 Y1] [segments START END] [thread T] [pixmap P] [dest X0 Y0 X1 Y1] [source X Y] [panel N]
    node draws START END [layer ID]
    root START END

What is left out is 0, or not there at all (a node's layer, a filter layer's pixmap, whose handles count from 0); a blend is 0 3 and an opacity 1.0. A kind, a flag or a layer's clip flag (`clip N`) can be a number, an opacity
its bits (`opacity bits N`). A panel is there in edition 2 alone. The way there and back is exact for every file whose sections are exactly counted.
"""
import math
import os
import struct
import sys

SIZES = {1: [('viewport', 4), ('paint', 4), ('segment', 5), ('draw', 7), ('layer', 22), ('node', 3), ('root', 2)],
         2: [('viewport', 4), ('paint', 4), ('segment', 5), ('draw', 8), ('layer', 23), ('node', 3), ('root', 2)]}
# What stands before the sections.
HEAD = {1: (), 2: (1, 2)}
KINDS = {'segment': ('solid', 'alpha'), 'layer': ('regular', 'filter'), 'paint': ('clear', 'opaque')}
ONE = 0x3F800000


def bad(what):
    sys.exit('rec: ' + what)


def signed(word):
    return word - (1 << 32) if word >> 31 else word


def name_of(kind, word):
    return KINDS[kind][word] if word < 2 else str(word)


def opacity_text(word):
    """The shortest decimal that gives the same bits, else the bits."""
    value = struct.unpack('<f', struct.pack('<I', word))[0]
    if math.isfinite(value):
        for digits in range(1, 10):
            text = '%.*g' % (digits, value)
            if opacity_bits(text) == word:
                return text
    return 'bits %d' % word


def opacity_bits(text):
    try:
        return struct.unpack('<I', struct.pack('<f', float(text)))[0]
    except OverflowError:
        return None


def line_of(kind, w):
    out = [kind]

    def add(name, words, default=None):
        if list(words) != (default or [0] * len(words)):
            out.append(name)
            out.extend(str(x) for x in words)

    def add_choice(name, word):
        """A number + 1, or 0 for none."""
        if word:
            out.extend([name, str(word - 1)])

    if kind in ('viewport', 'root'):
        out.extend(str(x) for x in w)
    elif kind == 'paint':
        out += [name_of('paint', w[0]), str(w[1])]
        add('shift', [signed(w[2]), signed(w[3])])
    elif kind == 'segment':
        out += [name_of('segment', w[0]), 'row', str(w[1]), 'tiles', str(w[2]), str(w[3])]
        add('index', w[4:5])
    elif kind == 'draw':
        out += ['segments', str(w[1]), str(w[2]), 'paint', str(w[3])]
        add('blend', w[4:6], [0, 3])
        add('mask', w[6:7])
        add('thread', w[0:1])
        add('panel', w[7:])
    elif kind == 'layer':
        out.append(name_of('layer', w[0]))
        add('nodes', w[1:3])
        add('blend', w[3:5], [0, 3])
        if w[5] != ONE:
            out.append('opacity ' + opacity_text(w[5]))
        add('mask', w[6:7])
        if w[7]:
            out.append('clip' if w[7] == 1 else 'clip %d' % w[7])
        add('box', w[8:12])
        add('segments', w[12:14])
        add('thread', w[14:15])
        add_choice('pixmap', w[15])
        add('dest', w[16:20])
        add('source', w[20:22])
        add('panel', w[22:])
    elif kind == 'node':
        out += ['draws', str(w[0]), str(w[1])]
        add_choice('layer', w[2])
    return ' '.join(out)


def to_text(data, edition):
    if len(data) % 4:
        bad('%d bytes are no whole words' % len(data))
    words = struct.unpack('<%dI' % (len(data) // 4), data)
    head = HEAD[edition]
    if words[:len(head)] != head:
        bad('the file does not begin as one of edition %d' % edition)
    at, lines = len(head), [] if edition == 1 else ['edition %d' % edition]
    for kind, size in SIZES[edition]:
        if at >= len(words):
            bad('the file ends before its %s section' % kind)
        count = words[at]
        at += 1
        if kind in ('viewport', 'root') and count != 1 or count > 4096:
            bad('a %s count of %d' % (kind, count))
        if at + count * size > len(words):
            bad('the file ends in its %s section' % kind)
        for k in range(count):
            lines.append(line_of(kind, list(words[at + k * size:at + (k + 1) * size])))
        at += count * size
    if at != len(words):
        bad('words after the root section')
    return '\n'.join(lines) + '\n'


class Reader:
    def __init__(self, number, fields):
        self.number, self.fields, self.keys = number, fields, set()

    def fail(self, what):
        bad('line %d: %s' % (self.number, what))

    def next(self):
        if not self.fields:
            self.fail('something is missing')
        return self.fields.pop(0)

    def key(self):
        """The name of what comes next, which stands once in a line."""
        key = self.next()
        if key in self.keys:
            self.fail('%s stands twice' % key)
        self.keys.add(key)
        return key

    def word(self, low=0):
        text = self.next()
        try:
            n = int(text, 0)
        except ValueError:
            self.fail('%r is no number' % text)
        if not low <= n < 1 << 32:
            self.fail('%d does not fit' % n)
        return n % (1 << 32)

    def choice(self):
        """A number that is there, as its word: the number + 1."""
        n = self.word() + 1
        if n >> 32:
            self.fail('%d does not fit' % (n - 1))
        return n

    def words(self, n, low=0):
        return [self.word(low) for _ in range(n)]

    def kind(self, kind):
        names = KINDS[kind]
        if self.fields and self.fields[0] in names:
            return names.index(self.next())
        return self.word()

    def expect(self, name):
        if self.next() != name:
            self.fail('%s is expected' % name)

    def opacity(self):
        if self.fields and self.fields[0] == 'bits':
            self.next()
            return self.word()
        text = self.next()
        try:
            bits = opacity_bits(text)
        except ValueError:
            bits = None
        if bits is None:
            self.fail('%r is no opacity' % text)
        return bits


def record_of(kind, r):
    if kind in ('viewport', 'root'):
        w = r.words(4 if kind == 'viewport' else 2)
    elif kind == 'paint':
        w = [r.kind('paint'), r.word(), 0, 0]
        if r.fields:
            r.expect('shift')
            w[2:4] = r.words(2, -(1 << 31))
    elif kind == 'segment':
        w = [r.kind('segment')]
        r.expect('row')
        w.append(r.word())
        r.expect('tiles')
        w += r.words(2) + [0]
        if r.fields:
            r.expect('index')
            w[4] = r.word()
    elif kind == 'draw':
        w = [0] * 8
        w[4:6] = [0, 3]
        while r.fields:
            key = r.key()
            if key == 'segments':
                w[1:3] = r.words(2)
            elif key == 'paint':
                w[3] = r.word()
            elif key == 'blend':
                w[4:6] = r.words(2)
            elif key == 'mask':
                w[6] = r.word()
            elif key == 'thread':
                w[0] = r.word()
            elif key == 'panel':
                w[7] = r.word()
            else:
                r.fail('a draw has no %s' % key)
    elif kind == 'layer':
        w = [r.kind('layer')] + [0] * 22
        w[3:6] = [0, 3, ONE]
        places = {'nodes': (1, 3), 'blend': (3, 5), 'mask': (6, 7), 'box': (8, 12), 'segments': (12, 14), 'thread': (14, 15),
                  'dest': (16, 20), 'source': (20, 22), 'panel': (22, 23)}
        while r.fields:
            key = r.key()
            if key in places:
                a, b = places[key]
                w[a:b] = r.words(b - a)
            elif key == 'pixmap':
                w[15] = r.choice()
            elif key == 'opacity':
                w[5] = r.opacity()
            elif key == 'clip':
                w[7] = r.word() if r.fields and r.fields[0][0].isdigit() else 1
            else:
                r.fail('a layer has no %s' % key)
    else:
        r.expect('draws')
        w = r.words(2) + [0]
        if r.fields:
            r.expect('layer')
            w[2] = r.choice()
    if r.fields:
        r.fail('%r is too much' % r.fields[0])
    return w


def edition_of(reader):
    edition = reader.word()
    if edition not in SIZES:
        reader.fail('there is no edition %d' % edition)
    if reader.fields:
        reader.fail('%r is too much' % reader.fields[0])
    return edition


def to_file(text):
    sections = {kind: [] for kind, _ in SIZES[1]}
    edition, with_panel = None, None
    for number, line in enumerate(text.splitlines(), 1):
        fields = line.split('#')[0].split()
        if not fields:
            continue
        kind, reader = fields[0], Reader(number, fields[1:])
        if kind == 'edition':
            if edition:
                reader.fail('an edition is said already')
            edition = edition_of(reader)
        elif kind in sections:
            sections[kind].append(record_of(kind, reader))
            with_panel = with_panel or ('panel' in reader.keys and number)
        else:
            reader.fail('%r is no record' % kind)
    edition = edition or 1
    if edition == 1 and with_panel:
        bad('line %d: edition 1 has no panels' % with_panel)
    words = list(HEAD[edition])
    for kind, size in SIZES[edition]:
        records = sections[kind]
        if kind in ('viewport', 'root') and len(records) != 1:
            bad('a file has one %s' % kind)
        if len(records) > 4096:
            bad('more than 4,096 lines of %s' % kind)
        words.append(len(records))
        for record in records:
            words += record[:size]
    return struct.pack('<%dI' % len(words), *words)


def main(args):
    if args in (['--help'], ['-h']):
        print(__doc__.strip())
        return
    edition = 1
    if args[:2] == ['text', '--edition'] and args[2:] in (['1'], ['2']):
        edition, args = int(args[2]), ['text']
    if args not in (['text'], ['file']):
        print('rec: %s' % ('text or file is expected' if not args else '%r is neither text nor file' % ' '.join(args)), file=sys.stderr)
        print(__doc__.strip(), file=sys.stderr)
        sys.exit(2)
    try:
        given = sys.stdin.buffer.read()
    except OSError as error:
        bad('cannot read standard input: %s' % error.strerror)
    if args == ['text']:
        out = to_text(given, edition).encode()
    else:
        try:
            out = to_file(given.decode())
        except UnicodeDecodeError as error:
            bad('byte %d is no text' % error.start)
    try:
        sys.stdout.buffer.write(out)
        sys.stdout.buffer.flush()
    except BrokenPipeError:  # the reader has gone
        os.dup2(os.open(os.devnull, os.O_WRONLY), sys.stdout.fileno())
        sys.exit(1)
    except OSError as error:
        os.dup2(os.open(os.devnull, os.O_WRONLY), sys.stdout.fileno())
        bad('cannot write standard output: %s' % error.strerror)


if __name__ == '__main__':
    main(sys.argv[1:])
