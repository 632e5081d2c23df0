"""What tools/inspect does with its arguments."""
import os
import pathlib
import signal
import sys

from . import programs, recording, server

TOP = pathlib.Path(__file__).resolve().parents[2]


def tell(text):
    print('inspect: ' + text, file=sys.stderr, flush=True)


def wrong(text, usage):
    tell(text)
    print(usage, file=sys.stderr)
    return 2


def parse(args):
    """The files, the options and whether nothing is to be proved; a sentence where an argument is none."""
    values = {'--width': '128', '--edition': '1', '--beside': None}
    flags, files = set(), []
    words = list(args)
    while words:
        word = words.pop(0)
        if word in ('--snap', '--unproved'):
            flags.add(word)
        elif word in values:
            if not words:
                return '%s needs a value' % word
            values[word] = words.pop(0)
        elif word.startswith('-'):
            return '%s is no option' % word
        else:
            files.append(word)
    if len(files) != 1:
        return 'one FILE is expected'
    options = recording.options_of('1' if '--snap' in flags else '0', values['--width'], values['--edition'])
    if not options:
        return '--width is 64, 128 or 256, and --edition 1 or 2'
    return files + [values['--beside']] * (values['--beside'] is not None), options, '--unproved' in flags


def read(name):
    """A file's first bytes, one more than the page takes; a device or a pipe is read no further."""
    with open(name, 'rb') as file:
        return file.read(server.MOST_BYTES + 1)


def main(args, usage):
    if args in (['--help'], ['-h']):
        print(usage)
        return 0
    found = parse(args)
    if isinstance(found, str):
        return wrong(found, usage)
    files, options, unproved = found
    given = []
    for name in files:
        try:
            given.append(read(name))
        except OSError as error:
            tell('cannot read %s: %s' % (name, error.strerror))
            return 1
        if len(given[-1]) > server.MOST_BYTES:
            tell('%s has more than %d bytes' % (name, server.MOST_BYTES))
            return 1
    made = None
    # Also where it was started in the background, whose children ignore Ctrl-C.
    for ends in (signal.SIGINT, signal.SIGTERM):
        signal.signal(ends, signal.default_int_handler)
    try:
        made = programs.make(TOP, unproved, os.environ.get('COARSE_PROGRAMS_DIR'), tell)
        desk = recording.Desk(made)
        for slot, name, data in zip(recording.SLOTS, files, given):
            tell('reading %s' % name)
            desk.open(slot, os.path.basename(name), data, options)
        server.serve(desk, lambda address: print(address, flush=True))
    except programs.Failed as error:
        tell(str(error))
        return 1
    except KeyboardInterrupt:
        pass
    finally:
        # (whoever is impatient may press it again)
        signal.signal(signal.SIGINT, signal.SIG_IGN)
        if made:
            made.stop()
    return 0
