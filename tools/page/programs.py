"""The four programs: how they are built, and how they are asked."""
import os
import pathlib
import re
import signal
import subprocess
import threading

NAMES = ('rowlist', 'rowdump', 'why', 'tilelist')
# Seconds that one run may take, and bytes that it may write.
PATIENCE = 120
MOST_OUTPUT = 256 * 1024 * 1024
# What a run of ./run --unproved takes in and gives out at most.
UNPROVED_INPUT, UNPROVED_OUTPUT = 48 * 1024 * 1024, 900 * 1024


class Failed(Exception):
    """A program could not be built, or did not do its work: a sentence."""


class Programs:
    """The programs and the kind of build that they are. `usage` has `rowlist`'s own words for each refusal."""

    def __init__(self, kind, words, commands):
        self.kind, self.words, self.commands = kind, words, commands
        # Slow where each run compiles anew: then few runs, each of many questions.
        self.is_slow = kind == 'unproved'
        self.turns = threading.BoundedSemaphore(max(2, os.cpu_count() or 2))
        self.closing, self.running = threading.Event(), set()
        self.version = '' if self.is_slow else self.ask('rowlist', ['--version']).strip()
        self.usage = self.ask('rowlist', ['--help'])
        self.refusals = dict((int(n), text) for n, text in re.findall(r'^  (\d+): (.*)$', self.usage, re.M))

    def ask(self, name, arguments, data=b''):
        """What the program writes for these arguments and this standard input. No shell is between."""
        with self.turns:
            if self.closing.is_set():
                raise Failed('the page is closing')
            try:
                ran = subprocess.Popen([*self.commands[name], *arguments], stdin=subprocess.PIPE, stdout=subprocess.PIPE, stderr=subprocess.PIPE, start_new_session=True)
            except OSError as error:
                raise Failed('%s does not start: %s' % (name, error.strerror)) from None
            self.running.add(ran)
            patience = PATIENCE * (5 if self.is_slow else 1)
            try:
                out, said = ran.communicate(data, timeout=patience)
            except subprocess.TimeoutExpired:
                end(ran)
                ran.communicate()
                raise Failed('%s gave no answer in %d seconds' % (name, patience)) from None
            finally:
                self.running.discard(ran)
        if ran.returncode:
            raise Failed('%s ended with status %d: %s' % (name, ran.returncode, said.decode('utf-8', 'replace').strip()[-300:]))
        if len(out) > MOST_OUTPUT:
            raise Failed('%s wrote more than %d bytes' % (name, MOST_OUTPUT))
        return out.decode('ascii', 'replace')

    def stop(self):
        """Ends what runs, and lets nothing more begin."""
        self.closing.set()
        for it in list(self.running):
            end(it)


def end(ran):
    """Ends a run and what it started: it leads a session of its own."""
    try:
        os.killpg(ran.pid, signal.SIGKILL)
    except ProcessLookupError:
        pass


def make(top, unproved, folder, tell):
    """The programs: of a folder that is named, unproved, or proved and built by ./run."""
    run = str(top / 'run')
    if folder:
        at = pathlib.Path(folder).resolve()
        tell('the programs in %s are taken as they are' % at)
        return Programs('given', 'programs of a named folder, taken as they are: nothing is said of a proof', {name: [str(at / name)] for name in NAMES})
    if unproved:
        tell('nothing is proved; each question compiles a program anew')
        return Programs('unproved', 'compiled from the sources by ./run --unproved: nothing is proved', {name: [run, '--unproved', name] for name in NAMES})
    for name in NAMES:
        tell('%s is proved and built, where it is not yet' % name)
        if subprocess.run([run, name, '--version'], stdin=subprocess.DEVNULL, stdout=subprocess.DEVNULL).returncode:
            raise Failed('%s is not built: ./run %s --version says why; --unproved does without a proof' % (name, name))
    return Programs('proved', 'proved and built by ./run', {name: [str(top / 'crates' / name / 'out' / name)] for name in NAMES})
