"""A journal's file: its entries with their moments and origins, its digests, and what the sweeps took, as docs/OPERATING.md says."""
import calendar
import collections
import hashlib
import os
import re
import time

from .day import WORDS, Row

PIECE = 1 << 20
TAIL = 64               # bytes before the next one that are looked at again, to see whether the file is still the same
MOMENT = re.compile(r'# (\d{8}-\d\d:\d\d:\d\d)\.(\d{3})(?: [A-Z0-9-]+ (\d+) (\d+))?')
DIGEST = re.compile('# ([0-9]+) ([0-9a-f]{64})')


class Replaced(Exception):
    """The file isn't the one that was read so far."""


class JournalFile:
    """The lines of a file that may still be written. While it is, zeros follow its text."""

    def __init__(self, path):
        self.path, self.file, self.place, self.tail, self.grew = path, open(path, 'rb', buffering=0), 0, b'', time.time()
        self.is_over = self.is_whole = False     # no zeros follow the text; all of it was read

    def lines(self):
        """The whole lines that came since, some megabyte of them at most."""
        self.test()
        data = os.pread(self.file.fileno(), PIECE, self.place)
        text, zero, _ = data.partition(b'\0')
        text = text[:text.rfind(b'\n') + 1]
        self.is_over, self.is_whole = not zero and len(data) == len(text) < PIECE, len(data) < PIECE or bool(zero)
        if not text:
            return []
        self.place += len(text)
        self.tail = (self.tail + text)[-TAIL:]
        self.grew = time.time()
        return text.decode('latin-1').split('\n')[:-1]

    def test(self):
        try:
            is_same = os.stat(self.path).st_ino == os.fstat(self.file.fileno()).st_ino
        except OSError:
            return              # moved away: what was read is still there
        if not is_same or os.pread(self.file.fileno(), TAIL, self.place - len(self.tail))[:len(self.tail)] != self.tail:
            raise Replaced

    def close(self):
        self.file.close()


class Digests:
    """The chain of a journal's digests, beside what the replica prints: where they agree, it answers as the desk did."""

    def __init__(self):
        self.last, self.entries, self.batch, self.is_new = bytes(32), 0, hashlib.sha256(bytes(32)), False

    def add(self, answers):
        if answers:
            self.batch.update(''.join(map(shown_of, answers)).encode('latin-1'))
            self.is_new = True

    def agrees(self, entries, digest):
        if self.is_new:
            self.last, self.is_new = self.batch.digest(), False
            self.batch = hashlib.sha256(self.last)
        self.entries = entries
        return self.last.hex() == digest


def shown_of(answer):
    """What a digest has of an answer: its line, and of a sweep the lines that a journal has of it, which its sheet gives too."""
    first, sheet, lines = answer.partition('\nSHEET ')
    if not sheet:
        return f'{answer}\n'
    rows = [f'SWEEP {first.split(" ")[2]}']
    rows += [f'# {line}' for line in lines.split('\n') if line.startswith('TAKE ') and not line.endswith(' 0') or line.startswith('CUT ')]
    return '\n'.join([first, *rows, ''])


class JournalText:
    """Takes the lines of a journal, of a file or of the desk's JOURNAL, and gives a day its entries."""

    def __init__(self, reference):
        self.reference, self.digests = reference, Digests()
        self.rows, self.marks, self.takes = [], [], {}          # of the lines that wait to be taken
        self.moment, self.origin, self.instead = 0, (0, 0), None
        self.second, self.base = '', 0
        self.count, self.sweep, self.entry_of_sweep = 0, None, None     # what the desk took in the last sweep, where comments say it
        self.fault = None

    def add(self, lines, at):
        """`at` is the moment of entries that have none in the text."""
        for line in lines:
            if line[:1] != '#':
                if line:
                    self.add_entry(line, at)
            elif line[10:11] == '-' and (found := MOMENT.fullmatch(line)):
                self.moment, self.origin = self.milliseconds(found[1]) + int(found[2]), (int(found[3] or 0), int(found[4] or 0))
            elif found := DIGEST.fullmatch(line):
                self.marks.append((len(self.rows), int(found[1]), found[2]))
            else:
                self.add_comment(line)

    def add_comment(self, line):
        if line.startswith('# TAKE '):
            _, _, offer, lots = line.split(' ')
            self.sweep = {**(self.sweep or {}), int(offer): int(lots)}
        elif line.startswith('# CUT '):
            self.sweep = self.sweep or {}
        elif line.startswith('# REPORT '):
            self.instead = line[2:]
        elif line.startswith('# reference: SHA-256 ') and line.split(' ')[3] != self.reference.digest:
            self.fault = 'the journal is of another reference file'

    def add_entry(self, line, at):
        if self.entry_of_sweep:
            self.end_sweep()
        self.count += 1
        if line.partition(' ')[0] not in WORDS:
            self.fault = f'entry {self.count:,} would be {line[:60]!r}, which no journal has'
            return
        self.rows.append(Row(line, self.moment or at, *self.origin, self.instead))
        if self.moment or self.instead:
            self.moment, self.origin, self.instead = 0, (0, 0), None
        if line[:6] == 'SWEEP ':
            self.entry_of_sweep = self.count

    def end_sweep(self):
        """The comments of a sweep end with the next entry."""
        self.takes[self.entry_of_sweep] = self.sweep
        self.entry_of_sweep, self.sweep = None, None

    def milliseconds(self, text):
        """The milliseconds of a second such as 20260105-09:30:00, since 1970."""
        if text != self.second:
            parts = text[:4], text[4:6], text[6:8], text[9:11], text[12:14], text[15:]
            self.second, self.base = text, calendar.timegm(tuple(map(int, parts))) * 1000
        return self.base

    def give(self, day, most=2000):
        """Gives a day the entries that wait, this many at most at a time, and compares what it can."""
        rows, marks, self.rows, self.marks = self.rows, collections.deque(self.marks), [], []
        for first in range(0, len(rows), most):
            answers = day.take(rows[first:first + most])
            self.compare_takes(day)
            self.compare_digests(day, answers, first, marks)
        self.compare_digests(day, [], len(rows), marks)

    def compare_takes(self, day):
        for entry in [entry for entry in self.takes if entry <= len(day.history)]:
            day.compare(entry, self.takes.pop(entry))

    def compare_digests(self, day, answers, first, marks):
        """Compares the digests that come with or before these answers, of which the first is that to row `first`."""
        place, end = first, first + len(answers)
        while marks and marks[0][0] <= end:
            at, entries, digest = marks.popleft()
            self.digests.add(answers[place - first:at - first])
            place = at
            if not self.digests.agrees(entries, digest):
                day.say(entries, 'the journal has another digest of the answers up to it')
        self.digests.add(answers[place - first:])
