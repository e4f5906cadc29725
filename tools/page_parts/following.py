"""Follows a desk that runs, a journal's file, or both, and says how it goes."""
import contextlib
import threading
import time

from .day import Day
from .desk import DeskGone, Watch
from .group_view import GroupViews
from .journal import JournalFile, JournalText, Replaced
from .replica import Replica, ReplicaEnded

POLL = 0.2              # seconds from one JOURNAL to the next
LOOK = 0.1              # and from one look at a journal's file to the next
STATUS = 1.0            # and from one STATUS to the next
PACE = 0.02             # while the entries that were there before are read, this many seconds at least from one JOURNAL to the next
SILENT = 3.0            # seconds without an answer after which that is said
STRETCH = 256           # entries of one JOURNAL


class Following:
    """The day that is shown. A day that turns out to be another one is begun anew, with another replica."""

    def __init__(self, program, reference, watch=None, journal=None):
        self.program, self.reference, self.watch, self.journal = program, reference, watch, journal
        self.desk, self.connections, self.heard, self.gone, self.gone_since = None, [], None, None, time.time()
        self.fault, self.behind_since, self.file = None, None, None
        self.count, self.more = 0, threading.Condition()
        self.day = None
        self.begin()

    def begin(self):
        """A day without entries."""
        if self.day:
            with self.day.lock:
                self.day.replica.end()
        self.text, self.is_read, self.matched = JournalText(self.reference), False, 0
        self.day = Day(self.reference, Replica(self.program, self.reference.path_of_file))
        self.views = GroupViews(self.day)

    def start(self):
        loops = [self.follow_file, *([self.follow_status] if self.watch else [])] if self.journal else [self.follow_desk]
        for loop in loops:
            threading.Thread(target=self.run, args=(loop,), daemon=True).start()

    def run(self, loop):
        try:
            loop()
        except ReplicaEnded as fault:
            self.stop(fault)
        except Exception as fault:      # the page goes on, and says that it follows no more
            self.fault = f'This page can\'t go on: {type(fault).__name__}: {fault}'
        self.change()

    def stop(self, fault):
        """The replica is gone: what it has said so far stays."""
        self.fault = f'The replica has ended: {fault}'
        self.day.is_frozen = True
        self.change()

    # Who waits for a change.

    def change(self):
        with self.more:
            self.count += 1
            self.more.notify_all()

    def wait(self, seen, seconds):
        """The number of the last change, once there is one after `seen`, or the time is up."""
        with self.more:
            self.more.wait_for(lambda: self.count != seen, seconds)
            return self.count

    # A journal's file.

    def follow_file(self):
        while not self.fault:
            try:
                self.file = JournalFile(self.journal)
                while self.read_file():
                    pass
            except FileNotFoundError:
                time.sleep(1)
            except OSError as error:
                self.fault = f'The journal can\'t be read: {self.journal}: {error.strerror}'
            except Replaced:
                self.file.close()
                self.begin()

    def read_file(self):
        self.take(self.file.lines())
        if self.file.is_whole:
            self.read_whole()
            time.sleep(LOOK)
        return not self.fault

    def read_whole(self):
        if not self.is_read:
            self.views.warm()
            self.is_read = True
            self.change()

    def take(self, lines):
        if lines:
            self.text.add(lines, int(time.time() * 1000) if self.is_read else 0)
            self.text.give(self.day)
            self.fault = self.fault or self.text.fault and f'This isn\'t a journal of the reference {self.reference.path_of_file}: {self.text.fault}'
            self.change()

    # A desk.

    def follow_desk(self):
        self.keep_asking(self.read_desk)

    def follow_status(self):
        """Each STATUS has a connection of its own: a watch answers two at once, and this one is free for others in between."""
        self.keep_asking(self.note_status)

    def keep_asking(self, read):
        """Asks the desk again and again, also if it is gone for a while."""
        while not self.fault:
            try:
                with contextlib.closing(Watch(self.watch)) as watch:
                    read(watch)
                time.sleep(STATUS)
            except DeskGone as gone:
                self.gone_since = self.gone_since or time.time()
                self.gone, self.connections = str(gone), []
                self.change()
                time.sleep(1)
            except Replaced:
                self.begin()

    def answered(self):
        self.heard, self.gone, self.gone_since = time.time(), None, None

    def note_status(self, watch):
        """Asks for STATUS. That alone is no change: it differs each second, and the pages that show it renew themselves by the clock; but each page shows
        how many are connected."""
        desk, connections = watch.status()
        is_new = self.desk is None or self.desk.state != desk.state or self.gone is not None or len(connections) != len(self.connections)
        self.desk, self.connections = desk, connections
        self.answered()
        self.compare()
        if is_new:
            self.change()

    def read_desk(self, watch):
        """Reads the journal on one connection, which is given each entry once."""
        self.matched, self.asked = 0, 0
        while not self.fault:
            self.read_stretch(watch)

    def read_stretch(self, watch):
        since = time.monotonic()
        lines = self.unknown(watch.ask('JOURNAL'))
        self.answered()
        entries = sum(not line.startswith('#') for line in lines)
        if lines:
            self.take(lines)
            self.matched = len(self.day.history)
        if since - self.asked >= STATUS:
            self.asked = since
            self.note_status(watch)
        is_last = entries < STRETCH and self.matched >= len(self.day.history)
        if is_last:
            self.read_whole()
        time.sleep(max(0, (POLL if is_last else PACE) - (time.monotonic() - since)))

    def unknown(self, lines):
        """The lines of a journal without those of the entries that are known: each connection is given all from the first on."""
        known = len(self.day.history)
        for place, line in enumerate(lines):
            if self.matched >= known:
                return lines[place:]
            if not line.startswith('#'):
                self.matched += 1
                if line != self.day.history.lines[self.matched]:
                    raise Replaced
        return []

    def compare(self):
        """The desk's counts beside the replica's."""
        with self.day.lock:
            entries, swept = len(self.day.history), self.day.all_swept
        if self.is_read and self.desk.entries < entries and not self.journal and self.matched >= entries:
            raise Replaced
        if self.desk.entries == entries and self.desk.swept != swept:
            self.day.say(entries, f'the desk has swept {self.desk.swept:,} lots, and the replica {swept:,}')
        is_behind = self.desk.entries > entries
        self.behind_since = (self.behind_since or time.time()) if is_behind else None

    # How it goes.

    def state(self):
        """In a word and a sentence: is the desk alive, and is what is shown what it has."""
        entries, now = len(self.day.history), time.time()
        behind = max(0, self.desk.entries - entries) if self.desk and not self.gone else 0
        level, word, text = self.words(entries, behind, now)
        return dict(level=level, word=word, text=text, date=self.day.date, entries=entries, behind=behind,
                    heard_seconds=round(now - self.heard, 1) if self.heard else None,
                    desk_entries=self.desk.entries if self.desk else None, most_entries=self.desk.most if self.desk else 1_000_000,
                    agrees_to=self.text.digests.entries or None, times='journal' if self.journal else 'seen')

    def words(self, entries, behind, now):
        shown = f'What is shown is the day up to entry {entries:,}.' if entries else 'Nothing is shown yet.'
        if self.fault:
            return 'bad', 'stopped', f'{self.fault}. {shown} Start the page again once that is mended.'
        if self.day.differs:
            return 'bad', 'differs', (f'The replica is not a copy of the desk, {self.day.differs}. Trust the desk\'s own answers. '
                                      'Is the page started with the desk\'s reference and program?')
        if self.watch and self.gone and self.is_closed():
            return 'over', 'closed', f'The desk was closed, and its day has ended. {shown}'
        if self.watch and self.gone:
            seconds = int(now - self.gone_since)
            return 'bad', 'no desk', f'The desk can\'t be reached at {self.watch} for {seconds:,} s: {self.gone}. {shown} The page goes on trying.'
        if not self.is_read:
            return 'warn', 'reading', self.reading(entries)
        if self.watch and not self.heard:
            return 'warn', 'reading', f'The desk has not answered yet. {shown}'
        if self.watch and now - self.heard > SILENT:
            return 'warn', 'silent', f'The desk has not answered for {int(now - self.heard)} s. {shown}'
        if not self.watch:
            return self.words_of_file(entries, now)
        if self.desk and self.desk.state != 'OPEN':
            is_said = 'is being closed' if self.desk.state == 'CLOSING' else f'says {self.desk.state}'
            return 'warn', self.desk.state.lower(), f'The desk {is_said}. {shown}'
        if self.behind_since and now - self.behind_since > 1:
            return 'warn', 'behind', f'{behind:,} entries behind the desk for {int(now - self.behind_since)} s.'
        return 'good', 'open', 'The desk answers, and what is shown is what it has.'

    def is_over(self):
        """Whether nothing will be entered any more."""
        return bool(self.gone) and self.is_closed() if self.watch else self.file is not None and self.file.is_over

    def is_closed(self):
        """Whether the desk that is gone was closed, by what it said last or by its journal; a desk that was killed leaves zeros there."""
        return self.desk is not None and self.desk.state == 'CLOSING' or self.file is not None and self.is_read and self.file.is_over

    def reading(self, entries):
        if self.journal and not self.file:
            return f'There is no file {self.journal} yet.'
        of = f' of {self.desk.entries:,}' if self.desk else ''
        return f'The day is being read: {entries:,}{of} entries so far. Sums are those up to there.'

    def words_of_file(self, entries, now):
        if self.file.is_over:
            return 'over', 'ended', 'This day has ended: its journal is complete. Nothing changes any more.'
        return 'good', 'journal', (f'The journal is being written; its last line came {int(now - self.file.grew):,} s ago. Whether the desk lives, a journal alone '
                                   'doesn\'t say (--watch does).')
