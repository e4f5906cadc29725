"""The replica: a child `giveup replay`, which is given the desk's entries, and which answers what is shown."""
import fcntl
import os
import select
import subprocess
import tempfile

SILENCE = 120           # seconds of silence after which it is given up
PIECE = 1 << 16
WORKER = 62             # the worker that looks and proposes; nothing is committed


class ReplicaEnded(Exception):
    """The replica is gone, and why."""


class Replica:
    def __init__(self, program, reference):
        self.errors = tempfile.TemporaryFile()
        try:
            self.child = subprocess.Popen([program, 'replay', reference], stdin=subprocess.PIPE, stdout=subprocess.PIPE, stderr=self.errors, bufsize=0)
        except OSError as error:
            raise ReplicaEnded(f'{program}: {error.strerror}') from None
        self.into, self.out = self.child.stdin.fileno(), self.child.stdout.fileno()
        fcntl.fcntl(self.into, fcntl.F_SETFL, os.O_NONBLOCK)
        self.rest = b''

    def sent(self, text):
        """Sends a text, and yields the lines of the answers as they come. It has no end: who asks knows how many there are."""
        left = memoryview(text)
        while True:
            readable, writable, _ = select.select([self.out], [self.into] if left else [], [], SILENCE)
            if writable:
                left = left[self.write(left[:PIECE]):]
            if readable:
                piece = os.read(self.out, 1 << 18)
                if not piece:
                    raise ReplicaEnded(self.fault())
                lines = (self.rest + piece).split(b'\n')
                self.rest = lines.pop()
                yield from lines
            if not readable and not writable:
                raise ReplicaEnded(f'it has not answered for {SILENCE} s')

    def write(self, piece):
        try:
            return os.write(self.into, piece)
        except BlockingIOError:
            return 0
        except BrokenPipeError:
            raise ReplicaEnded(self.fault()) from None

    def fault(self):
        """What it said as it ended."""
        self.child.wait(5)
        self.errors.seek(0)
        said = self.errors.read().decode(errors='replace').strip()
        return said or f'it ended with status {self.child.returncode}'

    def play(self, lines):
        """The answers to lines that enter something: one line each, and the sheet below that of a sweep."""
        if not lines:
            return []
        answers, sheet = [], None
        for line in self.sent(('\n'.join(lines) + '\n').encode('latin-1')):
            if sheet is not None:
                sheet.append(line)
                if line != b'END':
                    continue
                line, sheet = b'\n'.join(sheet), None
            elif b' SWEPT ' in line:
                sheet = [line]
                continue
            answers.append(line.decode('latin-1'))
            if len(answers) == len(lines):
                return answers

    def ask(self, lines):
        """The answers to questions of one line each."""
        if not lines:
            return []
        answers = []
        for line in self.sent(('\n'.join(lines) + '\n').encode('latin-1')):
            answers.append(line.decode('latin-1'))
            if len(answers) == len(lines):
                return answers

    def limits(self, group):
        """Each limit that was set in a group: kind, name, limit, use and room."""
        rows = []
        # How many lines LIMITS has isn't known before. The question after it has one, which begins with another word.
        for line in self.sent(f'LIMITS {group}\nINTEREST -\n'.encode('latin-1')):
            words = line.decode('latin-1').split(' ')
            if words[0] != 'LIMIT':
                return rows
            rows.append((words[2], words[3], int(words[4]), int(words[5]), int(words[6])))

    def proposed(self, group):
        """How many lots a sweep of the group would take now. Nothing is entered."""
        return int(self.ask([f'SEE {WORKER} {group}', f'PROPOSE {WORKER}'])[1].split(' ')[1])

    def end(self):
        self.child.kill()
        self.child.wait()
        for stream in (self.child.stdin, self.child.stdout, self.errors):
            stream.close()
