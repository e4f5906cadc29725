"""An operator at the console of `giveup serve`, or one who only watches it, and `giveup tell`."""
import socket
import subprocess
import time


class Console:
    """A connection to the Unix socket at a path. Each line has an answer of lines, which an empty line ends."""

    def __init__(self, path, seconds=20):
        self.line = socket.socket(socket.AF_UNIX)
        self.line.settimeout(seconds)
        self.line.connect(str(path))
        self.rest = b''

    def send(self, line):
        self.line.sendall(line.encode() + b'\n')

    def answer(self):
        """The lines of the next answer; None if the desk closes the connection before its end."""
        lines = []
        while True:
            row, found, rest = self.rest.partition(b'\n')
            if found:
                self.rest = rest
                if not row:
                    return lines
                lines.append(row.decode())
                continue
            try:
                piece = self.line.recv(65536)
            except ConnectionError:
                return None
            if not piece:
                return None
            self.rest += piece

    def ask(self, line):
        self.send(line)
        return self.answer()

    def status(self):
        """What the desk says of itself and of each connection."""
        lines = self.ask('STATUS') or ['']
        return Desk(lines[0]), [Place(line) for line in lines[1:]]

    def journal(self):
        """The lines of all entries that this connection wasn't given yet."""
        lines = []
        while more := self.ask('JOURNAL'):
            lines += more
        return lines

    def close(self):
        self.line.close()


def after(words, name):
    """The word after a name."""
    return words[words.index(name) + 1] if name in words else ''


class Desk:
    """DESK OPEN DAY 20260105 ENTRIES 9 OF 1000000 SWEPT 10 CONNECTIONS 2 OF 8 ALL 5"""

    def __init__(self, line):
        words = line.split()
        self.line, self.is_open, self.day = line, words[:2] == ['DESK', 'OPEN'], after(words, 'DAY')
        self.entries, self.swept, self.connections, self.all = (int(after(words, name) or -1) for name in ('ENTRIES', 'SWEPT', 'CONNECTIONS', 'ALL'))


class Place:
    """CONNECTION 4 E1 PORT 50514 SINCE 61034 HEARD 120 IN 1234 OUT 2345 EXPECTS 17 SENDS 20 HELD 0"""

    def __init__(self, line):
        words = line.split()
        self.line, self.number, self.firm = line, int(words[1]), words[2]
        self.port, self.since, self.heard = (int(after(words, name) or -1) for name in ('PORT', 'SINCE', 'HEARD'))


def tell(program, path, *lines, seconds=100):
    """`giveup tell`: its status, the lines that it printed, and how long it took. None for the status if it doesn't end in time."""
    since = time.monotonic()
    try:
        done = subprocess.run([program, 'tell', path, *lines], stdin=subprocess.DEVNULL, stdout=subprocess.PIPE, stderr=subprocess.STDOUT, timeout=seconds)
    except subprocess.TimeoutExpired:
        return None, [], time.monotonic() - since
    return done.returncode, done.stdout.decode(errors='replace').splitlines(), time.monotonic() - since
