"""One connection of a firm to the desk: it counts what it sends, and tests the numbers, lengths and check sums of what comes."""
import select
import socket
import time
from pathlib import Path

from messages import fields_of, is_whole, message, taken_from


def is_open(port, line):
    """Whether the desk's end of a connection is established (by /proc/net/tcp, since a firm that doesn't read can't see its close)."""
    ends = f':{port:04X}', f':{line.getsockname()[1]:04X}'
    rows = (row.split() for row in Path('/proc/net/tcp').read_text().splitlines()[1:])
    return any(row[1].endswith(ends[0]) and row[2].endswith(ends[1]) and row[3] == '01' for row in rows)


def seconds_open(port, line, since, most):
    """How long the desk keeps its end of a connection open, up to `most` seconds."""
    while is_open(port, line) and time.monotonic() < since + most:
        time.sleep(0.05)
    return time.monotonic() - since


class Connection:
    def __init__(self, port, firm, room=None):
        """Connects to a port, or to a door by its path. `room` is that of the kernel for what wasn't read yet, in bytes."""
        is_door = isinstance(port, Path)
        self.line = socket.socket(socket.AF_UNIX if is_door else socket.AF_INET)
        if room:
            self.line.setsockopt(socket.SOL_SOCKET, socket.SO_RCVBUF, room)
        if not is_door:
            self.line.setsockopt(socket.IPPROTO_TCP, socket.TCP_NODELAY, 1)
        self.line.settimeout(20)
        self.line.connect(str(port) if is_door else ('127.0.0.1', port))
        self.firm, self.sent, self.expected = firm, 0, 1
        self.rest, self.faults, self.is_closed = b'', [], False

    def send(self, kind, fields=''):
        """Sends a message under the next number, and gives the moment just before."""
        self.sent += 1
        text = message(kind, self.firm, self.sent, fields)
        at = time.monotonic()
        self.line.sendall(text)
        return at

    def log_on(self, heartbeat=30):
        return self.send('A', f'98=0|108={heartbeat}|1137=9|')

    def hear(self, seconds):
        """What comes within this time, as soon as anything does: the moment, and the fields of each message. Empty if nothing comes or the desk closes."""
        if self.is_closed or not select.select([self.line], [], [], seconds)[0]:
            return time.monotonic(), []
        piece = self.line.recv(65536)
        at = time.monotonic()
        self.is_closed = not piece
        texts, self.rest = taken_from(self.rest + piece)
        for text in texts:
            self.look_at(text)
        return at, [fields_of(text) for text in texts]

    def look_at(self, text):
        number = int(fields_of(text)['34'])
        if not is_whole(text):
            self.faults.append(f'{self.firm}: not whole: {text!r}')
        if fields_of(text).get('43') != 'Y':
            if number != self.expected:
                self.faults.append(f'{self.firm}: 34={number}, where {self.expected} is due')
            self.expected = number + 1

    def hear_until(self, fits, seconds=20):
        """The moment at which a message comes that fits, and all that came up to then. None if none comes in this time."""
        end, heard = time.monotonic() + seconds, []
        while time.monotonic() < end and not self.is_closed:
            at, came = self.hear(end - time.monotonic())
            heard += came
            if any(map(fits, came)):
                return at, heard
        return None, heard

    def log_out(self, seconds=20):
        """Logs out, and waits until the desk closes the connection. Whether its Logout came, and what came meanwhile."""
        self.send('5')
        _, heard = self.hear_until(lambda m: False, seconds)
        self.line.close()
        return any(m['35'] == '5' for m in heard), heard
