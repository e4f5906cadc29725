"""The desk, as its watch socket answers (docs/OPERATING.md): STATUS and JOURNAL alone are asked."""
import collections
import socket

PATIENCE = 5            # seconds in which an answer has to come
ENDED = 'It was closed, or it failed'
BUSY = 'It was stopped, or its watch is busy, which answers two at once'
Desk = collections.namedtuple('Desk', 'state date entries most swept connections places all')
Connection = collections.namedtuple('Connection', 'number firm port since heard bytes_in bytes_out expects sends held')


class DeskGone(Exception):
    """The desk can't be asked, and why."""


def words_of(error):
    return f'{error.strerror or error}. {"This user may not open it" if isinstance(error, PermissionError) else ENDED}'


class Watch:
    def __init__(self, path):
        self.line, self.rest = socket.socket(socket.AF_UNIX), b''
        self.line.settimeout(PATIENCE)
        try:
            self.line.connect(path)
        except OSError as error:
            self.line.close()
            raise DeskGone(words_of(error)) from None

    def ask(self, word):
        """The lines of the answer to a word."""
        try:
            self.line.sendall(word.encode() + b'\n')
            while not self.rest.endswith(b'\n\n') and self.rest != b'\n':
                piece = self.line.recv(1 << 17)
                if not piece:
                    raise DeskGone(f'it closed the connection. {ENDED}')
                self.rest += piece
        except TimeoutError:
            raise DeskGone(f'it has not answered {word} for {PATIENCE} s. {BUSY}') from None
        except OSError as error:
            raise DeskGone(words_of(error)) from None
        lines, self.rest = self.rest.decode('latin-1').split('\n')[:-2], b''
        if lines in (['BAD LINE'], ['MEMORY']):
            raise DeskGone(f'it answered {word} by {lines[0]}')
        return lines

    def status(self):
        """What the desk says of itself, and its connections."""
        lines = self.ask('STATUS')
        words = lines[0].split(' ')
        if words[0] != 'DESK' or 'ENTRIES' not in words:
            raise DeskGone(f'it answered STATUS by {lines[0][:60]!r}')
        number = {name: int(words[words.index(name) + 1]) for name in ('ENTRIES', 'SWEPT', 'CONNECTIONS', 'ALL')}
        most, places = (int(words[place + 1]) for place, word in enumerate(words) if word == 'OF')
        date = words[words.index('DAY') + 1]
        return Desk(words[1], '' if date == '-' else date, number['ENTRIES'], most, number['SWEPT'], number['CONNECTIONS'], places, number['ALL']), \
            [connection_of(line.split(' ')) for line in lines[1:]]

    def close(self):
        self.line.close()


def connection_of(words):
    value = dict(zip(words[3::2], map(int, words[4::2])))
    return Connection(int(words[1]), words[2], *(value[name] for name in ('PORT', 'SINCE', 'HEARD', 'IN', 'OUT', 'EXPECTS', 'SENDS', 'HELD')))
