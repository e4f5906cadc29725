"""The sheets of the sweeps, compressed; of the oldest only a row is kept, and they are worked out again when they are asked for."""
import collections
import zlib

import load

DRAW = load.tool('draw')
KEPT = 64 << 20         # bytes
RECHECK = DRAW.RECHECK

Sweep = collections.namedtuple('Sweep', 'entry group version offers asked lots cut whole')


class Sheets:
    def __init__(self):
        self.rows, self.numbers = {}, []        # by the sweep's entry; the entries in order
        self.texts, self.size = {}, 0
        self.views = {}                         # those that were looked at last

    def add(self, row, text):
        self.rows[row.entry] = row
        self.numbers.append(row.entry)
        self.keep(row.entry, text)

    def keep(self, entry, text):
        self.texts[entry] = zlib.compress(text.encode('latin-1'), 1)
        self.size += len(self.texts[entry])
        while self.size > KEPT and len(self.texts) > 1:
            self.size -= len(self.texts.pop(next(iter(self.texts))))

    def text(self, entry):
        """The sheet of a sweep, or None if it isn't kept."""
        return zlib.decompress(self.texts[entry]).decode('latin-1') if entry in self.texts else None

    def view(self, entry, text):
        """The sheet of a sweep with the sums that a drawing shows, and what is wrong with it by tools/recheck."""
        if entry not in self.views:
            if len(self.views) > 50:
                self.views.clear()
            parts, faults = DRAW.parts_of(RECHECK.lines_of(text + '\n'))
            view = parts[0] if parts else None
            if view:
                view.entry = entry
            self.views[entry] = view, [str(fault) for fault in faults]
        return self.views[entry]


def sweep_of(entry, lines):
    """What a row of a list shows of a sheet, and its offers and takes."""
    offers, takes, cut, whole = {}, {}, [], 0
    for line in lines:
        words = line.split(' ')
        match words[0]:
            case 'OFFER':
                offers[int(words[1])] = int(words[2])
            case 'TAKE':
                takes[int(words[1])] = int(words[2])
            case 'CUT' if words[1] == 'OFFER':
                whole += 1
            case 'CUT':
                cut.append((words[1], words[2]))
            case 'SHEET':
                group, version = words[1], int(words[2])
    return Sweep(entry, group, version, len(offers), sum(offers.values()), sum(takes.values()), tuple(cut), whole), offers, takes
