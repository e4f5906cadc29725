"""The entries of a day, in little memory: their lines one after another, so that an id is found by looking for it there."""
import bisect
import collections
import itertools
from array import array

Entry = collections.namedtuple('Entry', 'number line answer at connection message')


class Texts:
    """Texts by their numbers, from 1."""

    def __init__(self):
        self.text, self.ends = bytearray(), array('L', [0])

    def extend(self, texts):
        self.ends.extend(itertools.islice(itertools.accumulate((len(words) + 1 for words in texts), initial=len(self.text)), 1, None))
        self.text += ('\n'.join(texts) + '\n').encode('latin-1')

    def __getitem__(self, number):
        return self.text[self.ends[number - 1]:self.ends[number] - 1].decode('latin-1')

    def __len__(self):
        return len(self.ends) - 1

    def having(self, word, before):
        """The numbers below `before` of the texts that have a word after their first, from the newest on."""
        word, end = b' ' + word.encode('latin-1', 'replace'), self.ends[min(before - 1, len(self))]
        places = [self.text.rfind(word + after, 0, end) for after in (b' ', b'\n')]
        while (place := max(places)) >= 0:
            number = bisect.bisect_right(self.ends, place)
            yield number
            end = self.ends[number - 1]
            places = [self.text.rfind(word + after, 0, end) if at >= end else at for at, after in zip(places, (b' ', b'\n'))]


class History:
    def __init__(self):
        self.lines, self.answers = Texts(), Texts()
        self.moments = array('q')               # milliseconds since 1970, or 0
        self.connections, self.messages = array('L'), array('L')
        self.instead = {}                       # the report that a script has no line for, by its entry's number
        self.refused = array('L')

    def __len__(self):
        return len(self.lines)

    def extend(self, rows, answers):
        """Rows of a journal, and the answers to them without their numbers."""
        lines, moments, connections, messages, others = zip(*rows)
        for number, other in enumerate(others, len(self) + 1):
            if other:
                self.instead[number] = other
        self.lines.extend(lines)
        self.answers.extend(answers)
        self.moments.extend(moments)
        self.connections.extend(connections)
        self.messages.extend(messages)

    def entry(self, number):
        return Entry(number, self.instead.get(number, self.lines[number]), self.answers[number], self.moments[number - 1], self.connections[number - 1],
                     self.messages[number - 1])

    def having(self, word, before):
        """The numbers of the entries below `before` whose line has a word, from the newest on."""
        others = sorted((number for number, line in self.instead.items() if word in line.split(' ') and number < before), reverse=True)
        for number in self.lines.having(word, before):
            while others and others[0] > number:
                yield others.pop(0)
            yield number
        yield from others

    def between(self, first, last):
        """How many entries were made from one moment up to another."""
        return bisect.bisect_left(self.moments, last) - bisect.bisect_left(self.moments, first)
