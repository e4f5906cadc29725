"""The answers to a day of days.many_entries(count, False): reports, give-ups and claims are answered by counting, everything else by nothing."""


class Counts:
    def __init__(self):
        self.entries = 0
        self.waiting, self.lots = set(), []     # match ids with one side; of each offer

    def answer(self, line):
        words = line.split(b' ')
        match words[0]:
            case b'REPORT':
                is_matched = words[3] in self.waiting
                (self.waiting.discard if is_matched else self.waiting.add)(words[3])
                return self.entry(b'OK MATCHED' if is_matched else b'OK OPEN')
            case b'GIVEUP':
                first = len(self.lots) + 1
                self.lots += words[5::2]
                return self.entry(b'OK OFFERS %d %d' % (first, len(self.lots)))
            case b'CLAIM':
                return self.entry(b'OK LOTS %b' % self.lots[int(words[2]) - 1])
            case b'DAY' | b'LIMIT':
                return self.entry(b'OK')
            case b'POSITION':
                return b'POSITION %b %b 0 0\n' % (words[1], words[2])
            case b'SEE':
                return b'SEEN %b 0\n' % words[2]
            case b'PROPOSE':
                return b'PROPOSED 0\n'
            case b'LIMITS':
                return b''
        return b'UNKNOWN\n'

    def entry(self, said):
        self.entries += 1
        return b'%d %b\n' % (self.entries, said)
