"""Sheets of any size for tools/draw: firms and accounts with tight limits, by dice. What they take and the cut are worked out by tools/takes.py."""
import random
import sys
from pathlib import Path

sys.path.insert(0, str(Path(__file__).resolve().parent.parent.parent / 'tools'))
import load     # keeps Python from writing files beside the tools
import takes

KINDS = ['AGR', 'EXEC', 'ACCT', 'CARRY']


def offers_of(dice, count):
    """Offers by number: two to an agreement, ten accounts to a carrying firm."""
    agreements = max(1, count // 2)
    firms, accounts = max(2, count // 16), max(2, count // 6)
    ways = {}
    for number in range(1, agreements + 1):
        account = dice.randrange(accounts)
        ways[f'P{number}'] = (f'E{dice.randrange(firms) + 1}', f'A{account + 1}', f'C{account // 10 + 1}')
    offers = {}
    for number in range(1, count + 1):
        agreement = f'P{dice.randrange(agreements) + 1}'
        offers[number] = takes.Offer(dice.randrange(1, 31), tuple(zip(KINDS, (agreement, *ways[agreement]))))
    return offers


def rooms_of(dice, offers):
    """Rooms from some lots less to some more than those that wait under a key."""
    waiting = {}
    for offer in offers.values():
        for key in offer.path:
            waiting[key] = waiting.get(key, 0) + offer.lots
    widest = {'AGR': 3.0, 'EXEC': 1.3, 'ACCT': 1.6, 'CARRY': 1.5}
    return {key: int(lots * dice.uniform(0.6, widest[key[0]])) for key, lots in waiting.items()}


def cut_of(offers, rooms, taken):
    """The keys and the offers of a least cut, by what can still be reached from the source."""
    network = takes.Network(offers, rooms)
    for number, offer in offers.items():
        network.send(takes.way_of(offer), taken[number])
    reached, points = {'source'}, ['source']
    for point in points:
        new = [end for end, room in network.left[point].items() if room and end not in reached]
        reached.update(new)
        points += new
    waiting = {}
    for offer in offers.values():
        waiting[offer.path[0]] = waiting.get(offer.path[0], 0) + offer.lots
    keys, numbers = [], []
    for number, offer in offers.items():
        way = takes.way_of(offer)
        for one, end in zip(way, way[1:]):
            if one in reached and end not in reached:
                # A firm's key lies before its point, those of the others after theirs; an agreement's offers have less than its room, or more.
                key = end if one == 'source' else offer.path[0] if offer.path[0] in (one, end) else one
                if key[0] == 'AGR' and waiting[key] < rooms[key]:
                    numbers.append(number)
                elif key not in keys:
                    keys.append(key)
    return keys, numbers


def sheet(count, seed):
    """The lines of a sheet with this many offers."""
    dice = random.Random(seed)
    offers = offers_of(dice, count)
    rooms = rooms_of(dice, offers)
    taken = takes.oldest_first(offers, rooms)
    keys, numbers = cut_of(offers, rooms, taken)
    yield f'SHEET G1 {count}'
    for number, offer in offers.items():
        yield f'OFFER {number} {offer.lots} {" ".join(name for _, name in offer.path)}'
    yield from (f'ROOM {kind} {name} {lots}' for (kind, name), lots in rooms.items())
    yield from (f'TAKE {number} {lots}' for number, lots in taken.items())
    yield from (f'CUT {kind} {name}' for kind, name in keys)
    yield from (f'CUT OFFER {number}' for number in numbers)
    yield 'END'


if __name__ == '__main__':
    print(*sheet(int(sys.argv[1]), int(sys.argv[2])), sep='\n')
