#!/usr/bin/env python3
"""Runs the program over several books, and prints the least, the middle and the most that each call took, in microseconds of the processor,
and the bytes that a published view takes.

    table.py PROGRAM FOLDER
"""
import collections
import os
import statistics
import subprocess
import sys

HERE = os.path.dirname(os.path.abspath(__file__))
PROGRAM, FOLDER = sys.argv[1:]
SHAPES = [(entries, offers) for entries in (100_000, 998_000) for offers in (64, 4_096)]
ROOM = 1_000_000_000
TURNS, RUNS = 201, 5


def day(words, name):
    with open(f'{FOLDER}/{name}', 'w') as out:
        subprocess.run([f'{HERE}/day.py', *map(str, words)], stdout=out, check=True)


def make_script(*numbers):
    day(['script', *numbers], 'script')
    day(['commands', f'{FOLDER}/script'], 'commands')


def run(kind, turns):
    """What a run printed: the times of calls by their names, and the memory before and after them."""
    files = [f'{FOLDER}/{name}' for name in ('rows', 'script', 'commands')]
    told = subprocess.run([PROGRAM, kind, str(turns), *files], stdout=subprocess.PIPE, text=True, check=True).stdout
    times, memory = collections.defaultdict(list), collections.defaultdict(list)
    for line in told.splitlines():
        name, _, number = line.partition('\t')
        if name.startswith('Vm'):
            memory[name].append(int(number.split()[0]) * 1024)
        elif number:
            times[name].append(int(number))
        elif not name.endswith('entries'):
            sys.exit(line)
    return times, memory


def times_of(runs):
    """The times of several runs together."""
    times = collections.defaultdict(list)
    for kind, turns in runs:
        for name, nanos in run(kind, turns)[0].items():
            times[name] += nanos
    return times


def shape(entries, offers):
    """The times of a shape, first where the limits leave no room, and then where all is taken."""
    make_script(entries, offers, 4_096, 0)
    times = times_of([(kind, TURNS) for kind in ('calls', 'looks', 'holds', 'sweeps')])
    make_script(entries, offers, 4_096, ROOM)
    taken = times_of([(kind, 1) for kind in ('holds', 'sweeps') for _ in range(RUNS)])
    return times | {f'{name}, all taken': nanos for name, nanos in taken.items()}


def micros(nanos):
    return ' '.join(f'{part / 1000:,.1f}' for part in (min(nanos), statistics.median(nanos), max(nanos)))


def print_times():
    columns = [shape(*at) for at in SHAPES]
    print('| ', *(f'| {entries:,} entries, {offers:,} offers ' for entries, offers in SHAPES), '|', sep='')
    print('|---' * (len(SHAPES) + 1), '|', sep='')
    for name in columns[0]:
        print(f'| {name} |', ' | '.join(micros(times[name]) for times in columns), '|')


def bytes_of(offers, agreements, looks):
    """The bytes of a view, by how much more a process grows in twice as many looks."""
    make_script(100_000, offers, agreements, 0)
    less, more = (run('looks', turns)[1] for turns in (looks, 2 * looks))
    return {name: ((more[name][1] - more[name][0]) - (less[name][1] - less[name][0])) / looks for name in less}


def print_bytes():
    for offers, looks in ((64, 4_096), (4_096, 256)):
        for agreements in (offers, 1):
            told = ', '.join(f'{name} {number:,.0f}' for name, number in bytes_of(offers, agreements, looks).items())
            print(f'a view of {offers:,} offers of {agreements:,} agreements, by {looks:,} looks: {told} bytes')


if __name__ == '__main__':
    day(['rows'], 'rows')
    print_bytes()
    print(f'load {os.getloadavg()[0]:.1f}')
    print_times()
    print(f'load {os.getloadavg()[0]:.1f}')
