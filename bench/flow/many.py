#!/usr/bin/env python3
"""Writes many seeded views in plain text, parted by empty lines: small ones by dice, and each shape of shapes.py: many.py [COUNT [SEED]] > views

Several greatest takes are common among them: rooms are narrow, and firms, accounts and carrying firms few.
"""
import random
import subprocess
import sys
from pathlib import Path

SHAPES = 'one distinct dense tight chains mixed back_chains combs any_combs spread stairs creep zigzag'.split()


def small(dice):
    """The lines of a view of up to 24 offers."""
    firms, accounts, carriers = dice.randrange(1, 5), dice.randrange(1, 7), dice.randrange(1, 4)
    carrier = [dice.randrange(carriers) for _ in range(accounts)]
    guarantor = [dice.choice(['', ' 0', ' 1']) for _ in range(carriers)]
    keys, lines = {}, []
    for number in range(1, 1 + dice.randrange(1, 25)):
        firm, account = dice.randrange(firms), dice.randrange(accounts)
        names = [firm, firm * accounts + account, account, carrier[account]]
        lines.append(f'offer {number} {dice.randrange(1, 10)} {" ".join(map(str, names))}{guarantor[carrier[account]]}')
        keys.update(dict.fromkeys(zip(['exec', 'agr', 'acct', 'carry', 'guar'], lines[-1].split()[3:])))
    return lines + [f'room {kind} {name} {dice.randrange(60 if kind in ("carry", "guar") else 30)}' for kind, name in keys]


def main():
    count, seed = [int(word) for word in sys.argv[1:] + ['2000', '1'][len(sys.argv) - 1:]]
    dice = random.Random(seed)
    for _ in range(count):
        print('\n'.join(small(dice)), end='\n\n')
    for offers in (40, 400):
        for shape in SHAPES:
            for words in ([], ['guarantors']):
                print(subprocess.run([sys.executable, Path(__file__).parent / 'shapes.py', shape, str(offers), str(seed), *words], capture_output=True, text=True).stdout)


main()
