"""Writes a reference file of N instruments, accounts and agreements, on at most 1,000 firms and 100 groups."""
import sys

count = int(sys.argv[1])
firms = min(1_000, count // 2)
groups = min(100, count)

for number in range(firms):
    print(f"FIRM,F{number}")
for number in range(groups):
    print(f"GROUP,G{number}")
for number in range(count):
    print(f"INSTRUMENT,I{number},G{number % groups}")
for number in range(count):
    print(f"ACCOUNT,A{number},F{number % firms}")
for number in range(count):
    # The executing firm is another than the one that carries the account.
    print(f"AGREEMENT,P{number},F{(number + 1) % firms},A{number}")
