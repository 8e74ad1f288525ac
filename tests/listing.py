#!/usr/bin/env python3
"""Whole and damaged inputs through the printing program, compared line for line with tests/rules.py, which lists every order of
a run.

    tests/listing.py COUNT SEED [COMMAND..]     exits 1 at a difference; without COMMAND the one that tools/listing names"""
import random
import subprocess
import sys

sys.dont_write_bytecode = True
import logs  # noqa: E402
import rules  # noqa: E402


def main():
    count, seed, command = int(sys.argv[1]), int(sys.argv[2]), sys.argv[3:] or logs.listing_command()
    rng = random.Random(seed)
    ends, listed = {}, 0
    for i in range(count):
        data = logs.crowded() if i == 0 else logs.whole(rng)
        if i % 3:
            data = logs.damaged(rng, data)
        want, both = rules.listing(data)
        listed += both
        got = subprocess.run(command, input=data, stdout=subprocess.PIPE, check=True).stdout.decode().split('\n')
        if got != want + ['']:
            sys.exit(f'listing: {data.hex()}\nexpected {want}\ngot      {got}')
        end = logs.end_of(want)
        ends[end] = ends.get(end, 0) + 1
    told = ', '.join(f'{k} {v}' for k, v in sorted(ends.items()))
    print(f'listing: seed {seed}, {count} inputs: {told}; {listed} verdicts by listing all orders; 0 differences')


main()
