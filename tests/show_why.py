#!/usr/bin/env python3
"""Logs through the program that shows why the run open at the end has its verdict, compared line for line with tests/rules.py, which
lists every order of a run, or where there are too many goes by what can still be reached; and how far it has read its input. The fixed
cases below, whose lines are written down here, and random logs: whole and damaged, with gaps and new runs, and long runs.

    tests/show_why.py [COUNT [SEED [COMMAND..]]]     exits 1 at a difference; without COMMAND the one that tools/listing --why runs"""
import functools
import os
import random
import sys

sys.dont_write_bytecode = True
import logs  # noqa: E402
import rules  # noqa: E402
from rules import END, END_RECORD, GAP, INPUT, LIMIT, OUTPUT, pack_record  # noqa: E402

BEHIND = b'not to be read'
SAMPLES = os.path.join(logs.TOP, 'samples')

shown_why = functools.lru_cache(4)(rules.shown_why)


class Runs(logs.Runs):
    orders = 0

    def __init__(self, command):
        super().__init__('show_why', command, lambda data: shown_why(data)[:2], lambda data, want: shown_why(data)[2])

    def compare(self, what, data, last=None):
        want = super().compare(what, data, last)
        self.orders += sum(line.startswith('1 ') for line in want)
        return want

    def check(self, what, data, want):
        """What is printed is written down in the test."""
        got = self.compare(what, data)
        if got != want:
            sys.exit(f'show_why: {what}: {data.hex()}\nexpected {want}\nrules.py {got}')

    def end_of(self, want):
        return want[0] if want[0].startswith('stop') else want[0].split()[0]


# ---- fixed cases

B = rules.Property([(False, 0)], 2, 10, 30)
FORM = rules.pack_property(B)


def records(*lines):
    """Each an action or 'gap', and the stamp. A gap's number of lost lines is some number, which nothing depends on."""
    data, latest = b'', 0
    for act, stamp in lines:
        kind = {'?': INPUT, '!': OUTPUT, 'g': GAP}[act[0]]
        data += pack_record(kind, stamp % 64 if kind == GAP else int(act[1:]), stamp - latest)
        latest = stamp
    return data


def log(*lines, form=FORM):
    return form + records(*lines) + END_RECORD + BEHIND


# of document 01's cases 1 to 12, of which document 02 makes 8 and 9 certain, the lines and what is printed: property B, by which ?k @t
# lies between t + 10 and t + 30, and !k @t between t - 30 and t - 10
CASES = [
    ([('?0', 100), ('!2', 119)], 'clear 0, 2 89, 1 110'),
    ([('?0', 100), ('!2', 120)], 'suspect 2, 1 110, 2 110, 2 90, 1 110'),
    ([('?0', 100), ('!2', 160)], 'suspect 2, 1 110, 2 130, 2 130, 1 130'),
    ([('?0', 100), ('!2', 161)], 'certain 2, 1 110, 2 131'),
    ([('?0', 100), ('!2', 100)], 'clear 0, 2 70, 1 110'),
    ([('!2', 100), ('?0', 100)], 'clear 0, 1 70, 2 110'),
    ([('?0', 100), ('!1', 161)], 'clear 0, 1 110, 2 131'),
    ([('?0', 100), ('?1', 101), ('!2', 161)], 'certain 3, 1 110, 3 131, 2 131'),
    ([('?0', 100), ('?1', 100), ('!2', 161)], 'certain 3, 1 110, 2 110, 3 131'),
    ([('?0', 100), ('!1', 130), ('!2', 161)], 'suspect 3, 2 100, 1 110, 3 131, 1 110, 2 110, 3 131'),
    ([('?0', 100), ('!2', 120), ('!2', 161)], 'certain 3, 2 90, 1 110, 3 131'),
    ([('?0', 100), ('gap', 200), ('!2', 260), ('!2', 320), ('?0', 381), ('!2', 442)], 'certain 2, 1 391, 2 412'),
    # what a gap mark, a skipped line and a line that begins a run do
    ([('?0', 100), ('!2', 161), ('gap', 161)], 'blind'),
    ([('?0', 100), ('!2', 161), ('gap', 161), ('?0', 221)], 'blind'),
    ([('?0', 100), ('!2', 161), ('gap', 161), ('?0', 222)], 'clear 0, 1 232'),
    ([('?0', 100), ('!2', 161), ('gap', 161), ('?0', 221), ('!2', 281)], 'blind'),
    ([('?0', 100), ('!2', 161), ('gap', 161), ('?0', 221), ('!2', 282)], 'clear 0, 1 252'),
    ([('gap', 0)], 'blind'),
    ([('gap', 0), ('!2', 61)], 'clear 0, 1 31'),
    ([('gap', 0), ('gap', 30), ('!2', 90)], 'blind'),
    ([('?0', 100), ('gap', 200), ('!2', 300), ('!2', 301), ('gap', 301), ('gap', 302), ('?0', 363), ('!2', 424)], 'certain 2, 1 373, 2 394'),
    # no line, and moments before 0
    ([], 'clear 0'),
    ([('!1', 0)], 'clear 0, 1 -30'),
    ([('!1', 29), ('!1', 30), ('!1', 31)], 'clear 0, 1 -1, 2 0, 3 1'),
    ([('?0', 0), ('!2', 20)], 'suspect 2, 1 10, 2 10, 2 -10, 1 10'),
    # suspect from its second line on, and certain from its third or later, or never
    ([('?0', 0), ('!2', 20), ('!2', 20)], 'suspect 2, 2 -10, 1 10, 3 10, 2 -10, 3 -10, 1 10'),
    ([('?0', 0), ('!2', 20), ('?5', 60), ('?0', 60), ('!2', 121), ('?5', 500)], 'certain 5, 2 -10, 1 10, 3 70, 4 70, 5 91, 6 510'),
]


def fixed(runs):
    for lines, want in CASES:
        runs.check(str(lines), log(*lines), want.split(', '))
    for name, want in (('case11', 'certain 3, 2 90, 1 110, 3 131'), ('case12', 'certain 2, 1 391, 2 412'), ('case14', 'stop 6')):
        with open(os.path.join(SAMPLES, name + '.bin'), 'rb') as file:
            runs.check(name, file.read(), want.split(', '))
    for name in sorted(os.listdir(SAMPLES)):
        if name.endswith('.bin'):
            with open(os.path.join(SAMPLES, name), 'rb') as file:
                runs.compare(name, file.read() + BEHIND)

    # the widest bounds, at both ends of the stamps
    wide = rules.pack_property(rules.Property([(False, 0)], 0, 1, 60_000_000))
    runs.check('the lowest moment', log(('!1', 0), form=wide), ['clear 0', '1 -60000000'])
    narrow = rules.pack_property(rules.Property([(False, 0)], 0, 60_000_000, 60_000_000))
    runs.check('the highest moment', log(('?0', LIMIT), form=narrow), ['clear 0', f'1 {LIMIT + 60_000_000}'])
    runs.check('a breach at the last stamp', log(('?0', 0), ('!0', LIMIT), form=wide), ['certain 2', '1 1', f'2 {LIMIT - 60_000_000}'])

    lengths(runs)
    refusals(runs)
    return sum(runs.ends.values())


def lengths(runs):
    """256 lines and 257, what is behind them, and a log that is longer by far."""
    for act in ('!1', '?3'):
        # an input is closed 61 later
        lines = [(act, 61 * number) for number in range(1, 257)]
        moments = [f'{number} {61 * number + (10 if act == "?3" else -30)}' for number in range(1, 257)]
        runs.check(f'256 of {act}', log(*lines), ['clear 0'] + moments)
        more = lines + [(act, 61 * 257)]
        runs.check(f'257 of {act}', log(*more), ['stop 13'])
        runs.check('512', log(*lines, *[(act, 61 * number) for number in range(257, 513)]), ['stop 13'])
        runs.check('a gap mark behind 257', log(*more, ('gap', 61 * 257)), ['blind'])
        runs.check('a skipped line behind it', log(*more, ('gap', 61 * 257), (act, 61 * 257 + 60)), ['blind'])
        runs.check('another run', log(*more, ('gap', 61 * 257), ('!1', 61 * 258)), ['clear 0', f'1 {61 * 258 - 30}'])
        runs.check('257, behind another run', log(('?0', 1), ('gap', 2), *[(act, 61 * number) for number in range(2, 259)]), ['stop 13'])
        # another refusal comes first
        runs.compare('257 and no end', FORM + records(*more), 'stop 7')
        runs.compare('257 and a part of an end', FORM + records(*more) + END_RECORD[:5], 'stop 7')
        runs.check('257 and a broken end', FORM + records(*more) + pack_record(END, 1, 0) + BEHIND, ['stop 8'])
        runs.check('257 and a stamp too late', FORM + records(*more) + pack_record(OUTPUT, 1, LIMIT) + BEHIND, ['stop 4'])
    # suspect over all 256 lines: two orders, which differ at the first two
    lines = [('?0', 61), ('!2', 81)] + [('!1', 200 + number) for number in range(254)]
    rest = [f'{number} {200 + number - 3 - 30}' for number in range(3, 257)]
    runs.check('suspect, of 256', log(*lines), ['suspect 2', '1 71', '2 71'] + rest + ['2 51', '1 71'] + rest)
    runs.check('suspect, of 257', log(*lines, ('!1', 454)), ['stop 13'])
    # thousands of lines and no gap, and a run at the end
    lines = [('!1' if number % 3 else '?0', 70 * number) for number in range(1, 5001)]
    runs.check('5,000 lines', log(*lines), ['stop 13'])
    runs.check('5,000 lines, a gap mark and a run', log(*lines, ('gap', 350_000), ('?0', 350_061), ('!2', 350_081)),
               ['suspect 2', '1 350071', '2 350071', '2 350051', '1 350071'])


def refusals(runs):
    for p, n, want in ((B, 0, 'stop 1'), (B, 33, 'stop 1'), (B, 63, 'stop 1'), (B._replace(lb=0), 1, 'stop 2'),
                       (B._replace(lb=31), 1, 'stop 2'), (B._replace(ub=60_000_001), 1, 'stop 2')):
        runs.check(want, rules.pack_property(p, n) + BEHIND, [want])
    runs.check('a pad bit', FORM[:-1] + b'\1' + BEHIND, ['stop 8'])
    for size in range(len(FORM)):
        runs.check(f'{size} bytes of a property', FORM[:size], ['stop 7'])
    longest = rules.pack_property(rules.Property([(True, 63)] * 32, 0, 1, 1))
    runs.check('the longest property', longest + END_RECORD + BEHIND, ['clear 0'])
    broken = {'an end with an action': pack_record(END, 1, 0), 'an end with a stamp': pack_record(END, 0, 1)}
    # a run that is open, none, one that is certain
    for front in ([], [('?0', 100)], [('?0', 100), ('gap', 150)], [('?0', 100), ('!2', 161)]):
        data = FORM + records(*front)
        for what, record in broken.items():
            runs.check(what, data + record + BEHIND, ['stop 8'])
        for record in (END_RECORD, pack_record(INPUT, 63, 7), *broken.values()):
            for size in range(6):
                runs.check(f'{size} bytes of a record', data + record[:size], ['stop 7'])
        for kind in (INPUT, OUTPUT, GAP):
            runs.check('a stamp past the limit', data + pack_record(kind, 0, 2 ** 40 - 1) + pack_record(kind, 0, 1) + BEHIND, ['stop 4'])
    runs.check('a crowd', FORM + records(*[('?0', 7)] * 64, ('!1', 7)) + pack_record(INPUT, 0, 60) + BEHIND, ['stop 6'])
    runs.check('a crowd that has closed', log(*[('?9', 7)] * 64, ('?9', 68)), ['clear 0'] + [f'{n} 17' for n in range(1, 65)] + ['65 78'])
    runs.check('a crowd and a gap mark', log(*[('?0', 7)] * 64, ('gap', 7), ('?0', 68)), ['clear 0', '1 78'])


# ---- random cases

def middling(rng):
    """More lines than can be listed in every order, near enough that many orders fit, and now and then a gap."""
    lower = rng.randint(1, 12)
    p = rules.Property([(rng.random() < .5, rng.randrange(2)) for _ in range(rng.choice([1, 1, 2, 2, 3, 5]))],
                       rng.choice([0, 1, 2]), lower, lower + rng.randint(0, 25))
    data, size = rules.pack_property(p), rng.choice([12, 20, 40, 80, 256, 257])
    for _ in range(size):
        kind = GAP if rng.random() < .5 / size else rng.choice([INPUT, OUTPUT])
        less = 2 * p.ub + 1 if rng.random() < .02 else rng.choice([0, 1, 2, 3, 5, 8, 13])
        data += pack_record(kind, logs.some_lost(rng) if kind == GAP else rng.randrange(2), less)
    return data + END_RECORD


def main():
    given = sys.argv[1:]
    count, seed = map(int, given[:2] + ['600', '20260104'][len(given[:2]):])
    rng = random.Random(seed)
    runs = Runs(given[2:] or logs.listing_command('--why'))
    cases = fixed(runs)
    for i in range(count):
        behind = rng.choice([b'', BEHIND])
        if i % 4 == 0:
            data = logs.whole(rng)
        elif i % 4 == 1:
            data = logs.damaged(rng, logs.whole(rng))
        elif i % 4 == 2:
            data = logs.whole(rng, rng.choice([1, 63]), lambda rng, latest: rng.choice([0, 1, 4, 9, 17, 18, 30]))
        else:
            data = middling(rng)
        runs.compare(f'input {i}', data + behind)
    print(f'show_why: seed {seed}, {cases} fixed cases and {count} inputs: {runs.told()}; {runs.orders} orders, of {runs.verdicts} runs '
          'by listing all orders; 0 differences')


main()
