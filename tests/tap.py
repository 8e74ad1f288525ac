#!/usr/bin/env python3
"""Logs of the tap card, whole and damaged, through the program that lists them, compared line for line with tests/rules.py, and
how far it has read its input: the fixed cases below, whose last lines are written down here, at the edges all lines or their
stamps, and random ones. What the card can say is listed as the ordinary log of it is.

    tests/tap.py COUNT SEED [COMMAND..]     exits 1 at a difference; without COMMAND the one that tools/listing --tap runs"""
import os
import random
import sys

sys.dont_write_bytecode = True
import logs  # noqa: E402
import rules  # noqa: E402
from rules import END, GAP, INPUT, OUTPUT, TAP_END, TURN, pack_tap  # noqa: E402

BEHIND = b'not to be read'
LAST = 4_294_967_295  # of the counter
SAMPLES = os.path.join(logs.TOP, 'samples')


# ---- the program, run and compared

def size_read(data, want):
    return logs.size_read(data, want, 5)


def same(what, got, want):
    if got != want:
        sys.exit(f'tap: {what}: {got}, expected {want}')


class Runs(logs.Runs):
    returns = 0

    def compare(self, what, data, last=None):
        want = super().compare(what, data, last)
        if len(want) > 2:
            self.returns += int(want[-2].split()[3]) // TURN
        return want

    def check(self, what, data, last):
        return self.compare(what, data + BEHIND, last)

    def as_ordinary(self, what, log, behind):
        """An ordinary log, as the card sends it; its gaps' numbers are unknown."""
        same(what, self.compare(what, logs.as_card(log) + behind), rules.listing(logs.unknown(log))[0])


# ---- fixed cases

B = rules.Property([(False, 0)], 2, 10, 30)
FORM = rules.pack_property(B)


def sent(*records):
    """Each an action or 'gap', and the counter."""
    data = b''
    for act, counter in records:
        kind = {'?': INPUT, '!': OUTPUT, 'g': GAP}[act[0]]
        data += pack_tap(kind, 0 if kind == GAP else int(act[1:]), counter)
    return data


# counters from the first record on, and the stamps that they stand for
EDGES = [
    ([0], [0]),
    ([1], [1]),
    ([2_147_483_648], [2_147_483_648]),
    ([4_294_967_295], [4_294_967_295]),
    ([0, 0, 0], [0, 0, 0]),
    ([1, 1], [1, 1]),
    ([4_294_967_295, 4_294_967_295], [4_294_967_295, 4_294_967_295]),
    ([0, 1, 2], [0, 1, 2]),
    ([0, 4_294_967_295], [0, 4_294_967_295]),
    ([4_294_967_294, 4_294_967_295, 0, 1], [4_294_967_294, 4_294_967_295, 4_294_967_296, 4_294_967_297]),
    ([4_294_967_295, 0], [4_294_967_295, 4_294_967_296]),
    ([4_294_967_295, 4_294_967_294], [4_294_967_295, 8_589_934_590]),
    ([1, 0], [1, 4_294_967_296]),
    ([0, 4_294_967_295, 0, 4_294_967_295, 0], [0, 4_294_967_295, 4_294_967_296, 8_589_934_591, 8_589_934_592]),
    ([100, 99, 98], [100, 4_294_967_395, 8_589_934_690]),
    ([100, 101, 100, 99], [100, 101, 4_294_967_396, 8_589_934_691]),
    ([4_294_967_295, 0, 0, 4_294_967_295, 0], [4_294_967_295, 4_294_967_296, 4_294_967_296, 8_589_934_591, 8_589_934_592]),
    ([2_147_483_648, 0, 2_147_483_648], [2_147_483_648, 4_294_967_296, 6_442_450_944]),
    ([2_147_483_648, 2_147_483_647], [2_147_483_648, 6_442_450_943]),
    ([2_147_483_647, 2_147_483_648, 2_147_483_646], [2_147_483_647, 2_147_483_648, 6_442_450_942]),
    ([255, 256, 65_535, 65_536, 16_777_215, 16_777_216], [255, 256, 65_535, 65_536, 16_777_215, 16_777_216]),
    ([19_088_743, 16_909_060], [19_088_743, 4_311_876_356]),
]

# document 01's cases 1 to 12, of which document 02 makes 8 and 9 certain, and some more of gaps: property B, and of each line
# the action, the stamp, the verdict after it and the number open
CASES = [
    [('?0', 100, 'clear', 1), ('!2', 119, 'clear', 1)],
    [('?0', 100, 'clear', 1), ('!2', 120, 'suspect', 1)],
    [('?0', 100, 'clear', 1), ('!2', 160, 'suspect', 1)],
    [('?0', 100, 'clear', 1), ('!2', 161, 'certain', 0)],
    [('?0', 100, 'clear', 1), ('!2', 100, 'clear', 1)],
    [('!2', 100, 'clear', 0), ('?0', 100, 'clear', 1)],
    [('?0', 100, 'clear', 1), ('!1', 161, 'clear', 0)],
    [('?0', 100, 'clear', 1), ('?1', 101, 'clear', 2), ('!2', 161, 'certain', 1)],
    [('?0', 100, 'clear', 1), ('?1', 100, 'clear', 2), ('!2', 161, 'certain', 0)],
    [('?0', 100, 'clear', 1), ('!1', 130, 'clear', 1), ('!2', 161, 'suspect', 0)],
    [('?0', 100, 'clear', 1), ('!2', 120, 'suspect', 1), ('!2', 161, 'certain', 0)],
    [('?0', 100, 'clear', 1), ('gap', 200, 'blind', 0), ('!2', 260, 'blind', 0), ('!2', 320, 'blind', 0), ('?0', 381, 'clear', 1),
     ('!2', 442, 'certain', 0)],
    [('?0', 100, 'clear', 1), ('gap', 100, 'blind', 0), ('!2', 160, 'blind', 0), ('?0', 221, 'clear', 1),
     ('!2', 241, 'suspect', 1)],
    [('?0', 100, 'clear', 1), ('!2', 120, 'suspect', 1), ('gap', 121, 'blind', 0), ('!2', 182, 'clear', 0)],
    [('gap', 100, 'blind', 0), ('?0', 161, 'clear', 1), ('!2', 222, 'certain', 0)],
    [('gap', 100, 'blind', 0), ('gap', 130, 'blind', 0), ('?0', 190, 'blind', 0), ('gap', 191, 'blind', 0),
     ('?0', 252, 'clear', 1)],
]


def fixed(runs):
    # what each counter stands for, whatever the kind
    for counters, stamps in EDGES:
        for act in ('?5', '!5', 'gap'):
            what = f'{act} at counters {counters}'
            got = runs.check(what, FORM + sent(*[(act, counter) for counter in counters]) + TAP_END, f'end {len(counters)}')
            same(what, [int(line.split()[3]) for line in got[1:-1]], stamps)

    # each case with each of its lines at the counter's last number and at 0, at its first return and at its second
    for case in CASES:
        for lead in ([], [('!1', LAST), ('!1', 2_147_483_648)]):
            for _, stamp, _, _ in case:
                for at in (LAST, 0):
                    # the stamp of this line is to be at that counter
                    more = (2 * TURN if lead else TURN) - (1 if at else 0) - stamp
                    if not lead and case[0][1] + more > LAST:
                        continue
                    what = f'{case}, stamp {stamp} at counter {at}'
                    records = lead + [(act, (own + more) % TURN) for act, own, _, _ in case]
                    got = runs.check(what, FORM + sent(*records) + TAP_END, f'end {len(records)}')
                    same(what, got[1 + len(lead):-1], [
                        f'{number} {"IOG"["?!g".index(act[0])]} {act[1:] if act != "gap" else 63} {own + more} {verdict} {opened}'
                        for number, (act, own, verdict, opened) in enumerate(case, 1 + len(lead))])

    # 64 inputs at the counter's last number, and one more
    crowd = FORM + sent(*[('?0', LAST)] * 64)
    runs.check('a crowd', crowd + TAP_END, 'end 64')
    runs.check('a crowd at one stamp', crowd + sent(('?0', LAST)), 'stop 64 6')
    runs.check('a crowd behind the return', crowd + sent(('?0', 0)), 'stop 64 6')
    runs.check('a crowd at 2 UB', crowd + sent(('?0', 59)), 'stop 64 6')
    got = runs.check('a crowd that has closed', crowd + sent(('?0', 60)) + TAP_END, 'end 65')
    same('a crowd that has closed', got[-2], '65 I 0 4294967356 clear 1')
    runs.check('a crowd and a gap mark', crowd + sent(('gap', 59), ('?0', 119), ('?0', 180)) + TAP_END, 'end 67')

    # no records, and properties that are refused
    got = runs.check('no record', FORM + TAP_END, 'end 0')
    same('no record', got, ['line kind action stamp verdict open', 'end 0'])
    for p, n, last in ((B, 0, 'stop 0 1'), (B, 33, 'stop 0 1'), (B, 63, 'stop 0 1'), (B._replace(lb=0), 1, 'stop 0 2'),
                       (B._replace(lb=31), 1, 'stop 0 2'), (B._replace(ub=60_000_001), 1, 'stop 0 2')):
        got = runs.check(last, rules.pack_property(p, n), last)
        same('a refused property', got, ['line kind action stamp verdict open', last])
    runs.check('a pad bit', FORM[:-1] + b'\1', 'stop 0 8')
    for size in range(len(FORM)):
        runs.compare(f'{size} bytes of a property', FORM[:size], 'stop 0 7')

    damage(runs)
    limit(runs)
    for name in sorted(os.listdir(SAMPLES)):
        if name.endswith('.bin'):
            with open(os.path.join(SAMPLES, name), 'rb') as file:
                runs.as_ordinary(name, file.read(), BEHIND)
    return sum(runs.ends.values())


def damage(runs):
    """At the front, and behind two records between which the counter returns."""
    broken = {'an end with an action': pack_tap(END, 1, 0), 'an end with a counter': pack_tap(END, 0, 1),
              'an end with all bits': pack_tap(END, 63, LAST), 'a gap with an action': pack_tap(GAP, 1, 4)}
    sound = {'an input': pack_tap(INPUT, 63, LAST), 'an output': pack_tap(OUTPUT, 63, 4), 'a gap': pack_tap(GAP, 0, 0),
             'an end': TAP_END}
    for front, taken in ((FORM, 0), (FORM + sent(('?0', 4_294_967_290), ('!1', 4)), 2)):
        for what, record in {**sound, **broken}.items():
            for size in range(5):
                runs.compare(f'{what} cut after {size} bytes', front + record[:size], f'stop {taken} 7')
        for what, record in broken.items():
            runs.check(what, front + record, f'stop {taken} 8')
    for bit in range(38):
        runs.check(f'an end with bit {bit}', front + (END << 38 | 1 << bit).to_bytes(5, 'big'), 'stop 2 8')
    for bit in range(6):
        for counter in (0, 4, LAST):
            runs.check(f'a gap with action bit {bit}', front + pack_tap(GAP, 1 << bit, counter) + TAP_END, 'stop 2 8')


def limit(runs):
    """To the limit by 256 steps of 2^32 - 1, which is the most that the card can say, and one of 255."""
    steps = [('gap', TURN - number) for number in range(1, 257)]
    below = FORM + sent(*steps)
    there = below + sent(('gap', LAST))
    got = runs.check('the limit', there + TAP_END, 'end 257')
    same('the limit', [got[1], got[2], got[256], got[257]], [
        '1 G 63 4294967295 blind 0', '2 G 63 8589934590 blind 0', '256 G 63 1099511627520 blind 0', '257 G 63 1099511627775 blind 0'])
    for act in ('?0', '!1', 'gap'):
        runs.check(f'{act} at the limit again', there + sent((act, LAST)) + TAP_END, 'end 258')
        for counter in (0, 1, 2_147_483_648, LAST - 1):
            runs.check(f'{act} past the limit', there + sent((act, counter)) + TAP_END, 'stop 257 4')
        runs.check(f'{act} one below the limit, at it, past it', below + sent((act, LAST - 1), (act, LAST), (act, 0)), 'stop 258 4')
        # from 1099511627520, by 2^32 - 1 and by 256
        runs.check(f'{act} past the limit by the longest step', below + sent((act, TURN - 257)), 'stop 256 4')
        runs.check(f'{act} past the limit by one', below + sent((act, 0)), 'stop 256 4')
    runs.check('an action before the limit', there + pack_tap(GAP, 1, 0), 'stop 257 8')
    runs.check('an end with a counter, before the limit', there + pack_tap(END, 0, 1), 'stop 257 8')
    runs.check('an end with an action, before the limit', there + pack_tap(END, 1, 0), 'stop 257 8')
    runs.compare('a record cut short, before the limit', there + sent(('?0', 0))[:4], 'stop 257 7')
    # to the limit by the longest step, and one past it
    turned = FORM + sent(*steps[:255], ('gap', 0))
    got = runs.check('the longest step', turned + sent(('?0', LAST)) + TAP_END, 'end 257')
    same('the longest step', got[256:-1], ['256 G 63 1095216660480 blind 0', '257 I 0 1099511627775 clear 1'])
    runs.check('the longest step, past the limit', turned + sent(('!1', 1), ('?0', 0)), 'stop 257 4')


# ---- random cases

def step(rng, latest):
    """Small, or to shortly before the counter's return, or nearly round, or any."""
    how = rng.random()
    if how < (.6 if latest else .1):
        return logs.near(rng, latest)
    if how < .85:
        return (-rng.randint(0, 20) - latest) % TURN
    return TURN - rng.randint(1, 20) if how < .93 else rng.randrange(TURN)


def any_records(rng):
    """Mostly sound."""
    return b''.join(pack_tap(*rng.choice([(INPUT, rng.randrange(2)), (OUTPUT, rng.randrange(2)), (GAP, int(rng.random() < .1))]),
                             rng.choice([0, LAST, rng.randrange(TURN), rng.randrange(20), LAST - rng.randrange(20)]))
                    for _ in range(rng.randint(0, 20)))


def main():
    count, seed, command = int(sys.argv[1]), int(sys.argv[2]), sys.argv[3:] or logs.listing_command('--tap')
    rng = random.Random(seed)
    runs = Runs('tap', command, rules.tap_listing, size_read)
    cases = fixed(runs)
    for i in range(count):
        log, behind = logs.whole(rng, rng.choice([1, 1, 63]), step), rng.choice([b'', BEHIND])
        if i % 3 == 0:
            runs.as_ordinary(f'input {i}', log, behind)
        elif i % 3 == 1:
            runs.compare(f'input {i}', logs.damaged(rng, logs.as_card(log), 5) + behind)
        else:
            runs.compare(f'input {i}', FORM + any_records(rng) + TAP_END + behind)
    print(f'tap: seed {seed}, {cases} fixed cases and {count} inputs: {runs.told()}; the counter returned {runs.returns} times, '
          f'{runs.verdicts} verdicts by listing all orders; 0 differences')


main()
