#!/usr/bin/env python3
"""The orders of document 02, CR 6: drawn calls of `why::explain` through the console (letter Y of docs/CALLS.md), every printed byte
compared with a reading of the rules that shares nothing with the crates.

    tests/why.py [RUNS [SEED [COMMAND..]]]      exits 1 at a difference; without COMMAND it is target/bin/calls, built and run
                                                as tools/listing builds and runs its own

RUNS runs have up to 8 lines. All interleavings of their inputs and outputs are listed, by kind the first one first; those stay to
which moments can be given; of those that break and of those that do not the first is taken, with its earliest moments. The
line is the first after which the lines so far, judged in the same way, have the verdict of all.

For every 100 of them there is one of 250 to 257 lines, which has too many orders. There the orders are followed line by line,
those together that have the same lines behind them and the same end. What is printed is also looked at by itself: that it is an order
of all lines with the earliest moments, that it breaks or does not, and that verdict and line are those of one step over cuts after the
other (tests/rules.py)."""
import functools
import itertools
import random
import subprocess
import sys

sys.dont_write_bytecode = True
import logs  # noqa: E402
import rules  # noqa: E402
from rules import CERTAIN, CLEAR, HIGHEST_BOUND, LIMIT, MOST_ACTIONS, MOST_OPEN, SUSPECT  # noqa: E402

MOST_LINES = 256
MOST_HELD = 512  # lines and places, by the console
MOST_BYTES = 400_000  # of one script
HUGE = 2 ** 64 - 1
LISTS = 'numbers', 'moments', 'numbers2', 'moments2'


# ---- calls


class Call:
    """A property, whose length may be said to be another; a run of lines, as in tests/rules.py; the sizes of the lists."""

    def __init__(self, p, run, sizes, n=None, count=None):
        self.p, self.run, self.sizes = p, run, sizes
        self.n = len(p.sequence) if n is None else n
        self.count = len(run) if count is None else count

    def packed(self):
        places = (self.p.sequence + [(False, 0)] * MOST_ACTIONS)[:MOST_ACTIONS]
        data = b'Y' + word(self.n) + bytes(out for out, _ in places) + bytes(act for _, act in places)
        data += word(self.p.allowed) + word(self.p.lb) + word(self.p.ub) + word(self.count)
        data += b''.join(bytes([out, act]) + word(stamp) for out, act, stamp in self.run)
        return data + b''.join(map(word, self.sizes))

    def __str__(self):
        run = ' '.join(f'{"?!"[out]}{act}@{stamp}' for out, act, stamp in self.run)
        return f'{self.p}, length {self.n}, {self.count} lines: {run}; lists of {self.sizes}'


def word(v):
    return v.to_bytes(8, 'big')


def text(refusal, verdict, line, orders, sizes):
    """What is printed; orders have a number and a moment for each line."""
    lists = [[place[part] for place in order] for order in orders for part in (0, 1)]
    printed = f'Y {refusal} {verdict} {line}\n'
    for name, size, places in zip(LISTS, sizes, lists):
        printed += ' '.join(map(str, [name, *places, *[0] * (min(size, MOST_HELD) - len(places))])) + '\n'
    return printed


# ---- refusals


def property_refused(call):
    p = call.p
    if not 1 <= call.n <= MOST_ACTIONS:
        return 1
    if not 1 <= p.lb <= p.ub <= HIGHEST_BOUND:
        return 2
    return 3 if any(act > 63 for _, act in p.sequence[:call.n]) else 0


def line_refused(p, before, line):
    """Of a line behind these."""
    out, act, stamp = line
    if act > 63:
        return 3
    if stamp > LIMIT:
        return 4
    if before and stamp < before[-1][2]:
        return 5
    held = sum(not earlier and at + 2 * p.ub >= stamp for earlier, _, at in before)
    return 6 if not out and held + 1 > MOST_OPEN else 0


def refused(call):
    number = property_refused(call)
    if number:
        return number
    for k, line in enumerate(call.run):
        number = line_refused(call.p, call.run[:k], line)
        if number:
            return number
    if len(call.run) > MOST_LINES:
        return 13
    return 9 if any(size < len(call.run) for size in call.sizes) else 0


# ---- orders


def window(p, line):
    out, _, stamp = line
    return (stamp - p.ub, stamp - p.lb) if out else (stamp + p.lb, stamp + p.ub)


def earliest(p, order):
    """The earliest moments of these lines in this order, None where they have none."""
    moments = []
    for line in order:
        low, high = window(p, line)
        moment = max([low] + moments[-1:])
        if moment > high:
            return None
        moments.append(moment)
    return moments


def breaks(p, order):
    """The sequence as neighbours, then any number of inputs, then an output outside the set."""
    acts = [(out, act) for out, act, _ in order]
    n = len(p.sequence)
    for at in range(len(acts) - n + 1):
        if acts[at:at + n] == p.sequence:
            answer = next((act for out, act in acts[at + n:] if out), None)
            if answer is not None and not p.allowed >> answer & 1:
                return True
    return False


def kinds(run):
    """The places of the inputs, and of the outputs."""
    return [k for k, line in enumerate(run) if not line[0]], [k for k, line in enumerate(run) if line[0]]


def in_order(p, run, places):
    """Line numbers with moments."""
    return [(k + 1, moment) for k, moment in zip(places, earliest(p, [run[k] for k in places]))]


def listed(p, run):
    """The first explanation that breaks, under True, and the first that does not, under False, as far as there are."""
    ins, outs = kinds(run)
    found = {}
    # the places at which outputs stand: of two such sets the first by its numbers has an output at the first difference
    for chosen in itertools.combinations(range(len(run)), len(outs)):
        of_kind = [iter(ins), iter(outs)]
        places = [next(of_kind[at in chosen]) for at in range(len(run))]
        order = [run[k] for k in places]
        if earliest(p, order) is not None:
            found.setdefault(breaks(p, order), places)
    return found


def verdict_of(found):
    return SUSPECT if len(found) == 2 else CERTAIN if True in found else CLEAR


def followed(p, run):
    """The same for a run of any length. What decides how an order can go on is how many inputs and outputs stand in it, its last actions,
    whether the sequence has occurred with only inputs behind it, and whether it has broken."""
    ins, outs = kinds(run)
    n = len(p.sequence)
    windows = [window(p, line) for line in run]

    def fits(i, q, k):
        """Behind so many inputs and outputs the line at place k has a moment: no earlier than the last of each kind, since windows never
        go back."""
        high = windows[k][1]
        return (not i or windows[ins[i - 1]][0] <= high) and (not q or windows[outs[q - 1]][0] <= high)

    def behind(past, k):
        """What is left of the past with the line at place k behind it."""
        last, waiting, broken = past
        out, act, _ = run[k]
        if broken or waiting and out and not p.allowed >> act & 1:
            return (), False, True
        last = (last + ((out, act),))[-n:]
        return last, list(last) == p.sequence or waiting and not out, False

    def choices(i, q, past):
        """The lines that can come next, the output first, and what stands behind each."""
        if q < len(outs) and fits(i, q, outs[q]):
            yield outs[q], (i, q + 1, behind(past, outs[q]))
        if i < len(ins) and fits(i, q, ins[i]):
            yield ins[i], (i + 1, q, behind(past, ins[i]))

    @functools.lru_cache(None)
    def ends(i, q, past):
        """Whether orders that go on from here break in the end."""
        if i + q == len(run):
            return frozenset([past[2]])
        return frozenset().union(*(ends(*then) for _, then in choices(i, q, past)))

    found = {}
    start = 0, 0, ((), False, False)
    for end in ends(*start):
        here, places = start, []
        while len(places) < len(run):
            k, here = next(choice for choice in choices(*here) if end in ends(*choice[1]))
            places.append(k)
        found[end] = places
    return found


def stepped(p, run):
    """Verdict and line by one step over cuts after the other."""
    watch, verdicts = rules.FRESH, [CLEAR]
    for line in run:
        watch = rules.after_line(p, watch, *line)
        verdicts.append(rules.standing(watch))
    return verdicts[-1], verdicts.index(verdicts[-1])


class Wrong(Exception):
    pass


def same(what, got, want):
    if got != want:
        raise Wrong(f'{what}: {got}, expected {want}')


# ---- expectations


def orders_of(p, run, found):
    """The two orders that are written: for clear an explanation, for suspect one of each, for certain one that breaks."""
    verdict = verdict_of(found)
    first = in_order(p, run, found[verdict != CLEAR])
    return first, in_order(p, run, found[False]) if verdict == SUSPECT else []


def short_text(call):
    p, run = call.p, call.run
    found = [listed(p, run[:k]) for k in range(len(run) + 1)]
    verdicts = list(map(verdict_of, found))
    return text(0, verdicts[-1], verdicts.index(verdicts[-1]), orders_of(p, run, found[-1]), call.sizes)


def long_text(call):
    p, run = call.p, call.run
    found = followed(p, run)
    verdict, line = stepped(p, run)
    same('the verdict, by following and by steps', verdict_of(found), verdict)
    return text(0, verdict, line, orders_of(p, run, found), call.sizes)


def look_at(call, printed):
    """At what is printed for a run that is taken, by itself."""
    p, run = call.p, call.run
    words = [line.split(' ') for line in printed.split('\n')]
    refusal, verdict, line = map(int, words[0][1:])
    same('the refusal', refusal, 0)
    same('verdict and line', (verdict, line), stepped(p, run))
    lists = [[int(v) for v in row[1:]] for row in words[1:5]]
    same('the sizes of the lists', [len(places) for places in lists], [min(size, MOST_HELD) for size in call.sizes])
    for numbers, moments, breaking, filled in ((*lists[:2], verdict != CLEAR, True), (*lists[2:], False, verdict == SUSPECT)):
        size = len(run) if filled else 0
        same('places behind the run', [v for v in numbers[size:] + moments[size:] if v], [])
        if not filled:
            continue
        order = [run[number - 1] for number in numbers[:size]]
        same('the lines', sorted(numbers[:size]), list(range(1, size + 1)))
        for out in (False, True):
            of_kind = [number for number, of in zip(numbers, order) if of[0] == out]
            same('the lines of a kind', of_kind, sorted(of_kind))
        same('the moments', moments[:size], earliest(p, order))
        same('whether it breaks', breaks(p, order), breaking)


# ---- what is drawn


def some_property(rng):
    lb = rng.randint(1, 3)
    sequence = [(rng.random() < .35, rng.randrange(2)) for _ in range(rng.choice([1, 1, 1, 2, 2, 3]))]
    return rules.Property(sequence, rng.choice([0, 1, 2, 3, 5, 6]), lb, lb + rng.choice([0, 1, 3, 6, 12]))


def some_sizes(rng, n):
    sizes = [n + rng.choice([0, 0, 1, 2, 5]) for _ in LISTS]
    if n and rng.random() < .06:
        sizes[rng.randrange(4)] = rng.randrange(n)
    if rng.random() < .01:
        sizes[rng.randrange(4)] = rng.choice([511, 512, 513, HUGE])
    return sizes


def some_actions(rng, p, n, carry_on):
    """So many, and so many of them carry the sequence on."""
    return [p.sequence[at % len(p.sequence)] if rng.random() < carry_on else (rng.random() < .6, rng.randrange(3)) for at in range(n)]


def at_the_node(rng, p, acts, steps):
    """Lines that follow each other in such steps at the node, stamped by delays within the bounds: many other orders fit."""
    moment, stamps = rng.randrange(p.ub + 1), ([], [])
    for out, _ in acts:
        moment += rng.choice(steps)
        delay = rng.randint(p.lb, p.ub)
        stamps[out].append(moment + delay if out else max(0, moment - delay))
    of_kind = [iter(sorted(stamps[out])) for out in (False, True)]
    return sorted(((out, act, next(of_kind[out])) for out, act in acts), key=lambda line: line[2])


def at_the_edges(rng, p, acts):
    """Many pairs of lines on either side of 2 LB and 2 UB."""
    stamp, run = 0, []
    for out, act in acts:
        run.append((out, act, stamp))
        stamp += rng.choice([0, 0, 1, 1, 2, 2 * p.lb - 1, 2 * p.lb, 2 * p.lb, rng.randrange(2 * p.ub), 2 * p.ub + rng.randrange(2)])
    return run


def moved(rng, run):
    """To other stamps, the highest among them, or left near 0, where moments are negative."""
    later = rng.choice([0, 0, 0, 0, rng.randrange(40), 1_000_000, LIMIT - run[-1][2]]) if run else 0
    return [(out, act, stamp + later) for out, act, stamp in run]


def damaged(rng, call):
    """Something in it that is refused, most of the time."""
    p, run, how = call.p, list(call.run), rng.randrange(8)
    if how == 0:
        call.n = rng.choice([0, 33, 64, HUGE])
    elif how == 1:
        call.p = p._replace(lb=rng.choice([0, p.ub + 1, HIGHEST_BOUND + 1, HUGE]))
    elif how == 2:
        call.p = p._replace(ub=rng.choice([0, p.lb - 1, HIGHEST_BOUND + 1, HUGE]))
    elif how == 3:
        call.p = p._replace(sequence=p.sequence[:-1] + [(rng.random() < .5, rng.choice([64, 255]))])
    for _ in range(rng.choice([0, 1]) if how < 4 else 1 + how // 7):
        if run:
            at = rng.randrange(len(run))
            out, act, stamp = run[at]
            run[at] = rng.choice([(out, 64, stamp), (out, 255, stamp), (out, act, LIMIT + 1), (out, act, HUGE),
                                  (out, act, max(0, stamp - 1)), (out, act, 0), (out, 64, 0), (out, 64, LIMIT + 1)])
    call.run = run


def call_of(rng, p, run):
    call = Call(p, run, some_sizes(rng, len(run)))
    if rng.random() < .05:
        damaged(rng, call)
    return call


def short_call(rng):
    p = some_property(rng)
    acts = some_actions(rng, p, rng.choice([0, 1, 2, 3, 4, 5, 5, 6, 6, 6, 7, 7, 8, 8]), .5)
    run = at_the_edges(rng, p, acts) if rng.random() < .3 else at_the_node(rng, p, acts, [0, 0, 0, 1, 1, 2, p.lb])
    return call_of(rng, p, moved(rng, run))


def long_call(rng):
    """Few inputs are open at a time, and few outputs are outside the set, so that each verdict can come late. Now and then 64 or 65
    inputs come at once."""
    p = some_property(rng)._replace(allowed=0b0111)
    outside = rng.choice([0, .01, .02, .05])
    acts = [(out, 3) if out and rng.random() < outside else (out, act) for out, act in some_actions(rng, p, rng.randint(250, 257), .3)]
    run = at_the_node(rng, p, acts, [0, 1, 2, p.lb, p.ub, 2 * p.ub])
    if rng.random() < .15:
        at = rng.randrange(len(run) - 65)
        for k in range(at, at + rng.choice([64, 65])):
            run[k] = False, run[k][1], run[at][2]
    return call_of(rng, p, moved(rng, run))


B = rules.Property([(False, 0)], 2, 10, 30)


def at_the_limits():
    """More lines and places than the console holds, and calls that the script's end cuts: the text of each by hand."""
    nothing = 'numbers\nmoments\nnumbers2\nmoments2\n'
    outputs = [(True, 1, 5)] * MOST_HELD
    places = ' 0' * MOST_HELD
    whole = f'numbers{places}\nmoments{places}\nnumbers2{places}\nmoments2{places}\n'
    for count in (MOST_HELD, MOST_HELD + 1, HUGE):
        yield Call(B, outputs, [0] * 4, count=count).packed(), 'Y 13 0 0\n' + nothing
        yield Call(B, outputs, [MOST_HELD, MOST_HELD + 1, 600, HUGE], count=count).packed(), 'Y 13 0 0\n' + whole
    yield Call(B, [(True, 1, 5)], [1, 2, 1, 1]).packed(), 'Y 0 0 0\nnumbers 1\nmoments -25 0\nnumbers2 0\nmoments2 0\n'
    cut = Call(B, [(False, 0, 0)], [], count=2).packed()
    yield cut, 'Y 9 0 0\n' + nothing


# ---- the program


def run_program(words, calls):
    """What it prints for each, five lines."""
    script = b''.join(calls) + b'\0'
    lines = subprocess.run(words, input=script, stdout=subprocess.PIPE, check=True).stdout.decode().split('\n')
    return ['\n'.join(lines[at:at + 5] + ['']) for at in range(0, len(lines) - 1, 5)]


class Checks:
    def __init__(self, words):
        self.words, self.calls, self.bytes, self.told = words, [], 0, {}

    def add(self, call, expected):
        """`expected` gives the text where nothing is refused."""
        self.calls.append((call, expected))
        self.bytes += len(call.packed())
        if self.bytes > MOST_BYTES:
            self.run()

    def run(self):
        got = run_program(self.words, [call.packed() for call, _ in self.calls])
        for (call, expected), printed in zip(self.calls, got):
            self.compare(call, expected, printed)
        if len(got) != len(self.calls):
            sys.exit(f'why: {len(got)} answers to {len(self.calls)} calls')
        self.calls, self.bytes = [], 0

    def compare(self, call, expected, printed):
        number = refused(call)
        try:
            want = text(number, 0, 0, ([], []), call.sizes) if number else expected(call)
            if printed != want:
                raise Wrong(f'\nexpected {want}\ngot      {printed}')
            if not number and expected is long_text:
                look_at(call, printed)
        except Wrong as wrong:
            sys.exit(f'why: {call}: {wrong}')
        told = f'refusal {number}' if number else rules.WORDS[int(printed.split()[2])]
        of = self.told.setdefault('long' if expected is long_text else 'short', {})
        of[told] = of.get(told, 0) + 1

    def counts(self, sort):
        return ', '.join(f'{k} {v}' for k, v in sorted(self.told.get(sort, {}).items()))


def main():
    given = sys.argv[1:]
    count, seed = int(given[0]) if given else 20_000, int(given[1]) if given[1:] else 20260105
    words = given[2:] or logs.console_command()
    sys.setrecursionlimit(10_000)  # a call or two for each line
    rng = random.Random(seed)
    fixed = list(at_the_limits())
    got = run_program(words, [call for call, _ in fixed[:-1]]) + run_program(words, [fixed[-1][0]])
    if len(got) != len(fixed):
        sys.exit(f'why: {len(got)} answers to {len(fixed)} calls at the limits')
    for (call, want), printed in zip(fixed, got):
        if printed != want:
            sys.exit(f'why: {call.hex()}\nexpected {want}\ngot      {printed}')
    checks = Checks(words)
    both = 0
    for i in range(count):
        call = short_call(rng)
        checks.add(call, short_text)
        if i % 20 == 0 and not refused(call):
            both += 1
            if listed(call.p, call.run) != followed(call.p, call.run):
                sys.exit(f'why: the two ways to an order differ: {call}')
        if i % 100 == 99:
            checks.add(long_call(rng), long_text)
    checks.run()
    print(f'why: seed {seed}, {count} runs of up to 8 lines: {checks.counts("short")}; of 250 to 257: {checks.counts("long")}; '
          f'{len(fixed)} at the limits; {both} orders found in both ways; 0 differences')


main()
