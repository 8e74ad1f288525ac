#!/usr/bin/env python3
"""The ring of document 02, CR 9, against tests/rules.py, which has lists and no ring.

    tests/ring.py [LOGS [SEED]]     exits 1 at a difference

Each of LOGS logs has 3,000 lines, with 60 inputs open and more at most of them, so that its ring goes round again and again. It goes
through the printing program, every line compared; in walks through the console (docs/CALLS.md), to its end and to drawn lines of it, and
their records are compared place by place; and through the judge. Then session records that begin at each of the 65 places, with 0 to 64
inputs open and something in the places not in use, get lines, marks and walks, taken and refused, by the checks of tests/calls.py."""
import functools
import itertools
import random
import subprocess
import sys

sys.dont_write_bytecode = True
import calls  # noqa: E402
import logs  # noqa: E402
import rules  # noqa: E402
from calls import AT_END, BUDGET, HUGE, PLACES, REFUSED, F, G, J, L, T, W, same  # noqa: E402

LINES = 3000
MOST_BYTES = 524_287  # of one script


def drawn_property(rng, size):
    """A sequence that repeats one, two or three inputs, so that many lengths are matched at once; outputs 0 and 1 are allowed."""
    part = [(False, rng.randrange(2)) for _ in range(rng.randint(1, 3))]
    lower = rng.randint(1, 500)
    return rules.Property((part * size)[:size], 0b0011, lower, lower + rng.randint(100, 2000))


def crowd(rng, p, lines, breaches):
    """Records of a log with 60 to 64 inputs open at most of its lines, and the session after each. Where there is no room some are closed, mostly
    one, now and then many or all. Inputs mostly follow the sequence, again and again. With `breaches` there are outputs outside the set, and
    a run that has not been clear for a while is closed by a gap mark; without them one run goes on to the end."""
    records, sessions, inputs = [], [rules.FRESH], itertools.cycle(act for _, act in p.sequence)

    def take(*record):
        records.append(record)
        sessions.append(rules.after_record(p, sessions[-1], *record))

    while len(records) < lines:
        w = sessions[-1]
        kind = rng.choice([rules.INPUT, rules.INPUT, rules.OUTPUT]) if len(w.held) > 50 else rules.INPUT
        stamp = w.latest + rng.choice([0, 0, 0, 1, 2])
        if kind == rules.INPUT and sum(at + 2 * p.ub >= stamp for at, _ in w.held) == rules.MOST_OPEN:
            closing = rng.choice([0] * 150 + [1] * 30 + [2, 3, 20, 63])
            stamp = w.held[closing][0] + 2 * p.ub + 1
        if rules.standing(w) in (rules.SUSPECT, rules.CERTAIN) and rng.random() < .02:
            take(rules.GAP, rng.randrange(64), stamp)
            take(rules.INPUT, 0, stamp + 2 * p.ub + 1)
        else:
            strays = rng.random() < .7 / len(p.sequence)
            action = rng.randrange(2) if strays or kind == rules.OUTPUT else next(inputs)
            take(kind, 2 if kind == rules.OUTPUT and breaches and rng.random() < .01 else action, stamp)
    return records, sessions[1:]


def packed(records):
    data, latest = b"", 0
    for kind, action, stamp in records:
        data += rules.pack_record(kind, action, stamp - latest)
        latest = stamp
    return data


def rows_of(records, sessions):
    """The rows of the listing."""
    return ["%d %s %d %d %s %d" % (number, "IOG"[kind], action, stamp, rules.WORDS[rules.standing(w)], len(w.held))
            for number, ((kind, action, stamp), w) in enumerate(zip(records, sessions), 1)]


def record_of_property(p):
    return calls.prop([("!%d" if out else "?%d") % act for out, act in p.sequence], p.allowed, p.lb, p.ub)


def compare_listing(program, p, trace, rows):
    text = subprocess.run(program, input=rules.pack_property(p) + trace + rules.END_RECORD, stdout=subprocess.PIPE, check=True).stdout.decode()
    got = text.split("\n")
    want = ["line kind action stamp verdict open"] + rows + ["end %d" % len(rows), ""]
    for number, (one, other) in enumerate(zip(got + [None], want + [None])):
        if one != other:
            sys.exit("ring: FAILED: %s: line %d of the listing is %s, expected %s" % (p, number + 1, one, other))


def walk(trace, taken, w, p):
    """The whole trace in one walk."""
    def check(c):
        c.answer("W")
        c.session, c.run = c.record(), None
        same("the record after a walk", c.session, calls.record_of(p, w))
    calls.add("W", calls.word(taken) + calls.string(trace), check)


def waste(rng):
    """Something for the places not in use, near a stamp or as high as it can be."""
    return lambda name: rng.randrange(256) if name == "acts" else rng.choice([0, 1, 500, 2 ** 33, 2 ** 40, HUGE])


def each_place(rng, s, starts):
    """Calls on records that say the same, from each start: a line and a mark that are taken, refused ones, which give the record back as it
    came, and walks, of which one takes nothing."""
    at = s["latest"]
    later = at + 2 * s["property"]["ub"] + 1
    for start in starts:
        turned = calls.turned(s, start, waste(rng))
        T(turned)
        L("?64", at, 3)
        L("?0", rules.LIMIT + 1, 4)
        if at:
            L("!0", at - 1, 5)
            G(at - 1, 5)
        if s["count"] == rules.MOST_OPEN:
            L("?0", at, 6)
        W(0, rules.END_RECORD, 0, BUDGET)
        W(9, rules.END_RECORD, 0, AT_END)
        W(9, b"", 0, REFUSED, 7)
        L("!%d" % rng.randrange(3), at)
        T(turned)
        G(at)
        T(turned)
        L("?1", later)
        T(turned)
        W(9, b"".join(rules.pack_record(*record) for record in ((rules.OUTPUT, 2, 0), (rules.OUTPUT, 1, 1), (rules.INPUT, 0, later - at), (rules.OUTPUT, 2, 0))), 4, REFUSED, 7)


def named(two):
    """Records that refusal 10 names, for where they begin and for what stands behind the last place."""
    base = dict(count=2, held=[90, 100], acts=[0, 1], masks=[1, 3, 7], latest=100)
    blind = dict(masks=(), latest=100, blind=1)
    last = PLACES - 1
    for start in (PLACES, PLACES + 1, 2 * PLACES - 2, 2 * PLACES, 2 ** 32, HUGE):
        yield calls.session(two, **base, start=start)
        yield calls.session(two, latest=100, start=start)
        yield calls.session(two, **blind, start=start)
    for start in (0, 1, last):
        yield calls.session(two, PLACES, [100] * PLACES, [0] * PLACES, [1] * PLACES, latest=100, start=start)
        yield calls.session(two, HUGE, latest=100, start=start)
    for start in (last, last - 1):
        yield calls.turned(calls.session(two, **{**base, "held": [91, 90]}), start)
        yield calls.turned(calls.session(two, **{**base, "held": [90, 101]}), start)
        yield calls.turned(calls.session(two, **{**base, "masks": [1, 1, 8]}), start)
        yield calls.turned(calls.session(two, **base, beside=[1, 0, 17]), start)
        yield {**calls.turned(calls.session(two, **base), start), "blind": 1}


class Console:
    """The program, run on the calls that are waiting."""

    def __init__(self, command):
        self.command, self.calls = command, 0

    def run(self):
        script = b"".join(call[1] for call in calls.CALLS) + b"\0"
        if len(script) > MOST_BYTES:
            sys.exit("ring: FAILED: a script of %d bytes" % len(script))
        if not calls.check(subprocess.run(self.command, input=script, stdout=subprocess.PIPE, check=True).stdout):
            sys.exit(1)
        self.calls += len(calls.CALLS)
        calls.CALLS.clear()


def main():
    count = int(sys.argv[1]) if len(sys.argv) > 1 else 6
    rng = random.Random(int(sys.argv[2]) if len(sys.argv) > 2 else 20260109)
    program = logs.listing_command()
    console = Console(logs.console_command())
    crowded, verdicts = 0, [0] * 4
    for i in range(count):
        p = drawn_property(rng, (1, 2, 6, 32)[i % 4])
        records, sessions = crowd(rng, p, LINES, i % 2 == 0)
        for w in sessions:
            crowded += len(w.held) >= 60
            verdicts[rules.standing(w)] += 1
        trace = packed(records)
        compare_listing(program, p, trace, rows_of(records, sessions))
        # walks that stop early too, since at the end the last cuts may have little to tell
        for size in (len(records), rng.randrange(LINES), rng.randrange(LINES)):
            w = sessions[size - 1] if size else rules.FRESH
            F(record_of_property(p))
            walk(trace, size, w, record_of_property(p))
            L("!2", w.latest)
        J(rules.pack_property(p), trace + rules.END_RECORD, 0, rules.standing(sessions[-1]), len(records))
        console.run()
    for size in (0, 1, 2, 31, 63, 64):
        p = rules.Property([(False, 0), (False, 1)], 0b10, 3, 400)
        records = [(rules.INPUT, rng.randrange(2), 100 + 5 * i) for i in range(size)] + [(rules.OUTPUT, rng.choice([1, 1, 2]), 110 + 5 * size)]
        w = functools.reduce(lambda w, record: rules.after_record(p, w, *record), records, rules.FRESH)
        each_place(rng, calls.record_of(record_of_property(p), w), range(PLACES))
        console.run()
    each_place(rng, calls.session(calls.B, masks=(), latest=100, blind=1), range(PLACES))
    console.run()
    for s in named(calls.prop(["?0", "!1"], (1,))):
        T(s)
        L("?0", 100, 10)
        G(100, 10)
        W(0, b"", 0, REFUSED, 10)
    console.run()
    told = ", ".join("%s %d" % (word, n) for word, n in zip(rules.WORDS, verdicts))
    print("ring: %d logs of %d lines, 60 inputs or more open after %d (%s); %d calls; 0 differences" % (count, LINES, crowded, told, console.calls))


main()
