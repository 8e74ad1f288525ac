#!/usr/bin/env python3
"""The fixed script of the console (docs/CALLS.md) and what it must give back.

    tests/calls.py                      crates/calls/stdin is this script, and crates/calls/stdout meets every expectation
    tests/calls.py --write [PROGRAM..]  runs the program on the script, checks what it prints, and writes both files if it holds;
                                        target/bin/calls, built and run as tools/listing builds and runs its own, unless a program is named

Each call of the script carries the refusal that the table of refusals gives it, written by hand, and verdicts where they
matter; so are orders and moments. Packed forms, held stamps, counts, latest stamps, blindness and cuts are those of
tests/rules.py, by one step over cuts and in short runs also by listing every order of the run. A refused call must leave its
other numbers 0, and its session, buffer or lists as they were."""
import os
import re
import subprocess
import sys

sys.dont_write_bytecode = True
import logs  # noqa: E402
import rules  # noqa: E402
from rules import END_RECORD as END, LIMIT, TAP_END, TURN, pack_record as rec, pack_tap as tap  # noqa: E402

TOP = os.path.dirname(os.path.dirname(os.path.abspath(__file__)))
with open(os.path.join(TOP, "include", "anthegyra.h"), encoding="ascii") as _header:
    VERSION = int(re.search("(?m)^#define ANTHEGYRA_VERSION ([0-9]+)$", _header.read())[1])
HUGE = 2 ** 64 - 1
LAST = 2 ** 32 - 1  # of the tap card's counter

# ---- the session record, as the script gives it and the console prints it. Each cut has a mask of matched lengths that are not
# armed, and beside it a number with those that are, from bit 1 on; its bit 0 says that broken is among them. Its lists are rings of
# PLACES places: index i stands at place start + i, and behind the last place comes the first.

BESIDE = "marks"
PLACES = 65

# ---- records


def prop(sequence, allowed=(1,), lb=10, ub=30, n=None):
    """?0 and the like; n other than their number is given as it is, and places behind it stay as named."""
    outs, nums = [0] * 32, [0] * 32
    for i, act in enumerate(sequence):
        outs[i], nums[i] = int(act[0] == "!"), int(act[1:])
    allowed = allowed if isinstance(allowed, int) else sum(1 << k for k in allowed)
    return {"n": len(sequence) if n is None else n, "directions": outs, "numbers": nums, "allowed": allowed, "lb": lb, "ub": ub}


NONE = prop([], (), 0, 0)
B = prop(["?0"])


def session(p=B, count=0, held=(), acts=(), masks=(1,), beside=(), latest=0, blind=0, start=0):
    """The lists place by place, with 0 behind them."""
    def full(places):
        return list(places) + [0] * (PLACES - len(places))
    return {"property": p, "start": start, "count": count, "held": full(held), "acts": full(acts), "masks": full(masks),
            BESIDE: full(beside), "latest": latest, "blind": blind}


ZEROS = session(NONE, masks=())


def full_house(stamp, p=B, **more):
    """64 inputs ?0 open at one stamp."""
    return session(p, 64, [stamp] * 64, [0] * 64, [1] + [2] * 64, latest=stamp, **more)


def ring(s, name):
    """A list of the record, index by index."""
    return [s[name][(s["start"] + i) % PLACES] for i in range(PLACES)]


def turned(s, start, waste=lambda name: 0):
    """A record that says the same and begins at another place. `waste` gives what stands in places not in use."""
    turned_ = dict(s, start=start)
    for name, used in (("held", s["count"]), ("acts", s["count"]), ("masks", s["count"] + 1), (BESIDE, s["count"] + 1)):
        places = [waste(name) for _ in range(PLACES)]
        for i, value in enumerate(ring(s, name)[:0 if s["blind"] else used]):
            places[(start + i) % PLACES] = value
        turned_[name] = places
    return turned_


def meant(p):
    """The property that a record of one stands for, as far as it has places."""
    return rules.Property([(bool(out), act) for out, act in zip(p["directions"], p["numbers"])][:p["n"]],
                          p["allowed"], p["lb"], p["ub"])


def watch_of(s):
    """What a session record stands for."""
    cuts = [({(k, False) for k in range(64) if mask >> k & 1} | {(k, True) for k in range(63) if beside >> k + 1 & 1}, bool(beside & 1))
            for mask, beside in zip(ring(s, "masks"), ring(s, BESIDE))]
    return rules.Watch(bool(s["blind"]), s["latest"], list(zip(ring(s, "held"), ring(s, "acts")))[:s["count"]], cuts[:s["count"] + 1])


def record_of(p, w):
    """The session record of what it stands for: it begins at the first place, and what is not in use is 0."""
    return session(p, len(w.held), [at for at, _ in w.held], [act for _, act in w.held],
                   [sum(1 << k for k, armed in lengths if not armed) for lengths, _ in w.cuts],
                   [int(broken) + sum(2 << k for k, armed in lengths if armed) for lengths, broken in w.cuts],
                   w.latest, int(w.blind))


# ---- packed forms


def packed(p):
    return rules.pack_property(meant(p), p["n"])


def trace(*lines):
    """('?0', 100), ('!2', 120), ('gap', 200), ('gap5', 200): records with stamps less the one before. A gap has its number of lost
    lines, 0 where none is given."""
    out, latest = b"", 0
    for act, stamp in lines:
        kind = {"?": 0, "!": 1, "g": 2}[act[0]]
        out += rec(kind, int(act[3:] or 0) if kind == 2 else int(act[1:]), stamp - latest)
        latest = stamp
    return out


# ---- the script: each call as bytes, with a function that checks what it printed

CALLS = []
COUNTS = {}
REMEMBERED = {}
LISTED = [0]
TITLE = ""


def title(text):
    global TITLE
    TITLE = text


def word(v):
    return v.to_bytes(8, "big")


def string(b):
    return len(b).to_bytes(4, "big") + b


def property_bytes(p):
    return (word(p["n"]) + bytes(p["directions"]) + bytes(p["numbers"]) + word(p["allowed"]) + word(p["lb"]) + word(p["ub"]))


def session_bytes(s):
    return (property_bytes(s["property"]) + word(s["start"]) + word(s["count"]) + b"".join(map(word, s["held"])) + bytes(s["acts"])
            + b"".join(map(word, s["masks"])) + b"".join(map(word, s[BESIDE])) + word(s["latest"]) + bytes([s["blind"]]))


def add(name, args, check):
    CALLS.append((name, name.encode() + args, check, TITLE))


class Wrong(Exception):
    pass


def same(what, got, want):
    if got != want:
        raise Wrong("%s is %s, expected %s" % (what, got, want))


class Console:
    """What is printed, line by line, and the session and run that stand."""

    def __init__(self, text):
        self.lines = text.decode().split("\n")
        self.at = 0
        self.session = ZEROS
        self.run = None

    def line(self):
        self.at += 1
        return self.lines[self.at - 1].split(" ")

    def answer(self, name):
        words = self.line()
        same("the name", words[0], name)
        return words[1:]

    def numbers(self, name, size=None):
        words = self.line()
        same("the name of a line", words[0], name)
        places = [int(w) for w in words[1:]]
        if size is None:
            return places
        if places and places[-1] == 0 or len(places) > size:
            raise Wrong("%s does not end at its last place that is not 0" % name)
        return places + [0] * (size - len(places))

    def property(self):
        n, allowed, lb, ub = self.numbers("property")
        return {"n": n, "directions": self.numbers("directions", 32), "numbers": self.numbers("numbers", 32),
                "allowed": allowed, "lb": lb, "ub": ub}

    def record(self):
        p = self.property()
        start, count, latest, blind = self.numbers("session")
        lists = {name: self.numbers(name, PLACES) for name in ("held", "acts", "masks", BESIDE)}
        return {"property": p, "start": start, "count": count, **lists, "latest": latest, "blind": blind}


# ---- the session that stands, and the next one


def standing(s):
    return rules.standing(watch_of(s))


def after(s, kind, action, stamp):
    return record_of(s["property"], rules.after_record(meant(s["property"]), watch_of(s), kind, action, stamp))


def run_after(s, run, kind, action, stamp):
    return rules.run_after(meant(s["property"]), watch_of(s), run, kind, action, stamp)


def check_listed(c):
    """The session that stands against the orders of its run."""
    s = c.session
    cuts = None if c.run is None or s["blind"] else rules.listed_cuts(meant(s["property"]), c.run, s["count"])
    if cuts is not None:
        LISTED[0] += 1
        same("the cuts, by listing", watch_of(s).cuts, cuts)
        same("the verdict, by listing", standing(s), rules.listed_verdict(meant(s["property"]), c.run))


def remember(name):
    """The session that stands now is the one that stood at the first call of this with the name."""
    def check(c):
        same("the session, against '%s'" % name, c.session, REMEMBERED.setdefault(name, c.session))
    CALLS.append(("", b"", check, TITLE))


# ---- calls, each with its refusal, 0 where it is taken


def count(name, want):
    COUNTS[name, want] = COUNTS.get((name, want), 0) + 1


def F(p, want=0):
    def check(c):
        same("the answer", c.answer("F"), [str(want), "0", "0"])
        c.session, c.run = c.record(), []
        same("the session", c.session, ZEROS if want else session(p))
    count("F", want)
    add("F", property_bytes(p), check)


def V(p, want=0):
    count("V", want)
    add("V", property_bytes(p), lambda c: same("the answer", c.answer("V"), [str(want)]))


def T(s):
    def check(c):
        same("the answer", c.answer("T"), [])
        c.session, c.run = c.record(), None
        same("the session", c.session, s)
    count("T", 0)
    add("T", session_bytes(s), check)


def stepped(c, name, want, verdict, opened, step):
    """`step` gives the answer's verdict and the session after it."""
    refusal, got_verdict, got_open = map(int, c.answer(name))
    before, c.session = c.session, c.record()
    same("the refusal", refusal, want)
    if want:
        same("verdict and number open of a refusal", [got_verdict, got_open], [0, 0])
        same("the session of a refusal", c.session, before)
        return
    found, then = step(before)
    for field in then:
        same("the session's " + field, c.session[field], then[field])
    same("the verdict", got_verdict, found)
    same("the number open", got_open, then["count"])
    if verdict is not None:
        same("the verdict, by hand", got_verdict, verdict)
    if opened is not None:
        same("the number open, by hand", got_open, opened)
    check_listed(c)


def L(act, stamp, want=0, verdict=None, opened=None):
    kind, number = int(act[0] == "!"), int(act[1:])

    def check(c):
        def step(s):
            c.run = run_after(s, c.run, kind, number, stamp)
            then = after(s, kind, number, stamp)
            return standing(then), then
        stepped(c, "L", want, verdict, opened, step)
    count("L", want)
    add("L", bytes([kind, number]) + word(stamp), check)


def G(stamp, want=0, verdict=None, lost=0):
    def check(c):
        def step(s):
            c.run = None
            return standing(s), after(s, rules.GAP, lost, stamp)
        stepped(c, "G", want, verdict, 0, step)
    count("G", want)
    add("G", bytes([lost]) + word(stamp), check)


BUDGET, AT_END, REFUSED = 0, 1, 2


def rest_words(rest):
    return [str(len(rest)), hexed(rest[:16])]


def hexed(b):
    return "%d:%s" % (len(b), b.hex())


def W(budget, bytes_, taken, stop, refusal=0, lost=None):
    """`lost`, by hand: the last taken gap's number, 0 if there is none."""
    read = 6 * taken + (6 if stop == AT_END else 0)
    numbers = [0] + [first & 63 for first in bytes_[:6 * taken:6] if first >> 6 == rules.GAP]
    if lost is not None:
        same("the number of lost lines, by hand", numbers[-1], lost)

    def check(c):
        same("the answer", c.answer("W"), [str(v) for v in (taken, stop, refusal, read, numbers[-1])] + rest_words(bytes_[read:]))
        s, c.session = c.session, c.record()
        for i in range(taken):
            kind, action = bytes_[6 * i] >> 6, bytes_[6 * i] & 63
            stamp = s["latest"] + int.from_bytes(bytes_[6 * i + 1:6 * i + 6], "big")
            c.run, s = run_after(s, c.run, kind, action, stamp), after(s, kind, action, stamp)
        for field in s:
            same("the session's " + field, c.session[field], s[field])
        check_listed(c)
    count("W", refusal)
    add("W", word(budget) + string(bytes_), check)


def J(p, t, refusal=0, verdict=0, taken=0):
    number = 9 * 65536 if taken > 16383 else refusal * 65536 + verdict * 16384 + taken
    count("J", 9 if taken > 16383 else refusal)
    add("J", string(p) + string(t), lambda c: same("the answer", c.answer("J"), [str(v) for v in (refusal, verdict, taken, number)]))


def version():
    """The number that the header has. Nothing is read behind the letter."""
    count("v", 0)
    add("v", b"", lambda c: same("the answer", c.answer("v"), [str(VERSION)]))


def P(b, want=0, p=NONE):
    def check(c):
        same("the answer", c.answer("P"), [str(want)] + rest_words(b if want else b[len(packed(p)):]))
        same("the property", c.property(), p)
    count("P", want)
    add("P", string(b), check)


def Q(p, buffer, want=0):
    form = b"" if want else packed(p)
    left = form + buffer[len(form):]
    count("Q", want)
    add("Q", property_bytes(p) + string(buffer),
        lambda c: same("the answer", c.answer("Q"), [str(want), str(len(form)), hexed(left)]))


def reader(name, size, before, b, want, *numbers):
    """Of a record of `size` bytes; the numbers are kind, action and stamp."""
    count(name, want)
    add(name, word(before) + string(b),
        lambda c: same("the answer", c.answer(name), [str(v) for v in (want, *numbers)] + rest_words(b if want else b[size:])))


def R(before, b, want=0, kind=0, action=0, stamp=0):
    reader("R", 6, before, b, want, kind, action, stamp)


def K(before, b, want=0, kind=0, action=0, stamp=0):
    same("the answer of rules.py to %s" % b.hex(), rules.read_tap(b, before), (want, kind, action, stamp))
    reader("K", 5, before, b, want, kind, action, stamp)


def S(kind, action, stamp, before, buffer, want=0):
    form = b"" if want else rec(kind, action, stamp - before)
    left = form + buffer[len(form):]
    count("S", want)
    add("S", bytes([kind, action]) + word(stamp) + word(before) + string(buffer),
        lambda c: same("the answer", c.answer("S"), [str(want), hexed(left)]))


def N(act, site, release, want=0, name=b""):
    count("N", want)
    add("N", bytes([int(act[0] == "!"), int(act[1:])]) + string(site) + string(release),
        lambda c: same("the answer", c.answer("N"), [str(want), hexed(name)]))


LISTS = "numbers", "moments", "numbers2", "moments2"


def Y(p, run, want=0, verdict=0, line=0, first=(), second=(), sizes=None):
    """A run of ('?0', 100) and the like, in lists with a place for each line and one more, or of these sizes. An order is a list
    of line numbers with their moments."""
    sizes = sizes or [len(run) + 1] * 4
    filled = [[place[part] for place in order] for order in (first, second) for part in (0, 1)]

    def check(c):
        same("the answer", c.answer("Y"), [str(v) for v in (want, verdict, line)])
        for name, size, places in zip(LISTS, sizes, filled):
            size = min(size, 512)
            same("the list " + name, c.numbers(name), places + [0] * (size - len(places)))
    count("Y", want)
    lines_ = b"".join(bytes([int(act[0] == "!"), int(act[1:])]) + word(stamp) for act, stamp in run)
    add("Y", property_bytes(p) + word(len(run)) + lines_ + b"".join(map(word, sizes)), check)


def marked(n):
    """A buffer with a byte of its own at each place."""
    return bytes((7 * i + 161) % 256 for i in range(n))


# ---- the script


def at_the_start():
    title("a session of zeros stands at the start")
    L("?0", 0, 10)
    G(0, 10)
    W(0, b"", 0, REFUSED, 10)
    W(5, END, 0, REFUSED, 10)


def properties():
    title("refusals 1, 2 and 3 of a property")
    many = ["?%d" % (k % 64) if k % 3 else "!%d" % (63 - k) for k in range(32)]
    taken = [
        prop(["?0"]), prop(["!63"]), prop(many[:2]), prop(many[:31]), prop(many), prop(["?0"], 0), prop(["?0"], HUGE),
        prop(["?0"], (0,)), prop(["?0"], (63,)), prop(["?0"], lb=1, ub=1), prop(["?0"], lb=30), prop(["?0"], ub=60_000_000),
        prop(["?0"], lb=60_000_000, ub=60_000_000), prop(many[:31] + ["?63"]),
        # places behind the sequence are not read
        prop(["?0", "?64", "!255"], n=1), prop(many[:31] + ["!64"], n=31),
    ]
    for p in taken:
        size = (122 + 7 * p["n"] + 7) // 8
        F(p)
        V(p)
        Q(p, marked(size))
        Q(p, marked(size + 3))
        Q(p, marked(size - 1), 9)
        Q(p, b"", 9)
        kept = prop([], p["allowed"], p["lb"], p["ub"], p["n"])
        kept["directions"] = p["directions"][:p["n"]] + [0] * (32 - p["n"])
        kept["numbers"] = p["numbers"][:p["n"]] + [0] * (32 - p["n"])
        P(packed(p), 0, kept)
        P(packed(p) + marked(5), 0, kept)
        P(packed(p)[:-1], 7)
    refused = [
        (prop([]), 1), (prop(many, n=33), 1), (prop(many, n=63), 1), (prop(many, n=HUGE), 1),
        (prop(["?0"], lb=0), 2), (prop(["?0"], lb=31), 2), (prop(["?0"], lb=30, ub=29), 2), (prop(["?0"], ub=60_000_001), 2),
        (prop(["?0"], lb=60_000_001, ub=60_000_001), 2), (prop(["?0"], lb=HUGE, ub=HUGE), 2), (prop(["?0"], lb=0, ub=0), 2),
        (prop(["?64"]), 3), (prop(["!64"]), 3), (prop(["?255"]), 3), (prop(many[:31] + ["?64"]), 3), (prop(["?0", "?64"]), 3),
        # two that hold together: 1 before 2 before 3
        (prop([], lb=0), 1), (prop(many, n=33, ub=60_000_001), 1), (prop(["?64"], n=33), 1), (prop(["?64"], n=0), 1),
        (prop(["?64"], lb=0), 2), (prop(["?64"], ub=60_000_001), 2), (prop(["?64"], lb=0, n=33), 1),
    ]
    for p, want in refused:
        F(p, want)
        V(p, want)
        # before 9
        Q(p, marked(46), want)
        Q(p, b"", want)
    title("what a refused fresh call gives back is no session")
    L("?0", 0, 10)


def cases():
    title("document 01, cases 1 to 13, of which document 02 makes 8 and 9 certain")
    F(B)
    G(0, verdict=0)
    runs = [
        ([("?0", 100, 0), ("!2", 119, 0)]),
        ([("?0", 100, 0), ("!2", 120, 1)]),
        ([("?0", 100, 0), ("!2", 160, 1)]),
        ([("?0", 100, 0), ("!2", 161, 2)]),
        ([("?0", 100, 0), ("!2", 100, 0)]),
        ([("!2", 100, 0), ("?0", 100, 0)]),
        ([("?0", 100, 0), ("!1", 161, 0)]),
        ([("?0", 100, 0), ("?1", 101, 0), ("!2", 161, 2)]),
        ([("?0", 100, 0), ("?1", 100, 0), ("!2", 161, 2)]),
        ([("?0", 100, 0), ("!1", 130, 0), ("!2", 161, 1)]),
        ([("?0", 100, 0), ("!2", 120, 1), ("!2", 161, 2)]),
    ]
    for i, run in enumerate(runs):
        F(B)
        for act, stamp, verdict in run:
            L(act, stamp, 0, verdict)
        remember("run %d" % i)
        G(run[-1][1], 0, run[-1][2])
        F(B)
        W(len(run), trace(*[(act, stamp) for act, stamp, _ in run]) + END, len(run), BUDGET)
        remember("run %d" % i)
        J(packed(B), trace(*[(act, stamp) for act, stamp, _ in run]) + END, 0, run[-1][2], len(run))
    title("document 02, CR 1: any number of inputs in between")
    for sequence, run in ((["?0"], [("?0", 100, 0), ("?1", 101, 0), ("?2", 102, 0), ("?1", 103, 0), ("!2", 170, 2)]),
                          (["?0"], [("?0", 100, 0), ("?0", 101, 0), ("!2", 170, 2)]),
                          (["?0"], [("?0", 100, 0), ("?1", 101, 0), ("!1", 170, 0), ("!2", 240, 0)]),
                          (["?0"], [("?0", 100, 0), ("?1", 101, 0), ("!1", 170, 0), ("?0", 171, 0), ("?1", 172, 0), ("!2", 240, 2)]),
                          (["?0", "!1"], [("?0", 100, 0), ("!1", 170, 0), ("?5", 171, 0), ("!2", 240, 2)]),
                          (["?0", "!1"], [("?0", 100, 0), ("?5", 101, 0), ("!1", 170, 0), ("!2", 240, 0)]),
                          (["?0", "?1"], [("?0", 100, 0), ("?1", 101, 0), ("?0", 102, 0), ("!1", 170, 0), ("?1", 171, 0), ("!2", 240, 0)])):
        F(prop(sequence))
        for act, stamp, verdict in run:
            L(act, stamp, 0, verdict)
    title("document 01, case 12")
    F(B)
    L("?0", 100, 0, 0, 1)
    G(200, 0, 0)
    L("!2", 260, 0, 3, 0)
    L("!2", 320, 0, 3, 0)
    L("?0", 381, 0, 0, 1)
    L("!2", 442, 0, 2, 0)
    remember("case 12")
    F(B)
    t = trace(("?0", 100), ("gap", 200), ("!2", 260), ("!2", 320), ("?0", 381), ("!2", 442))
    W(4096, t + END + b"\1", 6, AT_END)
    remember("case 12")
    J(packed(B), t + END, 0, 2, 6)
    title("document 01, case 13")
    F(prop(["?0", "?0"], ()))
    for act, stamp, verdict in (("?0", 100, 0), ("?0", 101, 0), ("?0", 102, 0), ("!5", 170, 2)):
        L(act, stamp, 0, verdict)
    title("outputs in the sequence, and a fall back")
    F(prop(["?0", "!1", "?0"], (1,), 1, 2))
    for act, stamp in (("?0", 10), ("!1", 13), ("?0", 14), ("!1", 18), ("?0", 22), ("!2", 25), ("!1", 30), ("!3", 31)):
        L(act, stamp)


def drawer(seed):
    """Numbers below n by a fixed draw."""
    state = [seed]

    def draw(n):
        state[0] = (state[0] * 6364136223846793005 + 1442695040888963407) % 2 ** 64
        return (state[0] >> 33) % n
    return draw


def drawn():
    """Short runs by a fixed draw, their verdicts, masks and broken flags found by listing."""
    draw = drawer(20240601)
    for k in range(30):
        title("drawn run %d" % k)
        lb = 1 + draw(6)
        F(prop([("?%d" if draw(2) else "!%d") % draw(2) for _ in range(1 + draw(3))], draw(4), lb, lb + draw(8)))
        stamp = 0
        for _ in range(4 + draw(5)):
            stamp += draw(2) * draw(14)
            L(("?%d" if draw(2) else "!%d") % draw(3 if draw(3) else 2), stamp)
        G(stamp + draw(3))


def lines():
    title("refusals 3, 4 and 5 of a line")
    F(B)
    L("?63", 0, 0, 0, 1)
    L("?64", 0, 3)
    L("!64", 0, 3)
    L("!63", 0)
    L("?255", 5, 3)
    L("?0", 100, 0)
    L("!1", 99, 5)
    L("?1", 99, 5)
    L("?1", 0, 5)
    L("!0", 100)
    L("?1", 101)
    L("?1", LIMIT + 1, 4)
    L("!1", LIMIT + 1, 4)
    L("!1", HUGE, 4)
    L("?64", LIMIT + 1, 3)
    L("?64", 100, 3)
    L("!255", HUGE, 3)
    L("!1", LIMIT)
    L("?0", LIMIT, 0, None, 1)
    L("?0", LIMIT + 1, 4)
    L("?0", LIMIT - 1, 5)
    title("refusals 3, 4 and 5 of a mark, in this order")
    for lost in (64, 65, 127, 128, 255):
        for stamp in (LIMIT, LIMIT - 1, LIMIT + 1, 0, HUGE):
            G(stamp, 3, lost=lost)
    G(LIMIT - 1, 5, lost=63)
    G(LIMIT + 1, 4, lost=63)
    G(LIMIT - 1, 5)
    G(LIMIT + 1, 4)
    G(HUGE, 4)
    G(LIMIT, 0)
    G(LIMIT, 0, 3)
    G(LIMIT - 1, 5)
    G(LIMIT + 1, 4)
    title("while blind")
    F(B)
    L("?0", 100)
    G(99, 5)
    G(100, 0, 0)
    L("?64", 100, 3)
    L("?64", 99, 3)
    L("?0", 99, 5)
    L("?0", LIMIT + 1, 4)
    L("?0", 100, 0, 3, 0)
    L("?0", 160, 0, 3, 0)
    L("!5", 220, 0, 3, 0)
    G(219, 5)
    G(230, 0, 3)
    L("!5", 290, 0, 3, 0)
    L("!5", 351, 0, 0, 0)
    L("?0", 351, 0, 0, 1)
    G(352, 0, 0)
    L("?0", 413, 0, 0, 1)
    G(352, 5, lost=63)
    G(412, 3, lost=64)
    G(413, 0, 0, 63)
    G(413, 3, lost=64)
    title("a mark's number of lost lines changes nothing")
    for lost in (0, 1, 5, 62, 63):
        for run in ([], [("?0", 100)], [("?0", 100), ("!2", 160)], [("?0", 100), ("!2", 161)]):
            F(B)
            for act, stamp in run:
                L(act, stamp)
            G(170, 0, (0, 0, 1, 2)[len(run) if run != [("?0", 100), ("!2", 161)] else 3], lost)
            remember("a mark at 170")
            G(175, 0, 3, 63 - lost)
            L("!2", 235, 0, 3, 0)
            L("?0", 296, 0, 0, 1)
            remember("a run behind marks")
    title("a long quiet without a mark starts no new run")
    F(prop(["?0"], (1,)))
    L("?0", 0, 0, 0)
    L("!2", 1_000_000, 0, 2)
    L("!1", LIMIT, 0, 2)
    title("bounds of one")
    F(prop(["?0"], (), 1, 1))
    L("?0", 10, 0, 0, 1)
    L("!1", 11, 0, 0, 1)
    L("!1", 12, 0, 1, 1)
    L("!1", 13, 0, 2, 0)


def room():
    title("refusal 6, at 2 UB and behind it")
    F(B)
    W(63, trace(*[("?0", 0)] * 63), 63, BUDGET)
    L("?0", 0, 0, None, 64)
    L("?0", 0, 6)
    L("!1", 0, 0, None, 64)
    L("?0", 60, 6)
    L("?64", 60, 3)
    L("?63", 60, 6)
    L("!1", 60, 0, None, 64)
    L("?0", 60, 6)
    L("?0", 59, 5)
    L("?64", 59, 3)
    L("?0", 61, 0, None, 1)
    title("refusal 6, where one of 64 closes")
    F(B)
    W(4096, trace(("?0", 0), *[("?1", 1)] * 63) + END, 64, AT_END)
    L("?2", 60, 6)
    L("?2", 61, 0, None, 64)
    L("?2", 61, 6)
    L("?2", 62, 0, None, 2)
    title("refusal 6 is never given while blind")
    F(B)
    W(64, trace(*[("?0", 7)] * 64), 64, BUDGET)
    L("?0", 7, 6)
    G(7, 0)
    for _ in range(2):
        L("?0", 7, 0, 3, 0)
    title("4 before 6, 3 before both")
    T(full_house(LIMIT))
    L("?0", LIMIT + 1, 4)
    L("?64", LIMIT + 1, 3)
    L("?0", LIMIT - 1, 5)
    L("?0", LIMIT, 6)
    L("?64", LIMIT, 3)
    L("!0", LIMIT, 0, None, 64)
    title("the widest bounds")
    wide = prop(["?0"], (), 60_000_000, 60_000_000)
    T(full_house(LIMIT - 120_000_000, wide))
    L("?0", LIMIT, 6)
    T(full_house(LIMIT - 120_000_001, wide))
    L("?0", LIMIT, 0, None, 1)
    title("refusal 6 in a walk and in the judge")
    F(B)
    full = trace(*[("?0", 0)] * 64)
    W(4096, full + trace(("?0", 60)) + END, 64, REFUSED, 6)
    F(B)
    W(4096, full + trace(("?0", 61)) + END, 65, AT_END)
    F(B)
    W(64, full + trace(("?0", 60)) + END, 64, BUDGET)
    J(packed(B), full + trace(("?0", 60)) + END, 6)
    J(packed(B), full + trace(("?0", 61)) + END, 0, 0, 65)


def records_of_no_calls():
    two = prop(["?0", "!1"], (1,))
    longest = prop(["?0"] * 32)
    base = dict(count=2, held=[90, 100], acts=[0, 1], masks=[1, 3, 7], latest=100)
    fit = [
        ("the plain one", session(two, **base)),
        ("length 1", session(B, latest=100)),
        ("length 32", session(longest, masks=[2 ** 33 - 1], latest=100)),
        ("LB 1 and UB 60,000,000", session(prop(["?0"], lb=1, ub=60_000_000), latest=100)),
        ("LB is UB", session(prop(["?0"], lb=30), latest=100)),
        ("number 63", session(prop(["?63"]), latest=100)),
        ("number 64 behind the sequence", session(prop(["?0", "?64"], n=1), latest=100)),
        ("63 held stamps", session(two, 63, [100] * 63, [0] * 63, [1] * 64, latest=100)),
        ("held stamps equal", session(two, **{**base, "held": [100, 100]})),
        ("held at the latest", session(two, **{**base, "held": [0, 100]})),
        ("unused held stamps out of order", session(two, **{**base, "held": [90, 100, 500, 3]})),
        ("latest at the limit", session(B, latest=LIMIT - 1)),
        ("a matched length of the sequence's", session(two, **{**base, "masks": [4, 4, 4]})),
        ("a longer one in an unused mask", session(two, **{**base, "masks": [1, 1, 1, 8, HUGE]})),
        ("blind, with nothing held", session(two, masks=(), latest=100, blind=1)),
        ("blind, a longer one in a mask", session(two, masks=[HUGE, 8], latest=100, blind=1)),
        ("a held action above 63", session(two, **{**base, "acts": [255, 64]})),
        ("no matched length at all", session(two, **{**base, "masks": [0, 0, 0]})),
        ("all broken", session(two, **base, beside=[1] * 65)),
        ("held stamps closed at the latest", session(two, **{**base, "held": [0, 1]})),
        ("armed at every length", session(two, **base, beside=[2, 4, 8])),
        ("armed at every length and broken", session(two, **base, beside=[15, 15, 15])),
        ("armed alone", session(two, **{**base, "masks": [0, 0, 0]}, beside=[8, 6, 14])),
        ("length 32 armed", session(longest, masks=(), beside=[2 ** 34 - 1], latest=100)),
        ("an armed length above in a cut not in use", session(two, **base, beside=[0, 1, 0, 16, HUGE])),
        ("blind, an armed length above", session(two, masks=(), latest=100, blind=1, beside=[16, HUGE])),
        ("start 64", turned(session(two, **base), 64, lambda name: 200)),
    ]
    for name, s in fit:
        title("a session record in range: " + name)
        T(s)
        L("?64", s["latest"], 3)
        L("?0", s["latest"] + 1)
        G(s["latest"] + 1)
        T(s)
        G(s["latest"])
        T(s)
        W(3, rec(0, 1, 1) + rec(1, 1, 0) + END, 2, AT_END)
    title("an output outside the set behind a whole match: not armed, and armed")
    T(session(two, masks=[4], latest=100))
    L("!2", 101, 0, 0)
    T(session(two, masks=(), beside=[8], latest=100))
    L("!2", 101, 0, 2)
    title("a session record in range: 64 held stamps")
    T(full_house(100))
    L("?0", 100, 6)
    L("!0", 100, 0, None, 64)
    title("a session record in range: latest 2^40 - 1")
    T(session(B, latest=LIMIT))
    L("!0", LIMIT)
    W(1, rec(1, 0, 1), 0, REFUSED, 4)
    unfit = [
        ("length 0", session(prop([]), latest=100)),
        ("length 33", session(prop(["?0"] * 32, n=33), latest=100)),
        ("LB 0", session(prop(["?0"], lb=0), latest=100)),
        ("LB above UB", session(prop(["?0"], lb=31), latest=100)),
        ("UB 60,000,001", session(prop(["?0"], ub=60_000_001), latest=100)),
        ("number 64", session(prop(["?64"]), latest=100)),
        ("number 64 at the last place", session(prop(["?0"] * 31 + ["!64"]), latest=100)),
        ("65 held stamps", session(two, 65, [100] * 65, [0] * 65, [1] * 65, latest=100)),
        ("very many held stamps", session(two, HUGE, latest=100)),
        ("start 65", session(two, **base, start=65)),
        ("start 2^64 - 1", session(two, **base, start=HUGE)),
        ("start 65 while blind", session(two, masks=(), latest=100, blind=1, start=65)),
        ("held stamps out of order", session(two, **{**base, "held": [91, 90]})),
        ("the last two out of order", session(two, 64, [50] * 62 + [60, 59], [0] * 64, [1] * 65, latest=100)),
        ("held past the latest", session(two, **{**base, "held": [90, 101]})),
        ("a held stamp while blind", session(two, **base, blind=1)),
        ("latest 2^40", session(B, latest=LIMIT + 1)),
        ("latest 2^64 - 1", session(B, latest=HUGE)),
        ("latest 2^40 while blind", session(B, masks=(), latest=LIMIT + 1, blind=1)),
        ("a matched length above, before all", session(two, **{**base, "masks": [8, 1, 1]})),
        ("a matched length above, after all", session(two, **{**base, "masks": [1, 1, 8]})),
        ("the highest bit of a mask", session(longest, masks=[2 ** 63], latest=100)),
        ("length 33 matched of 32", session(longest, masks=[2 ** 33], latest=100)),
        ("an armed length above, before all", session(two, **base, beside=[16])),
        ("an armed length above, after all", session(two, **base, beside=[1, 0, 17])),
        ("the highest armed length", session(two, **base, beside=[0, 2 ** 63])),
        ("length 33 armed of 32", session(longest, beside=[2 ** 34], latest=100)),
    ]
    for name, s in unfit:
        title("refusal 10: " + name)
        T(s)
        L("?0", min(s["latest"], LIMIT), 10)
        G(min(s["latest"], LIMIT), 10, lost=5)
        W(0, b"", 0, REFUSED, 10)
        W(1, END, 0, REFUSED, 10)
    title("10 before 3, 4, 5 and 6 of a line, 3, 4 and 5 of a mark, 7, 8 and 4 of a walk")
    T(full_house(100, prop(["?0"], lb=0)))
    L("?64", 100, 10)
    L("?0", LIMIT + 1, 10)
    L("?0", 99, 10)
    L("?0", 100, 10)
    G(LIMIT + 1, 10)
    G(99, 10)
    for lost in (63, 64, 255):
        G(100, 10, lost=lost)
        G(99, 10, lost=lost)
    W(1, b"", 0, REFUSED, 10)
    W(1, rec(3, 1, 0), 0, REFUSED, 10)
    W(1, rec(2, 5, 0), 0, REFUSED, 10)
    W(1, rec(0, 0, LIMIT), 0, REFUSED, 10)
    W(HUGE, rec(0, 0, 0), 0, REFUSED, 10)


def walks():
    title("the budget of a walk")
    t = trace(("?0", 100), ("!2", 120), ("gap", 161))
    for budget, taken, stop in ((0, 0, BUDGET), (1, 1, BUDGET), (2, 2, BUDGET), (3, 3, BUDGET), (4, 3, AT_END), (HUGE, 3, AT_END)):
        F(B)
        W(budget, t + END + marked(9), taken, stop)
    title("a walk in parts is the walk of the whole")
    F(B)
    W(1, t + END, 1, BUDGET)
    W(1, rec(1, 2, 20) + rec(2, 0, 41) + END, 1, BUDGET)
    W(5, rec(2, 0, 41) + END, 1, AT_END)
    remember("parts")
    F(B)
    W(5, t + END, 3, AT_END)
    remember("parts")
    F(B)
    L("?0", 100, 0, 0)
    L("!2", 120, 0, 1)
    G(161, 0, 1)
    remember("parts")
    title("the last taken gap's number of lost lines")
    gaps = trace(("gap7", 5), ("?0", 100), ("gap0", 200), ("gap62", 200), ("!2", 261), ("gap63", 300), ("!2", 361))
    for budget, lost in ((0, 0), (1, 7), (2, 7), (3, 0), (4, 62), (5, 62), (6, 63), (7, 63)):
        F(B)
        W(budget, gaps + END, budget, BUDGET, 0, lost)
    F(B)
    W(9, gaps + END, 7, AT_END, 0, 63)
    remember("gaps")
    F(B)
    W(9, trace(("gap1", 5), ("?0", 100), ("gap2", 200), ("gap3", 200), ("!2", 261), ("gap4", 300), ("!2", 361)) + END, 7, AT_END, 0, 4)
    remember("gaps")
    title("in parts: the second walk's where it took a gap, else the first's")
    F(B)
    W(4, gaps + END, 4, BUDGET, 0, 62)
    W(1, trace(("!2", 61)), 1, BUDGET, 0, 0)
    W(5, rec(2, 63, 39) + rec(1, 2, 61) + END, 2, AT_END, 0, 63)
    remember("gaps")
    title("kept after a refusal, and a gap that is refused does not count")
    for bad, want in ((b"", 7), (rec(2, 9, 0)[:5], 7), (rec(3, 9, 0), 8), (rec(3, 0, 9), 8), (rec(2, 9, LIMIT), 4), (rec(0, 9, LIMIT), 4)):
        F(B)
        W(9, trace(("gap5", 7)) + bad, 1, REFUSED, want, 5)
        F(B)
        W(9, trace(("gap5", 7), ("!2", 9)) + bad, 2, REFUSED, want, 5)
        F(B)
        W(9, trace(("gap5", 7), ("gap0", 9)) + bad, 2, REFUSED, want, 0)
        F(B)
        W(9, trace(("!2", 9)) + bad, 1, REFUSED, want, 0)
    F(B)
    W(99, trace(("gap5", 7), *[("?0", 68)] * 65) + END, 65, REFUSED, 6, 5)
    for lost in range(64):
        F(B)
        W(1, rec(2, lost, 3), 1, BUDGET, 0, lost)
    title("with budget 0 left nothing more is read")
    F(B)
    W(0, b"\1\2", 0, BUDGET)
    W(1, rec(1, 0, 0) + rec(3, 1, 0), 1, BUDGET)
    W(1, rec(1, 0, 0) + b"\0", 1, BUDGET)
    title("at most 4,096 records")
    for budget in (4096, 4097, HUGE):
        F(B)
        W(budget, rec(2, 0, 1) * 4095 + rec(2, 9, 1) + rec(2, 5, 1), 4096, BUDGET, 0, 9)
    title("7 in a walk: bytes that run out")
    F(B)
    W(4, t, 3, REFUSED, 7)
    F(B)
    W(3, t, 3, BUDGET)
    W(1, b"", 0, REFUSED, 7)
    W(1, END[:5], 0, REFUSED, 7)
    W(1, END, 0, AT_END)
    F(B)
    W(4, t[:-1], 2, REFUSED, 7)
    title("8 in a walk")
    for bad in (rec(3, 63, 0), rec(3, 1, 0), rec(3, 0, 1)):
        F(B)
        W(4, trace(("?0", 5)) + bad + END, 1, REFUSED, 8)
        J(packed(B), trace(("?0", 5)) + bad + END, 8)
        J(packed(B), bad, 8)
    title("4 in a walk: each field is added to the session's latest stamp")
    F(B)
    W(4, rec(0, 0, LIMIT) + rec(1, 0, 0) + rec(1, 0, 1) + END, 2, REFUSED, 4)
    F(B)
    L("!0", 1)
    W(4, rec(0, 0, LIMIT) + END, 0, REFUSED, 4)
    W(4, rec(0, 0, LIMIT - 1) + END, 1, AT_END)
    W(4, rec(2, 0, 1) + END, 0, REFUSED, 4)
    W(4, rec(2, 0, 0) + END, 1, AT_END)
    title("8 before 4, 7 before both in a walk")
    W(4, rec(3, 1, 1), 0, REFUSED, 8)
    W(4, rec(3, 0, 1), 0, REFUSED, 8)
    W(4, rec(3, 1, 1)[:5], 0, REFUSED, 7)
    W(4, rec(2, 1, 1)[:5], 0, REFUSED, 7)


def record_reader():
    title("the record reader")
    for kind, action in ((0, 0), (0, 63), (1, 0), (1, 63), (1, 5), (2, 0), (2, 1), (2, 62), (2, 63), (3, 0)):
        for before, less in ((0, 0), (100, 41), (0, LIMIT), (LIMIT, 0), (1, LIMIT - 1)):
            if kind == 3 and less:
                continue
            b = rec(kind, action, less)
            R(before, b, 0, kind, action, before + less)
            R(before, b + marked(20), 0, kind, action, before + less)
            R(before, b[:5], 7)
    R(0, b"", 7)
    title("8 of the record reader")
    for b in (rec(3, 1, 0), rec(3, 63, 0), rec(3, 0, 1), rec(3, 0, 2 ** 39), rec(3, 1, 1)):
        R(7, b, 8)
        R(7, b + marked(3), 8)
    title("each number of lost lines, read and written")
    for lost in range(64):
        R(7, rec(2, lost, 9), 0, 2, lost, 16)
        S(2, lost, 16, 7, marked(7))
    title("4 of the record reader")
    for kind in (0, 1, 2):
        R(1, rec(kind, 0, LIMIT), 4)
        R(LIMIT, rec(kind, 0, 1), 4)
        R(LIMIT + 1, rec(kind, 5, 0) + marked(3), 4)
        R(HUGE, rec(kind, 0, LIMIT), 4)
    R(LIMIT, END, 0, 3, 0, LIMIT)
    R(LIMIT + 1, END, 4)
    title("7 before 8 and 4, 8 before 4")
    R(LIMIT + 1, rec(0, 0, 0)[:5], 7)
    R(0, rec(2, 1, 0)[:5], 7)
    R(LIMIT, rec(3, 1, 1), 8)
    R(LIMIT + 1, rec(3, 1, 0), 8)
    R(LIMIT + 1, rec(3, 0, 1), 8)


def tap_reader():
    acts = (0, 0), (0, 63), (1, 5), (2, 0)
    title("the card's record reader: the stamp before, the counter and the stamp; a gap counts as 63")
    for before, counter, stamp in (
            (0, 0, 0), (0, 1, 1), (0, 2_147_483_648, 2_147_483_648), (0, LAST, 4_294_967_295),
            (1, 1, 1), (1, 2, 2), (1, LAST, 4_294_967_295), (1, 0, 4_294_967_296),
            (100, 100, 100), (100, 101, 101), (100, 99, 4_294_967_395),
            (LAST, LAST, 4_294_967_295), (LAST, 0, 4_294_967_296), (LAST, 1, 4_294_967_297), (LAST, LAST - 1, 8_589_934_590),
            (TURN, 0, 4_294_967_296), (TURN, 1, 4_294_967_297), (TURN, LAST, 8_589_934_591),
            (TURN + 1, 1, 4_294_967_297), (TURN + 1, 0, 8_589_934_592),
            (77_309_411_428, 100, 77_309_411_428), (77_309_411_428, 101, 77_309_411_429), (77_309_411_428, 99, 81_604_378_723),
            (1_095_216_660_479, LAST, 1_095_216_660_479), (1_095_216_660_479, 0, 1_095_216_660_480),
            (1_095_216_660_480, 0, 1_095_216_660_480), (1_095_216_660_480, LAST, 1_099_511_627_775),
            (LIMIT - 1, LAST - 1, 1_099_511_627_774), (LIMIT - 1, LAST, 1_099_511_627_775), (LIMIT, LAST, 1_099_511_627_775)):
        for kind, action in acts:
            K(before, tap(kind, action, counter), 0, kind, 63 if kind == 2 else action, stamp)
    title("an end of the card's")
    for before in (0, 1, LAST, TURN, LIMIT):
        K(before, TAP_END, 0, 3, 0, before)
    title("the rest behind a record of the card's")
    for size in (1, 2, 3, 15, 16, 17):
        K(LAST, tap(1, 63, 0) + marked(size), 0, 1, 63, TURN)
        K(LAST, tap(2, 0, LAST) + marked(size), 0, 2, 63, LAST)
        K(LAST, TAP_END + marked(size), 0, 3, 0, LAST)
        K(LAST, tap(2, 1, 0) + marked(size), 8)
        K(LIMIT, tap(0, 1, 0) + marked(size), 4)
    title("7 of the card's record reader, before 8 and 4")
    for b in (tap(0, 63, LAST), tap(1, 0, 0), tap(2, 0, 7), TAP_END, tap(2, 1, 0), tap(3, 1, 0), tap(3, 0, TURN // 2)):
        for size in range(5):
            K(7, b[:size], 7)
        K(LIMIT, b[:4], 7)
        K(LIMIT + 1, b[:4], 7)
    K(HUGE, b"", 7)
    title("8 of the card's record reader, before 4")
    for bit in range(38):
        K(7, (3 << 38 | 1 << bit).to_bytes(5, "big"), 8)
    for before in (0, LIMIT, LIMIT + 1, HUGE):
        for b in [tap(2, 1 << bit, before % TURN) for bit in range(6)] + [tap(2, 63, 0), tap(3, 1, 0), tap(3, 0, 1), tap(3, 63, LAST)]:
            K(before, b, 8)
    title("4 of the card's record reader")
    for before, counter in ((LIMIT, 0), (LIMIT, LAST - 1), (LIMIT, 2_147_483_648), (LIMIT - 1, 0), (LIMIT - 1, LAST - 2),
                            (1_095_216_660_481, 0), (LIMIT + 1, 0), (LIMIT + 1, 1), (LIMIT + 1, LAST), (LIMIT + TURN, LAST),
                            (2 ** 63, 0), (HUGE, LAST), (HUGE, 0), (HUGE, LAST - 1)):
        for kind, action in acts:
            K(before, tap(kind, action, counter), 4)
    for before in (LIMIT + 1, 2 ** 63, HUGE):
        K(before, TAP_END, 4)
    title("the card's records by a fixed draw")
    draw = drawer(20260104)
    for _ in range(60):
        before = draw(256) * TURN + (draw(TURN // 4) * 4 + draw(4) if draw(2) else (draw(7) - 3) % TURN)
        counter = (before + draw(7) - 3) % TURN if draw(2) else draw(TURN // 4) * 4 + draw(4)
        b = tap(*acts[draw(4)], counter) + marked(draw(3))
        K(before, b, *rules.read_tap(b, before))


def record_writer():
    title("the record writer")
    for kind, action in ((0, 0), (0, 63), (1, 0), (1, 63), (2, 0), (2, 5), (2, 63), (3, 0)):
        for stamp, before in ((0, 0), (141, 100), (100, 100), (LIMIT, 0), (LIMIT, LIMIT), (LIMIT, 1)):
            if kind == 3 and stamp != before:
                continue
            S(kind, action, stamp, before, marked(6))
            S(kind, action, stamp, before, marked(9))
            S(kind, action, stamp, before, marked(5), 9)
            S(kind, action, stamp, before, b"", 9)
    title("8 of the record writer: kind, end")
    for kind, action, stamp, before in (
            (4, 0, 0, 0), (5, 0, 0, 0), (255, 0, 0, 0), (3, 1, 0, 0), (3, 0, 1, 0), (3, 0, 0, 1),
            (3, 0, 100, 99),
            # before 3
            (4, 64, 0, 0), (3, 64, 0, 0),
            # before 4
            (4, 0, LIMIT + 1, 0), (4, 0, 0, LIMIT + 1), (3, 1, LIMIT + 1, LIMIT + 1), (3, 0, LIMIT + 1, LIMIT),
            # before 5
            (4, 0, 5, 6), (3, 0, 5, 6)):
        S(kind, action, stamp, before, marked(8), 8)
        S(kind, action, stamp, before, marked(5), 8)
    title("3 of the record writer, also for a number of lost lines")
    for kind in (0, 1, 2):
        S(kind, 64, 5, 5, marked(7), 3)
        S(kind, 255, 5, 5, marked(5), 3)
        S(kind, 64, LIMIT + 1, 5, marked(7), 3)
        S(kind, 64, 5, LIMIT + 1, marked(7), 3)
        S(kind, 64, 4, 5, marked(7), 3)
    title("4 of the record writer")
    for kind in (0, 1, 2):
        S(kind, 0, LIMIT + 1, 0, marked(7), 4)
        S(kind, 0, LIMIT + 1, LIMIT + 1, marked(7), 4)
        S(kind, 0, 0, LIMIT + 1, marked(7), 4)
        S(kind, 0, LIMIT + 1, HUGE, marked(7), 4)
        S(kind, 0, HUGE, LIMIT, marked(5), 4)
    S(3, 0, LIMIT + 1, LIMIT + 1, marked(7), 4)
    S(3, 0, LIMIT + 1, LIMIT + 1, marked(5), 4)
    title("5 of the record writer")
    for kind in (0, 1, 2):
        S(kind, 0, 99, 100, marked(7), 5)
        S(kind, 0, 0, LIMIT, marked(7), 5)
        S(kind, 0, 99, 100, marked(5), 5)


def property_reader():
    title("bytes of the property reader, for each of 64 lengths")
    P(b"", 7)
    for n in range(64):
        b = packed(prop(["?%d" % (k % 64) for k in range(min(n, 32))], (3,), n=n))
        P(b[:-1], 7)
        P(b[:1], 7)
        if n < 1 or n > 32:
            P(b, 1)
            P(b + b"\xff", 1)
    title("pad bits of the property reader")
    for n in (0, 1, 3, 10, 31, 32, 33, 63):
        p = prop(["!%d" % (k % 64) for k in range(min(n, 32))], n=n)
        b = packed(p)
        for bit in range(-(122 + 7 * n) % 8):
            P(b[:-1] + bytes([b[-1] | 1 << bit]), 8)
        P(b, 0 if 1 <= n <= 32 else 1, p if 1 <= n <= 32 else NONE)
    title("2 of the property reader")
    for lb, ub in ((0, 30), (0, 0), (31, 30), (10, 60_000_001), (2 ** 26 - 1, 2 ** 26 - 1)):
        P(packed(prop(["?0"], lb=lb, ub=ub)), 2)
        P(packed(prop(["?0"] * 32, lb=lb, ub=ub)) + b"\0", 2)
    title("7 before 8, 1 and 2; 8 before 1 and 2; 1 before 2")
    P(packed(prop(["?0"], lb=0))[:-1], 7)
    P(packed(prop(["?0"] * 32, n=33))[:-1], 7)
    P(packed(prop([], lb=0)), 1)
    P(packed(prop(["?0"] * 32, n=33, lb=0)), 1)
    for p in (prop(["?0"], lb=0), prop([]), prop(["?0"] * 32, n=33), prop([], lb=31)):
        b = packed(p)
        P(b[:-1] + bytes([b[-1] | 1]), 8)
    P(b"\xff" * 70, 7)
    P(b"\xff" * 71, 8)


def judge():
    title("the interface for C")
    version()
    version()
    title("the judge: the property first")
    b = packed(B)
    run = trace(("?0", 100), ("!2", 161))
    padded = b[:-1] + bytes([b[-1] | 1])
    J(b, END, 0, 0, 0)
    J(b, run + END, 0, 2, 2)
    J(b, run + trace(("gap", 0)) + END, 0, 3, 3)
    for lost in (1, 5, 62, 63):
        J(b, run + rec(2, lost, 0) + END, 0, 3, 3)
        J(b, rec(2, lost, 0) + trace(("?0", 100), ("!2", 160)) + END, 0, 1, 3)
    for bad, want in ((b"", 7), (b[:-1], 7), (padded, 8), (packed(prop([])), 1), (packed(prop(["?0"] * 32, n=33)), 1),
                      (packed(prop(["?0"], lb=0)), 2), (packed(prop(["?0"], ub=60_000_001)), 2), (b + b"\0", 8)):
        J(bad, run + END, want)
        J(bad, b"", want)
        J(bad, rec(3, 1, 0), want)
        J(bad, run + END + b"\0", want)
    title("a property refused, with bytes behind it")
    J(packed(prop([])) + b"\0", END, 1)
    J(packed(prop(["?0"], lb=0)) + b"\0", END, 2)
    title("the judge: the trace")
    J(b, b"", 7)
    J(b, run, 7)
    J(b, run + END[:5], 7)
    J(b, run + END + b"\0", 8)
    J(b, END + END, 8)
    J(b, run + rec(3, 0, 1), 8)
    J(b, rec(0, 0, LIMIT) + rec(1, 0, 1) + END, 4)
    J(b, rec(0, 0, LIMIT) + rec(1, 1, 0) + END, 0, 0, 2)
    title("the judge: the first refusal met")
    J(b, rec(0, 0, LIMIT) + rec(1, 0, 1), 4)
    J(b, rec(0, 0, LIMIT) + rec(3, 1, 1) + END + b"\0", 8)
    J(b, rec(0, 0, LIMIT) + rec(2, 1, 1) + END + b"\0", 4)
    J(b, rec(1, 0, 1) + rec(0, 0, LIMIT) + rec(3, 1, 0), 4)
    # 16,383 records have no room here: tests/edges.c has them
    title("refusal 9 of the one number, behind 16,383 records")
    J(b, rec(2, 0, 0) * 16384 + END, 0, 3, 16384)


def entry(act, name):
    """An entry, of any name."""
    return bytes([int(act[1:]) + 128 * (act[0] == "!"), len(name)]) + name


def names():
    title("names: the site's list first, the release's second, none")
    site = entry("?0", b"ours") + entry("!2", b"old-tile")
    release = entry("?0", b"switch") + entry("?2", b"wanted") + entry("!0", b"ok") + entry("!63", b"#~!")
    N("?0", site, release, 0, b"ours")
    N("!0", site, release, 0, b"ok")
    N("?2", site, release, 0, b"wanted")
    N("!2", site, release, 0, b"old-tile")
    N("!63", site, release, 0, b"#~!")
    N("?63", site, release)
    N("?0", release, site, 0, b"switch")
    for act in ("?0", "!0", "?63", "!63"):
        N(act, b"", b"")
        N(act, site, b"", 0, b"ours" if act == "?0" else b"")
        N(act, b"", release, 0, {"?0": b"switch", "!0": b"ok", "!63": b"#~!"}.get(act, b""))
    title("names: the action first, then the site's list, then the release's")
    broken = entry("?5", b"")
    for act in ("?64", "!64", "?127", "!128", "!255"):
        N(act, site, release, 3)
        N(act, broken, broken, 3)
    N("?63", broken, broken, 11)
    N("?0", broken, release, 11)
    N("?0", site, broken, 12)
    title("names: the lists are checked whole, also behind the entry that is found")
    for bad in (b"\x01", entry("?1", b"x")[:-1], b"\x01\x02x", entry("?1", b""), entry("?1", b"x" * 41), b"\x01\xffx", entry("?1", b"a b"), entry("?1", b"\x20"),
                entry("?1", b"\x7f"), entry("?1", b"x\x80"), entry("?1", b"x\0"), entry("?0", b"again"), entry("?1", b"x") * 2, entry("?2", b"x") + entry("?1", b"x"),
                entry("!1", b"x") + entry("?2", b"x"), b"\x40\x01x", b"\x7f\x01x", b"\xc0\x01x", b"\xff\x01x", entry("!0", b"x") + b"\xc1\x01x"):
        N("?0", entry("?0", b"ours") + bad, release, 11)
        N("?0", site, entry("?0", b"switch") + bad, 12)
        if bad != entry("?0", b"again"):
            N("?0", bad, b"", 11)
            N("?9", b"", bad, 12)
    title("names: each byte and each length that a name may have")
    for b in (32, 33, 126, 127):
        N("!7", b"", entry("!7", bytes([b])), 0 if 33 <= b <= 126 else 12, bytes([b]) if 33 <= b <= 126 else b"")
    for size in (1, 2, 39, 40, 41, 255):
        N("!7", entry("!7", b"n" * size), b"", 0 if size <= 40 else 11, b"n" * size if size <= 40 else b"")
    title("names: all actions, and the longest list")
    every = b"".join(entry("%s%d" % (way, k), b"name-%d" % k) for way in "?!" for k in range(64))
    for act in ("?63", "!0"):
        N(act, every, b"", 0, b"name-" + act[1:].encode())
    long = b"".join(entry("%s%d" % (way, k), b"n" * 40) for way in "?!" for k in range(64))
    N("!63", b"", long, 0, b"n" * 40)


def pairs(n):
    """?0 and !1, each pair with one order."""
    return [line for k in range(n) for line in (("?0", 100 * k), ("!1", 100 * k + 61))]


def in_order(n):
    """That order, with its moments."""
    return [place for k in range(n) for place in ((2 * k + 1, 100 * k + 10), (2 * k + 2, 100 * k + 31))]


def orders():
    title("orders: document 01, cases 1 to 11 and 13, of which document 02 makes 8 and 9 certain")
    Y(B, [])
    Y(B, [("?0", 100), ("!2", 119)], 0, 0, 0, [(2, 89), (1, 110)])
    Y(B, [("?0", 100), ("!2", 120)], 0, 1, 2, [(1, 110), (2, 110)], [(2, 90), (1, 110)])
    Y(B, [("?0", 100), ("!2", 160)], 0, 1, 2, [(1, 110), (2, 130)], [(2, 130), (1, 130)])
    Y(B, [("?0", 100), ("!2", 161)], 0, 2, 2, [(1, 110), (2, 131)])
    Y(B, [("?0", 100), ("!2", 100)], 0, 0, 0, [(2, 70), (1, 110)])
    Y(B, [("!2", 100), ("?0", 100)], 0, 0, 0, [(1, 70), (2, 110)])
    Y(B, [("?0", 100), ("!1", 161)], 0, 0, 0, [(1, 110), (2, 131)])
    Y(B, [("?0", 100), ("?1", 101), ("!2", 161)], 0, 2, 3, [(1, 110), (3, 131), (2, 131)])
    Y(B, [("?0", 100), ("?1", 100), ("!2", 161)], 0, 2, 3, [(1, 110), (2, 110), (3, 131)])
    Y(B, [("?0", 100), ("!1", 130), ("!2", 161)], 0, 1, 3, [(2, 100), (1, 110), (3, 131)], [(1, 110), (2, 110), (3, 131)])
    Y(B, [("?0", 100), ("!2", 120), ("!2", 161)], 0, 2, 3, [(2, 90), (1, 110), (3, 131)])
    Y(prop(["?0", "?0"], ()), [("?0", 100), ("?0", 101), ("?0", 102), ("!5", 170)], 0, 2, 4, [(1, 110), (2, 111), (3, 112), (4, 140)])
    title("orders: the line after which the verdict was first told")
    Y(B, [("?0", 100), ("!2", 120), ("!1", 200)], 0, 1, 2, [(1, 110), (2, 110), (3, 170)], [(2, 90), (1, 110), (3, 170)])
    Y(B, [("?0", 100), ("!2", 161), ("?1", 161)], 0, 2, 2, [(1, 110), (2, 131), (3, 171)])
    Y(B, [("!1", 50), ("?0", 100), ("!2", 161), ("?0", 161)], 0, 2, 3, [(1, 20), (2, 110), (3, 131), (4, 171)])
    title("orders: the output first, also where an input first would do")
    Y(B, [("?1", 100), ("!1", 120)], 0, 0, 0, [(2, 90), (1, 110)])
    Y(B, [("?1", 100), ("?0", 100), ("!2", 160)], 0, 1, 3, [(1, 110), (2, 110), (3, 130)], [(3, 130), (1, 130), (2, 130)])
    Y(B, [("?0", 100), ("?1", 100), ("!2", 160)], 0, 1, 3, [(1, 110), (3, 130), (2, 130)], [(3, 130), (1, 130), (2, 130)])
    Y(prop(["!3"]), [("?1", 100), ("!3", 130), ("!2", 130)], 0, 2, 3, [(2, 100), (3, 100), (1, 110)])
    title("orders: moments below 0, and the highest")
    Y(B, [("!1", 0)], 0, 0, 0, [(1, -30)])
    Y(B, [("!1", 29), ("!1", 30), ("!1", 31)], 0, 0, 0, [(1, -1), (2, 0), (3, 1)])
    Y(B, [("?0", 0), ("!2", 20)], 0, 1, 2, [(1, 10), (2, 10)], [(2, -10), (1, 10)])
    wide = prop(["?0"], (), 60_000_000, 60_000_000)
    Y(wide, [("!1", 0), ("?0", 0), ("!1", 0)], 0, 0, 0, [(1, -60_000_000), (3, -60_000_000), (2, 60_000_000)])
    Y(wide, [("?0", LIMIT), ("!1", LIMIT)], 0, 0, 0, [(2, 1_099_451_627_775), (1, 1_099_571_627_775)])
    title("orders: lists longer than the run, of different lengths")
    for sizes in ((2, 2, 2, 2), (5, 3, 4, 2), (2, 4, 3, 5), (513, HUGE, 512, 600)):
        Y(B, [("?0", 0), ("!2", 20)], 0, 1, 2, [(1, 10), (2, 10)], [(2, -10), (1, 10)], sizes)
    Y(B, [("?0", 100), ("!2", 161)], 0, 2, 2, [(1, 110), (2, 131)], (), (3, 4, 5, 6))
    title("orders: refusals 1, 2 and 3 of a property, before all others")
    for p, want in ((prop([]), 1), (prop(["?0"] * 32, n=33), 1), (prop(["?0"], lb=0), 2), (prop(["?0"], ub=60_000_001), 2),
                    (prop(["?64"]), 3), (prop(["?0", "!64"]), 3)):
        Y(p, [("?0", 100)], want)
    Y(prop([]), [("?64", LIMIT + 1)], 1, sizes=(0, 0, 0, 0))
    Y(prop(["?0"], lb=0), [("?0", 5), ("?0", 4)], 2)
    title("orders: refusals 3, 4, 5 and 6 of the first line that is refused")
    for act in ("?64", "!64", "!255"):
        Y(B, [("?0", 100), (act, 100)], 3)
    Y(B, [("?0", LIMIT + 1)], 4)
    Y(B, [("?0", 100), ("!2", HUGE)], 4)
    Y(B, [("?0", 100), ("!2", 99)], 5)
    Y(B, [("!1", LIMIT), ("?0", 0)], 5)
    Y(B, [("?0", 0)] * 64 + [("?0", 60)], 6)
    Y(B, [("?0", 0)] * 64 + [("?0", 61)], 0, 0, 0, [(k, 10) for k in range(1, 65)] + [(65, 71)])
    Y(B, [("?0", 0)] * 64 + [("!1", 0)], 0, 0, 0, [(65, -30)] + [(k, 10) for k in range(1, 65)])
    title("orders: 3 before 4 and 5 of one line, and an earlier line first")
    Y(B, [("?0", 100), ("?64", LIMIT + 1)], 3)
    Y(B, [("?0", 100), ("?64", 99)], 3)
    Y(B, [("?0", 100), ("!1", 99), ("?64", 100)], 5)
    Y(B, [("?0", 100), ("!1", LIMIT + 1), ("!1", 99)], 4)
    Y(B, [("?0", 0)] * 65 + [("?64", 0)], 6, sizes=(0, 0, 0, 0))
    title("orders: 9 for each list, behind the lines' refusals")
    for sizes in ((1, 2, 2, 2), (2, 1, 2, 2), (2, 2, 1, 2), (2, 2, 2, 1), (0, 0, 0, 0)):
        Y(B, [("?0", 100), ("!2", 160)], 9, sizes=sizes)
    Y(B, [("?0", 100), ("!2", 119)], 9, sizes=(2, 2, 0, 2))
    Y(B, [("?0", 100), ("!2", 161)], 9, sizes=(2, 2, 2, 1))
    Y(B, [], sizes=(0, 0, 0, 0))
    Y(B, [("?0", 100), ("?64", 100)], 3, sizes=(0, 0, 0, 0))
    title("orders: 256 lines, and 13 for one more, before 9 and behind the lines' refusals")
    Y(B, pairs(127) + [("?0", 12_700), ("!2", 12_760)], 0, 1, 256, in_order(127) + [(255, 12_710), (256, 12_730)],
      in_order(127) + [(256, 12_730), (255, 12_730)], [256] * 4)
    Y(B, pairs(128) + [("?0", 12_861)], 13)
    Y(B, pairs(128) + [("?0", 12_861)], 13, sizes=(256, 0, 0, 257))
    Y(B, pairs(96) + [("?0", 10_000)] * 65, 6)
    Y(B, pairs(128) + [("?64", 12_861)], 3)
    title("orders: the session that stands is not touched")
    F(B)
    L("?0", 100)
    Y(B, [("?0", 200), ("!2", 261)], 0, 2, 2, [(1, 210), (2, 231)])
    L("!2", 160, 0, 1)
    Y(B, [("?0", 200), ("!2", 199)], 5)
    L("!2", 161, 0, 2)


def build():
    for part in (at_the_start, properties, cases, drawn, lines, room, records_of_no_calls, walks, record_reader, record_writer,
                 property_reader, judge, names, tap_reader, orders):
        part()


def check(text):
    c = Console(text)
    wrong = 0
    for number, (name, _, checker, what) in enumerate(CALLS):
        at = c.at
        try:
            checker(c)
        except (Wrong, ValueError, IndexError) as error:
            wrong += 1
            print("calls: FAILED: call %d, %s, '%s', at line %d: %s" % (number + 1, name or "remember", what, at + 1, error))
            if wrong == 10 or not isinstance(error, Wrong):
                return False
            # to the next answer
            letters = set("FLGWJPQRSVTNKYv?")
            while c.at < len(c.lines) and c.lines[c.at][:2].strip() not in letters:
                c.at += 1
    if c.lines[c.at:] != [""]:
        print("calls: FAILED: printed behind the last answer: %s" % c.lines[c.at:c.at + 3])
        return False
    return wrong == 0


def main():
    build()
    script = b"".join(call[1] for call in CALLS) + b"\0"
    stdin, stdout = (os.path.join(TOP, "crates/calls", part) for part in ("stdin", "stdout"))
    if sys.argv[1:2] == ["--write"]:
        run = subprocess.run(sys.argv[2:] or logs.console_command(), input=script, stdout=subprocess.PIPE, check=True)
        if not check(run.stdout):
            sys.exit(1)
        for path, data in ((stdin, script), (stdout, run.stdout)):
            with open(path, "wb") as out:
                out.write(data)
    else:
        with open(stdin, "rb") as given:
            if given.read() != script:
                sys.exit("calls: FAILED: crates/calls/stdin is not the script")
        with open(stdout, "rb") as given:
            if not check(given.read()):
                sys.exit(1)
    calls = [call for call in CALLS if call[0]]
    print("calls: %d calls in %d bytes answered as expected:" % (len(calls), len(script)))
    for name in "FLGWJPQRSVTNKYv":
        print("  %s %s" % (name, ", ".join("%s %d" % ("taken" if want == 0 else "refusal %d" % want, n)
                                           for (of, want), n in sorted(kv for kv in COUNTS.items() if kv[0][0] == name))))
    print("  sessions held against all orders of their run: %d" % LISTED[0])


if __name__ == "__main__":
    main()
