"""The rules (docs/RULES.md) read once more, for the Python tests: packed forms, explanations, verdicts, room, gaps, the listing
of ordinary records and of the tap card's, lists of names and the listing with names, and why a run has its verdict.

It shares nothing with the crates, the tools or the C tests. A verdict is found in two ways: from all explanations of a run,
listed one by one, and by one step after the other over cuts, which long runs need."""
import collections
import functools
import math

LIMIT = 2 ** 40 - 1
HIGHEST_BOUND = 60_000_000
MOST_ACTIONS = 32
MOST_OPEN = 64
MOST_LOST = 63  # of a gap's number of lost lines: more, or unknown
TURN = 2 ** 32  # the tap card's counter returns to 0 there
INPUT, OUTPUT, GAP, END = range(4)
CLEAR, SUSPECT, CERTAIN, BLIND = range(4)
WORDS = ["clear", "suspect", "certain", "blind"]

# An action is (is it an output, its number), a line (is it an output, its action's number, its stamp). `allowed` has bit k for
# output k.
Property = collections.namedtuple("Property", "sequence allowed lb ub")


class Contradiction(Exception):
    """Two ways to the same answer differ: one of them is wrong here."""


def agree(what, one, other):
    if one != other:
        raise Contradiction("%s: %s by one way, %s by the other" % (what, one, other))


# ---- packed forms


def bits_to_bytes(bits):
    """Zero bits to a full byte."""
    bits += "0" * (-len(bits) % 8)
    return bytes(int(bits[i:i + 8], 2) for i in range(0, len(bits), 8))


def pack_property(p, n=None):
    """The length field says n where that is given, and places without an action are packed as ?0."""
    n = len(p.sequence) if n is None else n
    bits = format(n, "06b") + format(p.lb, "026b") + format(p.ub, "026b")
    for out, act in (p.sequence + [(0, 0)] * n)[:n]:
        bits += "01"[out] + format(act, "06b")
    return bits_to_bytes(bits + "".join(str(p.allowed >> k & 1) for k in range(64)))


def pack_record(kind, action, less):
    return bytes([kind << 6 | action]) + less.to_bytes(5, "big")


def pack_tap(kind, action, counter):
    return bytes([kind << 6 | action]) + counter.to_bytes(4, "big")


END_RECORD = pack_record(END, 0, 0)
TAP_END = pack_tap(END, 0, 0)


def read_property(data):
    """Refusal, property and the number of its bytes."""
    if not data:
        return 7, None, 0
    bits = "".join(format(byte, "08b") for byte in data[:71])
    n = int(bits[:6], 2)
    used = 122 + 7 * n
    size = (used + 7) // 8
    if len(data) < size:
        return 7, None, 0
    if "1" in bits[used:8 * size]:
        return 8, None, 0
    if not 1 <= n <= MOST_ACTIONS:
        return 1, None, 0
    lb, ub = int(bits[6:32], 2), int(bits[32:58], 2)
    if not 1 <= lb <= ub <= HIGHEST_BOUND:
        return 2, None, 0
    sequence = [(bits[at] == "1", int(bits[at + 1:at + 7], 2)) for at in range(58, 58 + 7 * n, 7)]
    allowed = int(bits[58 + 7 * n:used][::-1], 2)
    return 0, Property(sequence, allowed, lb, ub), size


def read_form(data, before, size, less):
    """Refusal, kind, action (of a gap its number of lost lines) and stamp of the record of `size` bytes at the front; `less` finds
    how far its stamp is behind the one before."""
    if len(data) < size:
        return 7, 0, 0, 0
    kind, action, field = data[0] >> 6, data[0] & 63, int.from_bytes(data[1:size], "big")
    if kind == END and (action or field):
        return 8, 0, 0, 0
    stamp = before if kind == END else before + less(field)
    if stamp > LIMIT:
        return 4, 0, 0, 0
    return 0, kind, action, stamp


def read_record(data, before):
    return read_form(data, before, 6, lambda field: field)


def read_tap(data, before):
    """A record of the tap card, whose field is a counter, and whose gaps have action 0 and count as 63."""
    if len(data) >= 5 and data[0] >> 6 == GAP and data[0] & 63:
        return 8, 0, 0, 0
    refusal, kind, action, stamp = read_form(data, before, 5, lambda counter: (counter - before) % TURN)
    return refusal, kind, action if refusal or kind != GAP else MOST_LOST, stamp


# ---- what could have happened at the node, listed

MOST_LISTED = 5000


def orders(p, ins, outs, moment, so_far):
    """Orders with moments that never fall, each line's own in its range and as early as it can be."""
    if not ins and not outs:
        yield so_far
    if ins:
        t = ins[0][2]
        m = t + p.lb if moment is None else max(moment, t + p.lb)
        if m <= t + p.ub:
            yield from orders(p, ins[1:], outs, m, so_far + [ins[0]])
    if outs:
        t = outs[0][2]
        m = t - p.ub if moment is None else max(moment, t - p.ub)
        if m <= t - p.lb:
            yield from orders(p, ins, outs[1:], m, so_far + [outs[0]])


def explanations(p, run, most=MOST_LISTED):
    """All explanations of a run, or None where its lines have too many orders."""
    ins = [line for line in run if not line[0]]
    outs = [line for line in run if line[0]]
    # a run of one channel has one order, however long it is
    if min(len(ins), len(outs)) > 12 or math.comb(len(run), len(ins)) > most or len(run) > 400:
        return None
    return list(orders(p, ins, outs, None, []))


def actions(order):
    return [(bool(out), act) for out, act, _ in order]


def outside(p, out, act):
    return bool(out) and not p.allowed >> act & 1


def ends_of_sequence(p, acts):
    """Where in these actions the sequence has just occurred."""
    n = len(p.sequence)
    return [i + n for i in range(len(acts) - n + 1) if acts[i:i + n] == p.sequence]


def breaks(p, order):
    """Somewhere the sequence, then inputs or none, then an output outside the set."""
    acts = actions(order)
    outputs = ([act for act in acts[end:] if act[0]] for end in ends_of_sequence(p, acts))
    return any(later and outside(p, *later[0]) for later in outputs)


def armed(p, acts):
    """The sequence has occurred, and behind it only inputs."""
    return any(not any(out for out, _ in acts[end:]) for end in ends_of_sequence(p, acts))


def longest_beginning(sequence, acts):
    """The length of the longest beginning of the sequence that ends these actions."""
    return max(k for k in range(min(len(sequence), len(acts)) + 1) if acts[len(acts) - k:] == sequence[:k])


def listed_verdict(p, run, most=MOST_LISTED):
    """None where there are too many orders."""
    listed = explanations(p, run, most)
    if listed is None:
        return None
    seen = {breaks(p, order) for order in listed}
    agree("a run has an explanation", bool(seen), True)
    return CLEAR if seen == {False} else CERTAIN if seen == {True} else SUSPECT


def listed_cuts(p, run, count):
    """The cuts before the first of the last `count` inputs and behind each, all outputs behind the cut, as in a Watch."""
    listed = explanations(p, run)
    if listed is None:
        return None
    cuts = [[set(), False] for _ in range(count + 1)]
    for order in listed:
        for cut in range(count, -1, -1):
            ahead = count - cut
            if ahead and order[len(order) - ahead][0]:
                break
            behind = order[:len(order) - ahead]
            if breaks(p, behind):
                cuts[cut][1] = True
            else:
                cuts[cut][0].add((longest_beginning(p.sequence, actions(behind)), armed(p, actions(behind))))
    return [tuple(cut) for cut in cuts]


# ---- room, gaps and one step over cuts

# `held` has a stamp and an action's number for each open input; `cuts`, one before each of them and one after all, the set of
# matched lengths, each with whether it is armed, and whether broken is among them.
Watch = collections.namedtuple("Watch", "blind latest held cuts")

FRESH = Watch(False, 0, [], [({(0, False)}, False)])


def blind_at(stamp):
    return Watch(True, stamp, [], [(set(), False)])


def standing(w):
    lengths, broken = w.cuts[-1]
    return BLIND if w.blind else CLEAR if not broken else SUSPECT if lengths else CERTAIN


@functools.lru_cache(maxsize=10_000)
def next_length(sequence, k, action):
    """The length matched after one action more, from k."""
    return longest_beginning(sequence, sequence[:k] + (action,))


def moved(p, cut, out, act):
    """A cut after one action more. Broken stays broken; a whole match arms, an output disarms."""
    sequence, lengths, broken = tuple(p.sequence), set(), cut[1]
    for k, is_armed in cut[0]:
        if is_armed and outside(p, out, act):
            broken = True
        else:
            k = next_length(sequence, k, (bool(out), act))
            lengths.add((k, k == len(p.sequence) or is_armed and not out))
    return lengths, broken


def begins_run(p, w, stamp):
    return w.blind and stamp > w.latest + 2 * p.ub


def after_line(p, w, out, act, stamp):
    if begins_run(p, w, stamp):
        w = FRESH
    elif w.blind:
        return blind_at(stamp)
    closed = sum(stamp > at + 2 * p.ub for at, _ in w.held)
    held, cuts = w.held[closed:], w.cuts[closed:]
    if out:
        after = [moved(p, cuts[0], True, act)]
        for (at, number), cut in zip(held, cuts[1:]):
            last = moved(p, after[-1], False, number)
            here = moved(p, cut, True, act) if stamp - at >= 2 * p.lb else (set(), False)
            after.append((last[0] | here[0], last[1] or here[1]))
        cuts = after
    else:
        held, cuts = held + [(stamp, act)], cuts + [moved(p, cuts[-1], False, act)]
    return Watch(False, stamp, held, cuts)


def after_record(p, w, kind, action, stamp):
    return blind_at(stamp) if kind == GAP else after_line(p, w, kind == OUTPUT, action, stamp)


def run_after(p, w, run, kind, action, stamp):
    """The lines of the run that is open after a record, None where there is none or they are not known."""
    if kind == GAP or w.blind and not begins_run(p, w, stamp):
        return None
    if w.blind:
        run = []
    return None if run is None else run + [(kind == OUTPUT, action, stamp)]


# ---- the listing


def listing(data, most=MOST_LISTED, size=6, read=read_record):
    """The lines that the printing program prints for these bytes, and how many verdicts were found in both ways. `size` and `read`
    are those of a record."""
    lines, both = ["line kind action stamp verdict open"], 0
    refusal, p, at = read_property(data)
    if refusal:
        return lines + ["stop 0 %d" % refusal], both
    w, run, taken = FRESH, [], 0
    while True:
        refusal, kind, action, stamp = read(data[at:at + size], w.latest)
        if not refusal and kind == END:
            return lines + ["end %d" % taken], both
        if not refusal:
            before, w, run = w, after_record(p, w, kind, action, stamp), run_after(p, w, run, kind, action, stamp)
            if len(w.held) > MOST_OPEN:
                refusal, w = 6, before
        if refusal:
            return lines + ["stop %d %d" % (taken, refusal)], both
        verdict = standing(w)
        listed = None if run is None else listed_verdict(p, run, most)
        if listed is not None:
            both += 1
            agree("a verdict", listed, verdict)
            agree("the number open", sum(not out and at_ + 2 * p.ub >= stamp for out, _, at_ in run), len(w.held))
        taken += 1
        at += size
        lines.append("%d %s %d %d %s %d" % (taken, "IOG"[kind], action, stamp, WORDS[verdict], len(w.held)))


def tap_listing(data, most=MOST_LISTED):
    """The same for the program that lists the tap card's records."""
    return listing(data, most, 5, read_tap)


# ---- names

LONGEST_LIST = 8192
LONGEST_NAME = 40
SITE, RELEASE = 11, 12  # the refusals of a broken list


def pack_names(named):
    """The packed list of a dictionary from actions to names, each of these bytes."""
    packed = b""
    for out, act in sorted(named):
        name = named[out, act]
        packed += bytes([out << 7 | act, len(name)]) + name
    return packed


def announced(packed):
    return len(packed).to_bytes(2, "big") + packed


def names(packed):
    """The dictionary of a packed list, None where that is broken."""
    if len(packed) > LONGEST_LIST:
        return None
    named, rest, firsts = {}, packed, []
    while rest:
        if len(rest) < 2:
            return None
        first, size, name = rest[0], rest[1], rest[2:2 + rest[1]]
        if not 1 <= size <= LONGEST_NAME or len(name) != size:
            return None
        bits = format(first, "08b")
        if bits[1] != "0" or any(earlier >= first for earlier in firsts):
            return None
        if [byte for byte in name if byte < 33 or byte > 126]:
            return None
        firsts.append(first)
        named[bits[0] == "1", int(bits[2:], 2)] = name
        rest = rest[2 + size:]
    return named


def read_lists(data):
    """Refusal, the dictionaries of both lists and the number of bytes read."""
    found, at = [], 0
    for broken in (SITE, RELEASE):
        size = int.from_bytes(data[at:at + 2], "big")
        if len(data) < at + 2 or len(data) < at + 2 + size:
            return 7, None, len(data)
        found.append(names(data[at + 2:at + 2 + size]))
        at += 2 + size
        if found[-1] is None:
            return broken, None, at
    return 0, found, at


def name_of(found, kind, action):
    """Of the first list that has one."""
    for named in found:
        if kind != GAP and (kind == OUTPUT, action) in named:
            return named[kind == OUTPUT, action].decode()
    return "-"


def named_listing(data, most=MOST_LISTED):
    """The lines that the program with names prints, and how many verdicts were found in both ways: the listing of what stands
    behind the lists, with one field more."""
    header = "line kind action name stamp verdict open"
    refusal, found, at = read_lists(data)
    if refusal:
        return [header, "stop 0 %d" % refusal], 0
    lines, both = listing(data[at:], most)
    named = [header]
    for line in lines[1:-1]:
        taken, kind, action, *others = line.split()
        name = name_of(found, "IOG".index(kind), int(action))
        named.append(" ".join([taken, kind, action, name] + others))
    return named + lines[-1:], both


# ---- why

MOST_LINES = 256


def earliest(p, before, line):
    """The earliest moment of a line behind one at `before`, None if it comes too late."""
    out, _, stamp = line
    low, high = (stamp - p.ub, stamp - p.lb) if out else (stamp + p.lb, stamp + p.ub)
    moment = low if before is None else max(before, low)
    return moment if moment <= high else None


def all_orders(p, run, ins, outs, so_far):
    """All explanations as numbers of lines with their earliest moments. Of two the one comes first that has an output where they
    first differ."""
    if not ins and not outs:
        yield so_far
    for lines, left in ((outs, (ins, outs[1:])), (ins, (ins[1:], outs))):
        if lines:
            moment = earliest(p, so_far[-1][1] if so_far else None, run[lines[0] - 1])
            if moment is not None:
                yield from all_orders(p, run, *left, so_far + [(lines[0], moment)])


def numbers(run, out):
    return [number for number, line in enumerate(run, 1) if bool(line[0]) == out]


def orders_listed(p, run, most):
    """The first explanation that breaks and the first that does not, each None if there is none; None where there are too many."""
    ins, outs = numbers(run, False), numbers(run, True)
    if math.comb(len(run), len(ins)) > most or len(run) > 400:
        return None
    first = {}
    for order in all_orders(p, run, ins, outs, []):
        first.setdefault(breaks(p, [run[number - 1] for number, _ in order]), order)
    return first.get(True), first.get(False)


def orders_stepped(p, run):
    """The same by what can still be reached from the place between i inputs and q outputs, as two lines at a time decide it."""
    ins, outs = numbers(run, False), numbers(run, True)

    def stamp(number):
        return run[number - 1][2]

    def possible(i, q):
        return ((i == 0 or q == len(outs) or stamp(outs[q]) - stamp(ins[i - 1]) >= 2 * p.lb)
                and (q == 0 or i == len(ins) or stamp(outs[q - 1]) - stamp(ins[i]) <= 2 * p.ub))

    def next_places(i, q, state):
        """The output first."""
        for number, place in ((outs[q] if q < len(outs) else None, (i, q + 1)), (ins[i] if i < len(ins) else None, (i + 1, q))):
            if number is not None and possible(*place):
                lengths, broken = moved(p, (set(), True) if state is None else ({state}, False), *run[number - 1][:2])
                yield number, (*place, None if broken else lengths.pop())

    @functools.lru_cache(None)
    def ends(i, q, state):
        """Whether the order is broken in the end: the answers that can be reached. A state of None is broken."""
        if i == len(ins) and q == len(outs):
            return frozenset([state is None])
        return frozenset().union(*(ends(*place) for _, place in next_places(i, q, state)))

    def first(broken):
        place, order = (0, 0, (0, False)), []
        if broken not in ends(*place):
            return None
        while len(order) < len(run):
            number, place = next((number, there) for number, there in next_places(*place) if broken in ends(*there))
            order.append((number, earliest(p, order[-1][1] if order else None, run[number - 1])))
        return order

    return first(True), first(False)


def reasons(p, run, most=MOST_LISTED):
    """Verdict, the line after which it was first reached, its orders, and whether these were found in both ways."""
    w, verdict, line = FRESH, CLEAR, 0
    for number, (out, act, stamp) in enumerate(run, 1):
        w = after_line(p, w, out, act, stamp)
        if standing(w) != verdict:
            verdict, line = standing(w), number
    found, listed = orders_stepped(p, run), orders_listed(p, run, most)
    agree("the first orders", found if listed is None else listed, found)
    breaking, other = found
    agree("the orders of a verdict", verdict, CLEAR if breaking is None else CERTAIN if other is None else SUSPECT)
    return verdict, line, [order for order in found if order is not None], listed is not None


def open_run(data):
    """Refusal, property, the run that is open at the end record (None while blind) and the number of bytes read."""
    refusal, p, at = read_property(data)
    if refusal:
        return refusal, None, None, len(data) if refusal == 7 else (122 + 7 * (data[0] >> 2) + 7) // 8
    w, run = FRESH, []
    while True:
        refusal, kind, action, stamp = read_record(data[at:at + 6], w.latest)
        at = min(at + 6, len(data))
        if refusal:
            return refusal, None, None, at
        if kind == END:
            return 0, p, run, at
        w, run = after_record(p, w, kind, action, stamp), run_after(p, w, run, kind, action, stamp)
        if len(w.held) > MOST_OPEN:
            return 6, None, None, at


def shown_why(data, most=MOST_LISTED):
    """The lines that the program prints that shows why, whether its orders were found in both ways, and how many bytes it reads."""
    refusal, p, run, at = open_run(data)
    if not refusal and run is not None and len(run) > MOST_LINES:
        refusal = 13
    if refusal:
        return ["stop %d" % refusal], False, at
    if run is None:
        return ["blind"], False, at
    verdict, line, orders_found, both = reasons(p, run, most)
    lines = ["%s %d" % (WORDS[verdict], line)]
    return lines + ["%d %d" % placed for order in orders_found for placed in order], both, at
