#!/usr/bin/env python3
"""Lists of names and logs, whole and damaged, through the program that lists with names, compared line for line with
tests/rules.py, and how far it has read its input: the fixed cases below, whose last lines are written down here, and random ones.

    tests/names.py COUNT SEED [COMMAND..]     exits 1 at a difference; without COMMAND the one that tools/listing --names runs"""
import random
import sys

sys.dont_write_bytecode = True
import logs  # noqa: E402
import rules  # noqa: E402
from rules import END, END_RECORD, GAP, INPUT, LIMIT, OUTPUT, announced, pack_names, pack_record  # noqa: E402

BEHIND = b'not to be read'


# ---- the program, run and compared

def size_read(data, want):
    """How many bytes the program reads: none behind a list that it refuses."""
    refusal, _, at = rules.read_lists(data)
    return at if refusal else at + logs.size_read(data[at:], want)


class Runs(logs.Runs):
    names = 0

    def compare(self, what, data, last=None):
        want = super().compare(what, data, last)
        self.names += sum(line.split()[3] != '-' for line in want[1:-1])
        return want


# ---- fixed cases

FORM = rules.pack_property(rules.Property([(False, 0)], 2, 10, 30))
LOG = (FORM + pack_record(INPUT, 0, 100) + pack_record(OUTPUT, 0, 61) + pack_record(GAP, 7, 10) + pack_record(INPUT, 63, 70)
       + pack_record(OUTPUT, 63, 0) + END_RECORD)
GOOD = pack_names({(False, 0): b'in', (True, 0): b'out', (True, 63): b'last'})


def raw(*entries):
    """A list of entries as they are given: first byte, length byte, name."""
    return b''.join(bytes([first, size]) + name for first, size, name in entries)


def broken_lists():
    """Each way to break a list, in the first, a middle and the last entry, and nothing else wrong with it."""
    firsts = [5, 129, 135]
    found = {}

    def put(what, place, *entry):
        entries = [(first, 3, b'abc') for first in firsts]
        entries[place] = entry
        found[f'{what}, place {place}'] = raw(*entries)

    # these rise strictly still
    for place, first in ((0, 64), (0, 127), (1, 64), (1, 127), (2, 192), (2, 255)):
        put(f'the zero bit in {first}', place, first, 3, b'abc')
    for place, first in enumerate(firsts):
        put('no name', place, first, 0, b'')
        for size in (41, 255):
            put(f'a name of {size} bytes', place, first, size, b'a' * size)
        for byte in (0, 10, 32, 127, 128, 225):
            for at in range(3) if byte in (32, 127) else [place]:
                put(f'byte {byte} at {at}', place, first, 3, b'abc'[:at] + bytes([byte]) + b'abc'[at + 1:])
        put('the last byte of a long name', place, first, 40, b'a' * 39 + b' ')
    for these in ([5, 5, 135], [5, 135, 135], [129, 5, 135], [5, 135, 129], [129, 135, 5], [135, 129, 5], [5, 129, 5], [0, 0, 0],
                  [128, 0, 63], [0, 191, 191]):
        found[f'first bytes {these}'] = raw(*[(first, 3, b'abc') for first in these])
    sound = raw(*[(first, 3, b'abc') for first in firsts])
    for size in range(len(sound)):
        if size % 5:
            found[f'an entry cut short after {size} bytes'] = sound[:size]
    found['a name of 40 bytes cut short'] = raw((5, 40, b'a' * 39))
    found['one byte behind the last name'] = sound + b'a'
    found['a line end behind the last name'] = sound + b'\n'
    return found


def good_lists():
    """At the edges, on the right side."""
    found = {'empty': b'', 'one byte': raw((0, 1, b'a')), 'forty bytes': raw((0, 40, b'a' * 40)), 'every byte': raw(
        *[(first, 40, bytes(33 + (40 * first + at) % 94 for at in range(40))) for first in (0, 1, 63, 128, 191)])}
    for byte in (33, 126):
        found[f'byte {byte}'] = raw((0, 1, bytes([byte])), (128, 3, bytes([byte]) * 3))
    for first in (0, 1, 62, 63, 128, 129, 190, 191):
        found[f'first byte {first}'] = raw((first, 5, b'named'))
    found['63 and 128'] = raw((63, 2, b'in'), (128, 3, b'out'))
    found['equal names'] = raw((0, 4, b'same'), (63, 4, b'same'), (128, 4, b'same'), (191, 4, b'same'))
    for name in (b'-', b'end', b'stop', b'#', b'"', b'%s', b'\\', b'0'):
        found[f'the name {name.decode()}'] = raw((0, len(name), name), (191, len(name), name))
    return found


def fixed(runs):
    def check(what, site, release, last, log=LOG):
        return runs.compare(what, announced(site) + announced(release) + log + BEHIND, last)

    def same(what, got, want):
        if got != want:
            sys.exit(f'names: {what}: {got}, expected {want}')

    for what, packed in broken_lists().items():
        check(f'the site: {what}', packed, GOOD, 'stop 0 11')
        check(f'the release: {what}', GOOD, packed, 'stop 0 12')
    for what, packed in good_lists().items():
        check(f'the site: {what}', packed, b'', 'end 5')
        check(f'the release: {what}', b'', packed, 'end 5')

    # which list is asked, and for what
    lines = ['1 I 0 {} 100 clear 1', '2 O 0 {} 161 certain 0', '3 G 7 {} 171 blind 0', '4 I 63 {} 241 clear 1', '5 O 63 {} 241 clear 1']
    other = pack_names({(False, 0): b'IN', (False, 63): b'LAST'})
    for site, release, told in ((b'', b'', '- - - - -'), (GOOD, b'', 'in out - - last'), (b'', GOOD, 'in out - - last'),
                                (GOOD, other, 'in out - LAST last'), (other, GOOD, 'IN out - LAST last'),
                                (raw((0, 1, b'-')), GOOD, '- out - - last'), (raw((1, 1, b'x')), raw((129, 1, b'y')), '- - - - -')):
        got = check('which list is asked', site, release, 'end 5')
        same('which list is asked', got[1:-1], [line.format(name) for line, name in zip(lines, told.split())])
    every = [(out, k) for out in (False, True) for k in range(64)]
    sites, releases = ({(out, k): b'%s-%s%d' % (whose, b'io'[out:out + 1], k) for out, k in every} for whose in (b'site', b'release'))
    long_names = {(out, k): b'%c%02d' % (b'io'[out], k) + b'~' * 37 for out, k in every}
    records = b''.join(pack_record(int(out), k, 61) for out, k in every)
    for site, release in ((sites, releases), ({}, releases), (sites, {}), (long_names, releases), (sites, long_names),
                          ({act: name for act, name in sites.items() if act[1] % 2}, long_names)):
        got = check('all 128 names', pack_names(site), pack_names(release), 'end 128', FORM + records + END_RECORD)
        want = [site.get(act, release.get(act, b'-')).decode() for act in every]
        same('all 128 names', [line.split()[3] for line in got[1:-1]], want)
    same('the longest list', len(pack_names(long_names)), 5376)
    # the longest line
    crowd = rules.pack_property(rules.Property([(False, 63)], 0, 10, 30)) + pack_record(INPUT, 63, LIMIT - 30)
    crowd += pack_record(INPUT, 63, 0) * 63 + pack_record(OUTPUT, 63, 30)
    got = check('a long line', pack_names(long_names), b'', 'end 65', crowd + END_RECORD)
    same('a long line', got[-2], f'65 O 63 o63{"~" * 37} {LIMIT} suspect 64')
    check('a crowd', GOOD, GOOD, 'stop 64 6', logs.crowded())

    # broken lists before broken properties and records, in their order
    bad, form = raw((5, 0, b'')), b'\0' * 16
    for site, release, log, last in ((bad, bad, LOG, 'stop 0 11'), (bad, GOOD, form, 'stop 0 11'), (GOOD, bad, form, 'stop 0 12'),
                                     (bad, bad, form, 'stop 0 11'), (GOOD, GOOD, form, 'stop 0 1'), (b'', b'', form, 'stop 0 1'),
                                     (GOOD, GOOD, FORM[:-1] + b'\1', 'stop 0 8'), (GOOD, GOOD, FORM + pack_record(END, 1, 0), 'stop 0 8'),
                                     (GOOD, b'', FORM + pack_record(INPUT, 0, 5) + pack_record(END, 1, 0), 'stop 1 8'),
                                     (b'', GOOD, FORM + pack_record(INPUT, 0, LIMIT) + pack_record(OUTPUT, 0, 1), 'stop 1 4'),
                                     (GOOD, GOOD, FORM + END_RECORD, 'end 0')):
        check('several faults', site, release, last, log)

    # bytes that are missing: 7 before 11 for the site's, and before 12 for the release's
    small = announced(GOOD) + announced(other) + FORM + pack_record(INPUT, 0, 100) + pack_record(OUTPUT, 0, 61) + END_RECORD
    front = len(small) - 18
    for size in range(len(small)):
        runs.compare(f'the first {size} bytes', small[:size], f'stop {max(size - front, 0) // 6} 7')
    runs.compare('all bytes', small, 'end 2')
    for size in range(2 + len(bad), len(announced(bad) + announced(GOOD))):
        runs.compare('a broken list of the site and a part', (announced(bad) + announced(GOOD))[:size], 'stop 0 11')
    for size in range(len(bad)):
        runs.compare("a part of the site's broken list", announced(bad)[:2 + size], 'stop 0 7')
        runs.compare("a part of the release's broken list", announced(GOOD) + announced(bad)[:2 + size], 'stop 0 7')

    # sizes about the highest, each whole and cut short
    whole = pack_names(long_names)
    for size in (5376, 8191, 8192, 8193, 65535):
        packed = announced((whole + b'a' * 65535)[:size])
        site_end, release_end = ('end 5', 'end 5') if size == len(whole) else ('stop 0 11', 'stop 0 12')
        runs.compare(f"{size} bytes of the site's", packed + announced(GOOD) + LOG + BEHIND, site_end)
        runs.compare(f"{size} bytes of the release's", announced(GOOD) + packed + LOG + BEHIND, release_end)
        runs.compare(f'{size} bytes of both', packed + packed + LOG + BEHIND, site_end)
        runs.compare(f"{size} bytes of the site's, zeros", announced(bytes(size)) + announced(GOOD) + LOG, 'stop 0 11')
        runs.compare(f"{size} bytes of the release's, zeros", announced(GOOD) + announced(bytes(size)) + LOG, 'stop 0 12')
        if size > len(whole):
            runs.compare(f"{size} bytes of the site's and no more", packed, 'stop 0 11')
            runs.compare(f"{size} bytes of the release's and no more", announced(b'') + packed, 'stop 0 12')
        for cut in sorted({2, 3, 2 + 8191, 2 + 8192, 2 + 8193, 1 + size}):
            if cut < 2 + size:
                runs.compare(f"{cut} bytes of the site's {size}", packed[:cut], 'stop 0 7')
                runs.compare(f"{cut} bytes of the release's {size}", announced(GOOD) + packed[:cut], 'stop 0 7')
    return sum(runs.ends.values())


# ---- random cases

def some_names(rng, highest):
    """Mostly of actions that the log has."""
    near = [(out, k) for out in (False, True) for k in range(highest + 1)]
    far = [(out, k) for out in (False, True) for k in range(64)]
    acts = [act for act in near if rng.random() < .6] + rng.sample(far, rng.choice([0, 0, 1, 3, 20, 128]))
    return {act: bytes(rng.randint(33, 126) for _ in range(rng.choice([1, 2, 5, 12, 39, 40]))) for act in acts}


def damaged_list(rng, named):
    packed = bytearray(pack_names(named))
    at = rng.randrange(len(packed) + 1)
    how = rng.randrange(6)
    if how == 0 and at < len(packed):
        packed[at] ^= 1 << rng.randrange(8)
    elif how == 1 and at < len(packed):
        packed[at] = rng.choice([0, 31, 32, 33, 40, 41, 64, 126, 127, 128, 255])
    elif how == 2:
        del packed[at:at + rng.randint(1, 3)]
    elif how == 3:
        packed[at:at] = bytes(rng.randrange(256) for _ in range(rng.randint(1, 3)))
    elif how == 4:
        entries = [pack_names({act: named[act]}) for act in sorted(named)]
        entries += rng.sample(entries, min(len(entries), 1))
        if rng.random() < .5:
            rng.shuffle(entries)
        packed = b''.join(entries)
    elif how == 5:
        packed += bytes(rng.choice([1, 40, 100, 8191, 8192, 9000]))
    return bytes(packed)


def some_input(rng, i):
    highest = rng.choice([1, 1, 63])
    log = logs.whole(rng, highest)
    lists = [some_names(rng, highest) for _ in range(2)]
    packed = [pack_names(named) for named in lists]
    if i % 3 == 1:
        which = rng.randrange(2)
        packed[which] = damaged_list(rng, lists[which])
    data = b''.join(map(announced, packed))
    if i % 3 == 2:
        log = logs.damaged(rng, log)
        if rng.random() < .3:
            # a length that is not the list's
            at = rng.choice([0, 2 + len(packed[0])])
            told = int.from_bytes(data[at:at + 2], 'big') + rng.choice([-1, 1, 2, rng.randrange(65536)])
            data = data[:at] + (told % 65536).to_bytes(2, 'big') + data[at + 2:]
    return data + log + rng.choice([b'', BEHIND])


def main():
    count, seed, command = int(sys.argv[1]), int(sys.argv[2]), sys.argv[3:] or logs.named_command()
    rng = random.Random(seed)
    runs = Runs('names', command, rules.named_listing, size_read)
    cases = fixed(runs)
    for i in range(count):
        runs.compare(f'input {i}', some_input(rng, i))
    print(f'names: seed {seed}, {cases} fixed cases and {count} inputs: {runs.told()}; {runs.names} names printed, '
          f'{runs.verdicts} verdicts by listing all orders; 0 differences')


main()
