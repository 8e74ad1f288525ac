"""Packed logs, whole and damaged, long and short, for the tests in Python, and how the programs are run that list them."""
import os
import random
import shlex
import subprocess
import sys
import tempfile

import rules

TOP = os.path.dirname(os.path.dirname(os.path.abspath(__file__)))
sys.path.insert(1, os.path.join(TOP, 'tools'))
import building  # noqa: E402

TOOL = os.path.join(TOP, 'tools', 'listing')


def listing_command(*words):
    """As tools/listing names it, once it has built the program."""
    return shlex.split(subprocess.run([TOOL, *words, '--command'], stdout=subprocess.PIPE, check=True).stdout.decode())


def named_command():
    """The program with names is run as the other is, once tools/listing has built it for a log without a byte."""
    done = subprocess.run([TOOL, '--names', os.devnull, os.devnull, os.devnull], stdout=subprocess.PIPE)
    if done.returncode != 1 or not done.stdout.endswith(b'\nstop 0 7\n'):
        sys.exit(f'there is no program that lists with names: {done}')
    words = listing_command()
    return words[:-1] + [os.path.join(os.path.dirname(words[-1]), 'named_listing')]


def size_read(data, want, size=6):
    """How many bytes a program reads that lists these as `want`, in records of `size` bytes: none behind the end record, nor behind
    a property or record that it refuses."""
    last = want[-1].split()
    if last[0] == 'stop' and last[2] == '7':
        return len(data)
    front = (122 + 7 * (data[0] >> 2) + 7) // 8
    return front if rules.read_property(data)[0] else front + size * (int(last[1]) + 1)


def console_command():
    """The console is run as the printing program is, once it is proved and built in the same way."""
    words = listing_command()
    try:
        building.bring_up_to_date('calls')
    except building.Failed as why:
        sys.exit(f'there is no console: {why}')
    return words[:-1] + [os.path.join(os.path.dirname(words[-1]), 'calls')]


class Runs:
    """A program, run and compared with `listing`, one of tests/rules.py, and with how many bytes it should have read."""

    def __init__(self, name, command, listing, size_read):
        self.name, self.command, self.listing, self.size_read = name, command, listing, size_read
        self.ends, self.verdicts = {}, 0

    def compare(self, what, data, last=None):
        """Exits at a difference. `last` is the last line, where it is known."""
        want, both = self.listing(data)
        if last is not None and want[-1] != last:
            sys.exit(f'{self.name}: {what}: {data.hex()}\nexpected {last}\nrules.py {want[-1]}')
        with tempfile.TemporaryFile() as given:
            given.write(data)
            given.seek(0)
            got = subprocess.run(self.command, stdin=given, stdout=subprocess.PIPE, check=True).stdout
            read = os.lseek(given.fileno(), 0, os.SEEK_CUR)
        if got != '\n'.join(want + ['']).encode():
            sys.exit(f'{self.name}: {what}: {data.hex()}\nexpected {want}\ngot      {got.decode("ascii", "replace").splitlines()}')
        if read != self.size_read(data, want):
            sys.exit(f'{self.name}: {what}: {data.hex()}\n{read} bytes were read, expected {self.size_read(data, want)}')
        end = self.end_of(want)
        self.ends[end] = self.ends.get(end, 0) + 1
        self.verdicts += both
        return want

    def end_of(self, want):
        return end_of(want)

    def told(self):
        return ', '.join(f'{k} {v}' for k, v in sorted(self.ends.items()))


def near(rng, latest):
    return rng.choice([0, 1, 2, 3, 5, 8, 13, 20])


def some_lost(rng):
    """A gap's number of lost lines."""
    return rng.choice([0, 1, 62, 63, rng.randrange(64)])


def whole(rng, highest=1, step=near):
    """Action numbers up to `highest`. `step` draws how far a stamp is behind the latest."""
    lower = rng.randint(1, 4)
    upper = lower + rng.randint(0, 4)
    n = rng.choice([1, 1, 1, 2, 2, 3])
    sequence = [(rng.random() < .5, rng.randint(0, highest)) for _ in range(n)]
    allowed = sum(1 << k for k in range(64) if rng.random() < .3)
    data, latest = rules.pack_property(rules.Property(sequence, allowed, lower, upper)), 0
    for _ in range(rng.randint(0, 9)):
        kind = rng.choice([0, 0, 0, 1, 1, 1, 1, 2])
        action = some_lost(rng) if kind == rules.GAP else rng.randint(0, highest)
        less = step(rng, latest)
        latest += less
        data += rules.pack_record(kind, action, less)
    return data + rules.END_RECORD


def unknown(data):
    """A whole log with the number of lost lines unknown at each gap, as the tap card leaves it."""
    _, _, at = rules.read_property(data)
    marked = data[:at]
    for at in range(at, len(data), 6):
        kind = data[at] >> 6
        marked += (bytes([kind << 6 | rules.MOST_LOST]) if kind == rules.GAP else data[at:at + 1]) + data[at + 1:at + 6]
    return marked


def as_card(data):
    """A whole log as the tap card sends it, if the card can say it: a gap's number it cannot."""
    _, _, at = rules.read_property(data)
    card, latest = data[:at], 0
    while True:
        refusal, kind, action, stamp = rules.read_record(data[at:at + 6], latest)
        if refusal or stamp >= latest + rules.TURN:
            raise ValueError('the card cannot say this')
        if kind == rules.END:
            return card + rules.TAP_END
        card += rules.pack_tap(kind, 0 if kind == rules.GAP else action, stamp % rules.TURN)
        at, latest = at + 6, stamp


def crowded():
    """65 inputs at one stamp: the last is one too many."""
    data = rules.pack_property(rules.Property([(False, 0)], 2 ** 64 - 1, 1, 2))
    return data + rules.pack_record(rules.INPUT, 0, 0) * 65 + rules.END_RECORD


def damaged(rng, data, size=6):
    """`size` is that of a record."""
    data = bytearray(data)
    how = rng.randrange(6)
    if how == 0:
        del data[rng.randrange(len(data) + 1):]
    elif how == 1:
        for _ in range(rng.randint(1, 3)):
            data[rng.randrange(len(data))] ^= 1 << rng.randrange(8)
    elif how == 2:
        data[rng.randrange(min(len(data), 20))] ^= 1 << rng.randrange(8)
    elif how == 3:
        at = len(data) - size * rng.randint(1, 2)
        data[max(at, 17) + 1:max(at, 17) + 1] = b'\xff' * rng.randint(1, 6)
    elif how == 4:
        data[-size:] = bytes([rng.choice([0xC1, 0x81, 0xBF, 0xC0, 0x80])]) + bytes([rng.choice([0, 255])]) * (size - 1)
    return bytes(data) + bytes(rng.randrange(256) for _ in range(rng.choice([0, 0, 7])))


def end_of(lines):
    """How a listing ends: 'end', or 'stop' and the refusal."""
    last = lines[-1].split()
    return 'end' if last[0] == 'end' else 'stop ' + last[2]


# ---- of tests/tools.py and tests/odd.py

B = rules.Property([(False, 0)], 2, 10, 30)


def long_log(records, seed, before=b''):
    """A property and records with gap marks, breaches and quiet stretches among them, few inputs open at a time."""
    rng = random.Random(seed)
    data = rules.pack_property(rules.Property([(False, 0), (True, 1)], 2, 3, 9)) + before
    for i in range(records):
        # every fifty records or so the run is closed, since a run stays certain once it is
        if rng.random() < .02:
            data += rules.pack_record(rules.GAP, i % 64, rng.randrange(30)) + rules.pack_record(rules.INPUT, 1, 19)
        data += rules.pack_record(rng.randrange(2), rng.choice([0, 0, 1, 1, 2]), rng.choice([0, 1, 2, 4, 7, 12, 20]))
    return data + rules.END_RECORD


LONG = long_log(4000, 20260101)
LONG_CARD = as_card(long_log(4000, 20260101, rules.pack_record(rules.OUTPUT, 0, rules.TURN - 10_000)))


def card_at_limit():
    """The card's gap marks up to the limit, 257 of them."""
    counters = [rules.TURN - number for number in range(1, 257)] + [rules.TURN - 1]
    return b''.join(rules.pack_tap(rules.GAP, 0, counter) for counter in counters)
