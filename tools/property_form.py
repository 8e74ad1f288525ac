# The packed property, as unpack and listing read it.

from shared import HIGHEST_BOUND, LONGEST, Bad


class Damaged(Bad):
    """What is wrong with the bytes."""


def damaged(refusal, what):
    raise Damaged(f'refusal {refusal}: {what}')


def field(data, at, width):
    """The number in `width` bits from bit `at`, most significant first."""
    first, last = at // 8, (at + width + 7) // 8
    return int.from_bytes(data[first:last], 'big') >> 8 * last - at - width & (1 << width) - 1


def sizes(data):
    """Of the property that begins with these bytes: its sequence's length, its bits without pad bits, its bytes."""
    n = field(data, 0, 6) if data else 0
    bits = 122 + 7 * n
    return n, bits, (bits + 7) // 8


def property_text(data):
    """The lines of the property at the front, and the number of its bytes."""
    n, bits, size = sizes(data)
    if len(data) < size:
        damaged(7, f'the property needs {size} bytes and there are {len(data)}')
    if field(data, bits, 8 * size - bits):
        damaged(8, "pad bits behind the property's last field are not zero")
    if not 1 <= n <= LONGEST:
        damaged(1, f'the sequence has {n} actions')
    lb, ub = field(data, 6, 26), field(data, 32, 26)
    if not 1 <= lb <= ub <= HIGHEST_BOUND:
        damaged(2, f'the bounds are {lb} and {ub}')
    actions = [f'{"?!"[field(data, at, 1)]}{field(data, at + 1, 6)}' for at in range(58, 58 + 7 * n, 7)]
    allowed = [f'!{k}' for k in range(64) if field(data, 58 + 7 * n + k, 1)]
    some = 'none' if not allowed else 'all' if len(allowed) == 64 else ' '.join(allowed)
    return [f'bounds {lb} {ub}', 'sequence ' + ' '.join(actions), 'allow ' + some], size
