# What listing, names, pack and unpack share: the limits and kinds of the packed forms, and reading text.

import re

from streams import Stopped, shown

VERSION = 4  # ANTHEGYRA_VERSION of include/anthegyra.h
LONGEST = 32
HIGHEST_ACTION = 63
MOST_LOST = 63  # of a gap's number of lost lines: more, or unknown
HIGHEST_BOUND = 60_000_000
HIGHEST_STAMP = 2**40 - 1
INPUT, OUTPUT, GAP, END = range(4)
RECORD = 6
TAP_RECORD = 5
TURN = 2**32  # the card's counter returns to 0 there
LONGEST_LINE = 65536  # bytes, so that a text without line ends does not fill the memory
BYTE_ORDER_MARK = b'\xef\xbb\xbf'


class Bad(Stopped):
    """What is wrong with a text, or with packed bytes. Behind `read_text` its line's number stands before it."""
    status = 1


def number(word, highest, what, past=None):
    if not re.fullmatch('[0-9]+', word):
        raise Bad(f'{shown(word)} is not {what}')
    digits = word.lstrip('0') or '0'
    # compared by length first: Python declines to read a number of thousands of digits
    if len(digits) > len(str(highest)) or int(digits) > highest:
        raise Bad(past or f'{what} is at most {highest}')
    return int(digits)


def action(word):
    if word[:1] not in ('?', '!'):
        raise Bad(f'{shown(word)} is not an action: ?0 to ?{HIGHEST_ACTION} or !0 to !{HIGHEST_ACTION}')
    return '?!'.index(word[0]), number(word[1:], HIGHEST_ACTION, "an action's number")


def words_of(line, comment=None):
    """The words of a line, up to where a comment begins. Blanks are spaces and tabs; a CR before the line's end is dropped. A byte that is
    no UTF-8 stays a byte of its word, as a surrogate."""
    for end in (b'\n', b'\r'):
        if line.endswith(end):
            line = line[:-1]
    line = line.split(comment)[0] if comment else line
    return [word for word in re.split('[ \t]', line.decode('utf-8', 'surrogateescape')) if word]


def read_text(lines, take, finish=lambda: None):
    """Hands each line to `take`, until that answers True or the text ends, and then calls `finish`."""
    at = 1
    try:
        for at, line in enumerate(lines, 1):
            if len(line) > LONGEST_LINE:
                raise Bad(f'a line has at most {LONGEST_LINE} bytes')
            if at == 1 and line.startswith(BYTE_ORDER_MARK):
                line = line[len(BYTE_ORDER_MARK):]
            if take(line):
                break
        finish()
    except Bad as bad:
        raise Bad(f'line {at}: {bad}') from None
