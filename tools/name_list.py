# Lists of names, as names and listing take them: text to a packed list, and what a file that may be either stands for.

import io
import re

from shared import BYTE_ORDER_MARK, Bad, action, read_text, words_of

LONGEST_LIST = 8192  # bytes
LONGEST_NAME = 40  # bytes
LOWEST, HIGHEST = 33, 126  # bytes of a name
ZERO_BIT = 64  # of an entry's first byte


def entry(line):
    """The first byte and the name that a line gives, None where it gives none."""
    words = words_of(line)
    if not words or words[0].startswith('#'):
        return None
    kind, k = action(words[0])
    if len(words) == 1:
        raise Bad(f'there is no name behind {"?!"[kind]}{k}')
    if len(words) > 2 and not words[2].startswith('#'):
        raise Bad('a name is one word, and only a comment may follow it')
    name = words[1].encode('utf-8', 'surrogateescape')
    for byte in name:
        if not LOWEST <= byte <= HIGHEST:
            raise Bad(f'the bytes of a name are from {LOWEST} to {HIGHEST}, and this name has a byte {byte}')
    if len(name) > LONGEST_NAME:
        raise Bad(f'a name has at most {LONGEST_NAME} bytes, and this one has {len(name)}')
    return kind << 7 | k, name


def packed(lines):
    """The packed list of a text."""
    names = {}

    def take(line):
        found = entry(line)
        if found is None:
            return
        first, name = found
        if first in names:
            raise Bad(f'{"?!"[first >> 7]}{first & 63} stands twice: it has the name {names[first].decode()} already')
        names[first] = name
    read_text(lines, take)
    return b''.join(bytes([first, len(names[first])]) + names[first] for first in sorted(names))


def good(data):
    """Whether this is a packed list without a fault."""
    at, before = 0, -1
    while at < len(data):
        size = data[at + 1] if at + 1 < len(data) else 0
        name = data[at + 2:at + 2 + size]
        if data[at] <= before or data[at] & ZERO_BIT or not 1 <= size <= LONGEST_NAME or len(name) < size:
            return False
        if not all(LOWEST <= byte <= HIGHEST for byte in name):
            return False
        before = data[at]
        at += 2 + size
    return len(data) <= LONGEST_LIST


def looks_like_text(data):
    if data.startswith(BYTE_ORDER_MARK):
        data = data[len(BYTE_ORDER_MARK):]
    return re.match(rb'[ \t\r\n]*(#|[?!][0-9]|\Z)', data) is not None


def list_of(data):
    """The list that a file of these bytes stands for. What is neither a good list nor a text stays as it is: the program refuses it."""
    return data if good(data) or not looks_like_text(data) else packed(io.BytesIO(data))
