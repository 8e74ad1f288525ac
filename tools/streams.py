# Files and standard streams, as every tool uses them: reading that waits for what has not come yet, writing that leaves nothing out,
# and messages that a terminal can show.

import errno
import os
import select
import stat
import sys

PIECE = 65536  # bytes that are read at a time
MOST_SHOWN = 40  # characters of a word in a message


class Stopped(Exception):
    """Why a tool stops, to be told, and the status that it then ends with."""
    status = 2


class Unread(Stopped):
    """Which file could not be read, and why."""


class Unwritten(Stopped):
    """Why standard output did not take everything."""

    def __init__(self, error):
        super().__init__(f'not everything could be written: {error.strerror}')
        self.reader_gone = isinstance(error, BrokenPipeError)


# ---- messages

def escape(character):
    code = ord(character)
    # a byte that is no UTF-8 stands there as a surrogate
    return f'\\x{code - 0xdc00:02x}' if 0xdc80 <= code <= 0xdcff else character.encode('unicode_escape').decode()


def escaped(text):
    """A line with what is not printable escaped: control characters, which a terminal obeys, bytes that are no text, and marks that turn
    the direction of writing."""
    return ''.join(c if c.isprintable() else escape(c) for c in text)


def shown(word):
    """A word of a text in a message. Good ones are ASCII, so that whatever else is in it is escaped; a long one is cut."""
    some = ''.join(c if ' ' <= c <= '~' else escape(c) for c in word[:MOST_SHOWN])
    return f"'{some}'" if len(word) <= MOST_SHOWN else f"'{some}..' ({len(word)} characters)"


def say(text):
    """A message on standard error, of one line or some. Where that cannot be written there is nobody to tell."""
    lines = '\n'.join(map(escaped, text.split('\n'))) + '\n'
    try:
        put(2, lines.encode(sys.getfilesystemencoding(), 'backslashreplace'))
    except OSError:
        pass


# ---- reading

def wait_for(number, what):
    """Until a descriptor that does not block is ready."""
    ready = select.poll()
    ready.register(number, what)
    ready.poll()


class Source:
    """A file, or standard input where there is no name. Where it does not block, a read that finds nothing yet is not the end."""

    def __init__(self, name=None):
        self.name = 'standard input' if name is None else escaped(name)
        try:
            self.number = 0 if name is None else os.open(name, os.O_RDONLY)
            if stat.S_ISDIR(os.fstat(self.number).st_mode):
                raise IsADirectoryError(errno.EISDIR, os.strerror(errno.EISDIR))
        except OSError as error:
            raise self.unread(error) from None

    def unread(self, error):
        return Unread(f'{self.name}: {error.strerror}')

    def some(self, most):
        """Up to so many bytes, none at the end, None where there is nothing yet."""
        try:
            return os.read(self.number, most)
        except BlockingIOError:
            return None
        except OSError as error:
            raise self.unread(error) from None

    def read(self, most):
        """The same, but waits for the first of them."""
        while True:
            some = self.some(most)
            if some is not None:
                return some
            wait_for(self.number, select.POLLIN)

    def whole(self, most=None):
        """All bytes, or of more than `most` the first and one more."""
        data = bytearray()
        while most is None or len(data) <= most:
            some = self.read(PIECE if most is None else most + 1 - len(data))
            if not some:
                break
            data += some
        return data

    def lines(self, longest):
        """Each line with its line end, as soon as it is there. One above `longest` bytes is the last, and perhaps not whole."""
        rest = b''
        while len(rest) <= longest:
            some = self.read(PIECE)
            *whole, rest = (rest + some).split(b'\n')
            for line in whole:
                yield line + b'\n'
            if not some:
                break
        if rest:
            yield rest


# ---- writing

def put(number, data):
    """Writes every byte. One write may take a part, as on a disk that is nearly full."""
    left = memoryview(data)
    while left:
        try:
            left = left[os.write(number, left):]
        except BlockingIOError:
            # it does not block and is full: wait until it takes more
            wait_for(number, select.POLLOUT)


def write_all(data):
    """To standard output."""
    try:
        put(1, data)
    except OSError as error:
        raise Unwritten(error) from None


def close_output():
    """Some disks say only here that they are full."""
    try:
        os.close(1)
    except OSError as error:
        raise Unwritten(error) from None


def take_descriptors():
    """The number of a closed descriptor goes to the next file opened, which must not then be taken for input or for messages: the null
    device gets it. Without an output there is nothing to do."""
    try:
        os.fstat(1)
    except OSError:
        raise Stopped('standard output is closed') from None
    for number in (0, 2):
        try:
            os.fstat(number)
        except OSError:
            os.set_inheritable(os.open(os.devnull, os.O_RDWR), True)
