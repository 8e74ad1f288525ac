# How every tool begins and ends: its options, by one use of argparse; what it could not read, take or write, told alike; signals.

import argparse
import contextlib
import os
import signal
import sys

from shared import VERSION
from streams import Stopped, Unwritten, close_output, escaped, say, take_descriptors, write_all

HEEDED = signal.SIGINT, signal.SIGTERM, signal.SIGHUP, signal.SIGQUIT


class Tell(argparse.Action):
    """Writes a text, and that is all."""

    def __init__(self, option_strings, dest, const):
        super().__init__(option_strings, dest, nargs=0, const=const)

    def __call__(self, parser, *_):
        write_all(self.const.encode() + b'\n')
        close_output()
        sys.exit(0)


class Once(argparse.Action):
    """An option with a value, of which the second would hide the first."""

    def __call__(self, parser, namespace, values, option_string=None):
        if getattr(namespace, self.dest) is not None:
            raise argparse.ArgumentError(self, 'is given twice')
        setattr(namespace, self.dest, values)


def file(word):
    """None is standard input."""
    return None if word == '-' else word


class Options(argparse.ArgumentParser):
    """Of a tool with this help, whose first part is its usage. Options may stand behind the file; '--' ends them."""

    def __init__(self, name, text):
        super().__init__(prog=name, add_help=False, allow_abbrev=False)
        self.brief = text.split('\n\n')[0]
        self.add_argument('-h', '--help', action=Tell, const=text)
        self.add_argument('--version', action=Tell, const=f'anthegyra {VERSION}')
        self.add_argument('file', nargs='?', type=file)

    def of_parts(self):
        """Which part of a log a tool is to pack or unpack, and whether it is the tap card's."""
        parts = self.add_mutually_exclusive_group()
        parts.add_argument('--property', action='store_const', dest='parts', const=['property'], default=['property', 'trace'])
        parts.add_argument('--trace', action='store_const', dest='parts', const=['trace'])
        self.add_argument('--tap', action='store_true')
        return self

    def error(self, message):
        say(f'{self.brief}\n{self.prog}: {escaped(message)}')
        sys.exit(2)


class Signalled(BaseException):
    """A signal that ends a tool, once what it started has been ended."""


def signalled(number, _):
    for other in HEEDED:
        signal.signal(other, signal.SIG_IGN)  # one is enough
    raise Signalled(number)


@contextlib.contextmanager
def signals_later():
    """A signal that comes meanwhile is heeded afterwards, when a process that was being started is known."""
    before = signal.pthread_sigmask(signal.SIG_BLOCK, HEEDED)
    try:
        yield
    finally:
        signal.pthread_sigmask(signal.SIG_SETMASK, before)


def signals_now():
    """In the process that was started."""
    signal.pthread_sigmask(signal.SIG_UNBLOCK, HEEDED)


def status_of(name, main, quiet):
    try:
        take_descriptors()
        return main(sys.argv[1:])
    except Stopped as why:
        if not (quiet and isinstance(why, Unwritten) and why.reader_gone):
            say(f'{name}: {why}')
        return why.status
    except OSError as error:
        say(f'{name}: ' + (f'{escaped(os.fsdecode(error.filename))}: ' if error.filename else '') + error.strerror)
        return 2


def run(name, main, quiet=False):
    """Ends the process with the status that `main` gives for the words behind the tool's name. `quiet`: a reader that is gone has seen
    enough. A signal that was ignored before, as under nohup, still is."""
    for number in HEEDED:
        if signal.getsignal(number) != signal.SIG_IGN:
            signal.signal(number, signalled)
    try:
        sys.exit(status_of(name, main, quiet))
    except Signalled as ended:
        signal.signal(ended.args[0], signal.SIG_DFL)
        os.kill(os.getpid(), ended.args[0])
