# Proved programs of this checkout: built where they are not there or their sources have changed, and how they are run.

import contextlib
import fcntl
import hashlib
import os
import re
import select
import shutil
import signal
import subprocess
import tempfile
import time

from options import signals_later, signals_now
from streams import Stopped, escaped, say

TOP = os.path.dirname(os.path.dirname(os.path.realpath(__file__)))
PATIENCE = 10  # seconds; with nothing to prove `rt run` takes about one
SOURCES = 'src', 'specs', 'proofs'  # of a crate, as the kit names them


class Failed(Stopped):
    """Why there is no program, or why it did not do all that it should."""


def path(program):
    return os.path.join(TOP, 'target', 'bin', program)


@contextlib.contextmanager
def child(words, end=subprocess.Popen.terminate, **more):
    """A process whose output is read here. It is ended where something goes wrong here or a signal comes, and waited for. Orders for the
    emulator are not handed on, nor folders that a shell's cd would search."""
    environment = {name: value for name, value in os.environ.items() if name != 'CDPATH' and not name.startswith('QEMU_')}
    process = None
    try:
        try:
            with signals_later():
                process = subprocess.Popen(words, stdout=subprocess.PIPE, env=environment, preexec_fn=signals_now, **more)
        except OSError as error:
            raise Failed(f'{escaped(words[0])} cannot be run: {error.strerror}') from None
        yield process
    except BaseException:
        if process is not None:
            end(process)
        raise
    finally:
        if process is not None:
            with process:
                pass


# ---- what a program is made from

def asked(rt, word):
    """What rt answers to a word, in one line."""
    with child([rt, word], cwd=TOP, stdin=subprocess.DEVNULL) as told:
        answer = os.fsdecode(told.stdout.read()).rstrip('\n')
    if told.returncode:
        raise Failed(f"{KNOWN[word]} is not known: 'rt {word}' ended with status {told.returncode}")
    return answer


KNOWN = {'doc': 'where the kit is', 'version': 'which kit this is'}


def contents(name):
    with open(name, 'rb') as file:
        return file.read()


@contextlib.contextmanager
def reading():
    """Where something of the sources cannot be read, it is told."""
    try:
        yield
    except OSError as error:
        raise Failed(f'{escaped(error.filename)}: {error.strerror}') from None


def listed():
    """The crates of crates.txt: what stands before the colon, and what each rests on."""
    with reading():
        text = os.fsdecode(contents(os.path.join(TOP, 'crates.txt')))
    lines = (line.partition('#')[0].partition(':') for line in text.splitlines())
    return {head.split()[0]: (head.split(), rest.split()) for head, _, rest in lines if head.split()}


def files_of(crate):
    for part in SOURCES:
        for folder, folders, names in os.walk(os.path.join(TOP, 'crates', crate, part)):
            folders.sort()
            for name in sorted(names):
                yield os.path.join(folder, name)


def sum_of(programs, kit):
    """A sum of all that these programs are made from: the kit, and for them and the crates below them what crates.txt says and the sources."""
    crates, named, left = listed(), set(), list(programs)
    while left:
        crate = left.pop()
        if crate in crates and crate not in named:
            named.add(crate)
            left += crates[crate][1]
    parts = [(kit, sorted(programs)), *((crate, crates[crate]) for crate in sorted(named))]
    with reading():
        parts += ((os.path.relpath(name, TOP), contents(name)) for crate in sorted(named) for name in files_of(crate))
    return hashlib.sha256(repr(parts).encode('utf-8', 'surrogateescape')).hexdigest()


def mark_of(program, total):
    """What stands beside a program that was made from sources with this sum."""
    return f'{total} {hashlib.sha256(contents(path(program))).hexdigest()}\n'.encode()


def is_made(program, total):
    """Whether the program is there and was made from these sources."""
    try:
        return contents(f'{path(program)}.made') == mark_of(program, total)
    except OSError:
        return False


def take(program, total):
    """Takes over what rt has built of these sources, if it is known of which: nothing is left half written."""
    try:
        os.makedirs(os.path.dirname(path(program)), exist_ok=True)
        with contextlib.suppress(FileNotFoundError):
            os.remove(f'{path(program)}.made')
        place(shutil.copy, os.path.join(TOP, 'crates', program, 'out', program), path(program))
        if total is not None:
            place(write, mark_of(program, total), f'{path(program)}.made')
    except OSError as error:
        raise Failed(f'{escaped(path(program))} cannot be written: {error.strerror}') from None


def place(by, what, name):
    """A file that `by` makes of `what` beside its place, and is then moved there."""
    new = f'{name}.{os.getpid()}.new'
    try:
        by(what, new)
        os.replace(new, name)
    finally:
        with contextlib.suppress(FileNotFoundError):
            os.remove(new)


def write(data, name):
    with open(name, 'wb') as file:
        file.write(data)


# ---- building

def keep_log(said):
    try:
        number, name = tempfile.mkstemp(prefix='listing-', suffix='.log')
        with open(number, 'wb') as log:
            log.write(said)
        return f'what it said is in {escaped(name)}'
    except OSError as error:
        return f'what it said could not be kept ({error.strerror})'


class Build:
    """`rt run` in a program's crate, which proves and builds it and runs it on nothing: a session of its own, so that all of it can be ended as
    one. Whatever it starts has the lock too, so that this is held until the last of them is gone, whatever becomes of this script."""

    def __init__(self, rt, program, lock):
        self.words, self.lock, self.program = [rt, 'run'], lock, program
        self.told = self.built = False
        self.said = b''

    def tell(self, text):
        if not self.told:
            say(f'listing: {text}; each crate is named once it is proved')
            self.told = True

    def end_all(self, build):
        """The pipe's other end is closed once the last of them is gone."""
        self.running.close()
        gone = select.poll()
        gone.register(self.ended, 0)
        for number in (signal.SIGTERM, signal.SIGKILL):
            with contextlib.suppress(ProcessLookupError):
                os.killpg(build.pid, number)
            if gone.poll(PATIENCE * 1000):
                return

    def listen(self, source):
        """Shows each crate that is proved anew."""
        shown, crate = 0, None
        ready = select.poll()
        ready.register(source, select.POLLIN)
        while True:
            if not ready.poll(None if self.told else PATIENCE * 1000):
                self.tell('rt run is still at work: what has changed is proved and built again, which takes up to some minutes')
                continue
            some = os.read(source, 65536)
            if not some:
                return
            self.said += some
            whole = self.said.rfind(b'\n') + 1
            for line in self.said[shown:whole].splitlines():
                crate = self.hear(line, crate)
            shown = whole

    def hear(self, line, crate):
        """A line of rt's: it names a crate once it has gone through it, and then says whether that is proved. What comes behind the program's
        start is the program's. Gives the crate that was named last."""
        if self.built:
            return None
        self.built = line.startswith(b'rt: running out/' + os.fsencode(self.program) + b';')
        named = re.match(rb'crate (\w+): modules loaded=', line)
        if named:
            return os.fsdecode(named[1])
        if crate and line.startswith(b'logic=proved '):
            self.tell('the sources have changed: proving and building again, which takes up to some minutes')
            say(f'{crate} proved')
            return None
        if line.startswith(b'rt: waiting for '):
            say(os.fsdecode(line))
        return crate

    def run(self):
        if not os.path.exists(path(self.program)):
            self.tell('proving and building the program first, which takes some minutes, once')
        self.ended, running = os.pipe()
        self.running = os.fdopen(running, 'wb')
        with child(self.words, self.end_all, cwd=os.path.join(TOP, 'crates', self.program), stdin=subprocess.DEVNULL, stderr=subprocess.STDOUT,
                   start_new_session=True, pass_fds=[self.lock, running]) as build:
            self.listen(build.stdout.fileno())
        self.running.close()
        os.close(self.ended)
        if not self.built:
            self.fail(build.returncode)

    def fail(self, status):
        tail = '\n'.join(os.fsdecode(line) for line in self.said.splitlines()[-5:])
        why = f'the program is not built: rt run ended with status {status}; {keep_log(self.said)}.'
        if not is_text(TOP):
            why += f" rt builds nothing in a folder whose path is not UTF-8, as '{escaped(TOP)}': give it another name."
        raise Failed(f'{why} Its end:\n{tail}')


def is_text(name):
    """Whether a path's bytes are UTF-8."""
    try:
        os.fsencode(name).decode('utf-8')
        return True
    except UnicodeDecodeError:
        return False


def wait_for_lock(folder):
    """Locks the folder, which leaves no file behind, as long as its descriptor is open here or in a process that has it from here."""
    until = time.monotonic() + PATIENCE
    while time.monotonic() < until:
        try:
            fcntl.flock(folder, fcntl.LOCK_EX | fcntl.LOCK_NB)
            return
        except BlockingIOError:
            time.sleep(0.05)
        except OSError:
            return  # this file system has no locks
    say('listing: waiting for another tools/listing, which is proving and building')
    fcntl.flock(folder, fcntl.LOCK_EX)


def bring_up_to_date(program):
    """The path of rt, None where there is none. Without it, or where target/ may not be written, a built program runs as it is."""
    rt = shutil.which('rt')
    built = os.path.exists(path(program))
    if rt is None and not built:
        raise Failed(f'there is no {escaped(path(program))}, and no rt on the PATH to prove and build it')
    # where the PATH has a folder by a relative name, it is meant from here, and rt is run elsewhere
    rt = rt and os.path.abspath(rt)
    if rt is None or built and not os.access(os.path.join(TOP, 'target'), os.W_OK):
        return rt
    kit = asked(rt, 'version')
    if is_made(program, sum_of([program], kit)):
        return rt
    # one at a time: each says what is proved, and takes over what was built
    folder = os.open(TOP, os.O_RDONLY)
    try:
        wait_for_lock(folder)
        total = sum_of([program], kit)
        if not is_made(program, total):
            Build(rt, program, folder).run()
            # where a file was changed meanwhile it is not known which text was built
            take(program, total if sum_of([program], kit) == total else None)
    finally:
        os.close(folder)
    return rt


# ---- running

def toolchain(rt):
    """Where the kit has its own loader, and its emulator if it needs one: by an absolute path, or it would be looked for here."""
    guide = asked(rt, 'doc')
    if not os.path.isabs(guide):
        raise Failed(f"where the kit is is not known: 'rt doc' says '{escaped(guide)}', which is no absolute path")
    return os.path.join(os.path.dirname(guide), 'toolchain')


def command(rt, program):
    """The program is x86-64. It runs under the kit's loader and C library where the kit is there, and under an emulator if the kit has one."""
    words = []
    kit = rt and toolchain(rt)
    if kit and os.path.exists(os.path.join(kit, 'lib', 'ld-linux-x86-64.so.2')):
        emulator = os.path.join(kit, 'bin', 'qemu-x86_64')
        words = [emulator] if os.access(emulator, os.X_OK) else []
        words += [os.path.join(kit, 'lib', 'ld-linux-x86-64.so.2'), '--library-path', os.path.join(kit, 'lib')]
    return words + [path(program)]
