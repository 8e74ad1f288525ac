"""What tests/tools.py, tests/odd.py and tests/selftest.py share: running a tool, looking at what it answers, a folder with the tools and a
stand-in for rt, and running the parts of a test."""
import contextlib
import os
import select
import shlex
import shutil
import signal
import subprocess
import sys
import tempfile
import time
import traceback

import logs
from logs import building

TOP = logs.TOP
KIT = 'a-kit logic 0123'
PROGRAMS = 'listing', 'named_listing', 'tap_listing', 'show_why'
LISTING, NAMES, PACK, UNPACK = TOOLS = [os.path.join(TOP, 'tools', name) for name in ('listing', 'names', 'pack', 'unpack')]
SAMPLES = sorted(os.path.join(TOP, 'samples', name) for name in os.listdir(os.path.join(TOP, 'samples')) if name.endswith('.bin'))
SITE, RELEASE = (os.path.join(TOP, 'samples', f'switch-{name}.names') for name in ('site', 'release'))
SWITCH = os.path.join(TOP, 'samples', 'switch.bin')
CARD, CARD_TEXT = (os.path.join(TOP, 'samples', name) for name in ('tap.card', 'tap.txt'))
TEXT = b'bounds 10 30\nsequence ?0\nallow !1\n'  # logs.B
MARK = b'\xef\xbb\xbf'
PATIENCE = 60
SHORT = 30  # seconds that something ready at once may take on a busy machine
LONGEST_PART = 900  # seconds of one part, the emulator's too
HEEDED = signal.SIGINT, signal.SIGTERM, signal.SIGHUP, signal.SIGQUIT


class Wrong(Exception):
    pass


def same(what, got, want):
    if got != want:
        raise Wrong(f'{what}: {got!r}, expected {want!r}')


def holds(what, truth):
    if not truth:
        raise Wrong(what)


def contents(path):
    with open(path, 'rb') as file:
        return file.read()


def lines_of(path):
    """No lines where there is no such file."""
    return contents(path).split(b'\n')[:-1] if os.path.exists(path) else []


def file_of(folder, name, data):
    path = os.path.join(folder, name)
    with open(path, 'wb') as file:
        file.write(data)
    return path


def script_of(path, *lines):
    """A shell script. A path in it may have bytes that are no UTF-8."""
    with open(path, 'wb') as script:
        script.write(os.fsencode('\n'.join(['#!/bin/sh', *lines, ''])))
    os.chmod(path, 0o755)
    return path


# ---- tools, run

def run(words, data=b'', stdout=subprocess.PIPE, **more):
    """Status, output and messages."""
    done = subprocess.run(words, input=data, stdout=stdout, stderr=subprocess.PIPE, timeout=PATIENCE, **more)
    return done.returncode, done.stdout, done.stderr.decode('utf-8', 'backslashreplace')


def message(what, text, *words):
    """One message, with these words in it, and no traceback."""
    holds(f'{what}: the message is {text!r}', text.endswith('\n') and 'Traceback' not in text and all(w in text for w in words))


@contextlib.contextmanager
def started(words, **more):
    """A process, ended if it has not ended by itself: where a test fails it may be waiting."""
    process = subprocess.Popen(words, stdout=subprocess.PIPE, bufsize=0, **more)
    try:
        yield process
    finally:
        process.kill()
        for stream in (process.stdin, process.stdout, process.stderr):
            if stream:
                stream.close()
        process.wait()


def some_bytes(source, size):
    """So many bytes, as soon as they are there."""
    got = b''
    while len(got) < size:
        ready, _, _ = select.select([source], [], [], SHORT)
        holds(f'only {len(got)} of {size} bytes came while the input was open', ready)
        some = os.read(source.fileno(), size - len(got))
        holds(f'the output ended after {len(got)} of {size} bytes', some)
        got += some
    return got


def some_line(source):
    line = b''
    while not line.endswith(b'\n'):
        line += some_bytes(source, 1)
    return line.decode()


def comes_true(what, test):
    """Within a time that is enough on a busy machine."""
    until = time.monotonic() + SHORT
    while not test():
        holds(f'not after {SHORT} s: {what}', time.monotonic() < until)
        time.sleep(.02)


def state(pid):
    """Of a process: its letter in /proc and its parent; None where there is no such process."""
    try:
        stat = contents(f'/proc/{pid}/stat').decode('utf-8', 'replace')
    except OSError:
        return None
    letter, parent = stat.rsplit(')', 1)[1].split()[:2]
    return letter, int(parent)


def is_gone(pid):
    """Also where nobody has asked for its status yet."""
    found = state(pid)
    return found is None or found[0] == 'Z'


def all_gone(what, pids):
    comes_true(f'gone is {what}', lambda: all(is_gone(int(pid)) for pid in pids))


def children(pid):
    return [int(name) for name in os.listdir('/proc') if name.isdigit() and (state(name) or ('', None))[1] == pid]


# ---- a folder of its own

class Folder:
    """The tools and the programs in a folder whose name has a space and a byte that is no UTF-8, each in a crate of one line, and an rt that
    only plays its part."""

    def __init__(self, folder):
        self.top = os.path.join(folder, os.fsdecode(b'a f\xf6lder'))
        self.listing = os.path.join(self.top, 'tools', 'listing')
        self.program, self.named_program, self.tap_program, self.why_program = (
            os.path.join(self.top, 'target', 'bin', name) for name in PROGRAMS)
        self.logs = os.path.join(self.top, 'logs')
        self.asked = os.path.join(self.top, 'asked')
        self.said = os.path.join(self.top, 'said')
        self.rt = os.path.join(self.top, 'bin', 'rt')
        shutil.copytree(os.path.join(TOP, 'tools'), os.path.join(self.top, 'tools'))
        for part in ('target/bin', 'logs', 'bin', 'no rt', *(f'crates/{name}/src' for name in ('below', *PROGRAMS))):
            os.makedirs(os.path.join(self.top, part))
        file_of(self.top, 'crates.txt', ('below:\n' + ''.join(f'{name}: below libc\n' for name in PROGRAMS)).encode())
        file_of(os.path.join(self.top, 'crates', 'below', 'src'), 'lib.rt', b'a library\n')
        for name in PROGRAMS:
            file_of(os.path.join(self.top, 'crates', name, 'src'), 'main.rt', b'a program\n')
        os.symlink(sys.executable, os.path.join(self.top, 'no rt', 'python3'))
        for name in ('env', 'grep', 'readlink', 'sh', 'sort'):
            os.symlink(shutil.which(name), os.path.join(self.top, 'no rt', name))
        self.build()
        self.play()

    def build(self):
        """The programs, as they are where nothing has changed since they were proved and built."""
        building.TOP = self.top
        for name in PROGRAMS:
            shutil.copy(os.path.join(TOP, 'target', 'bin', name), building.path(name))
            file_of(os.path.dirname(self.program), f'{name}.made', building.mark_of(name, building.sum_of([name], KIT)))

    def change(self, crate='below'):
        """From here on the programs over this crate are to be proved and built again."""
        with open(os.path.join(self.top, 'crates', crate, 'src', 'lib.rt' if crate == 'below' else 'main.rt'), 'ab') as source:
            source.write(b'one line more\n')

    @property
    def asking(self):
        """What notes that rt run was run, and where."""
        return f'echo "$* ${{PWD##*/}}" >>{shlex.quote(self.asked)}'

    def play(self, lines=(), status=0, more=':', doc=None, version=None):
        """What rt run says, its status, and what else it does: where that is 0 it builds the program, and ends with the status of its run. It
        reads all of its standard input, which must not be the records."""
        with open(self.said, 'w', encoding='utf-8') as said:
            said.writelines(line + '\n' for line in lines)
        built = 'mkdir -p out && cp {}/"${{PWD##*/}}" out/ && echo "rt: running out/${{PWD##*/}}; to give it other input, run that file yourself"'
        built = built.format(shlex.quote(os.path.join(TOP, 'target', 'bin'))) + '; echo "rt: running out/other; end 0"; exit 7'
        script_of(self.rt, 'case $1 in', f'doc) {doc or "exec " + shlex.quote(shutil.which("rt")) + " doc"} ;;',
                  f'version) {version or f"echo {KIT}"} ;;',
                  f'run) cat >/dev/null; cat {shlex.quote(self.said)}; {more}; {f"exit {status}" if status else built} ;;', 'esac')

    def hurry(self):
        """From here on the tools lose their patience after a second."""
        path = os.path.join(self.top, 'tools', 'building.py')
        text = contents(path)
        same('the number of patiences', text.count(b'\nPATIENCE = 10 '), 1)
        with open(path, 'wb') as file:
            file.write(text.replace(b'\nPATIENCE = 10 ', b'\nPATIENCE = 1 '))

    def environment(self, env=None, rt=True):
        env = dict(os.environ if env is None else env, TMPDIR=self.logs)
        env['PATH'] = os.path.join(self.top, 'bin') + ':' + env['PATH'] if rt else os.path.join(self.top, 'no rt')
        return env

    def times_asked(self, program='listing'):
        """How often rt run was run since the last question, and for nothing but this program."""
        if not os.path.exists(self.asked):
            return 0
        asked = contents(self.asked).split(b'\n')[:-1]
        os.remove(self.asked)
        same('what rt is asked', set(asked), {b'run ' + program.encode()})
        return len(asked)

    def run(self, *words, rt=True, data=b'', listing=None, env=None):
        return run([listing or self.listing] + list(words), data, env=self.environment(env, rt), cwd='/')


# ---- parts

def alone(name, part, limit):
    """Whether a part passes. It has a process group of its own, of which nothing is left afterwards: also where it fails while a thread
    or a process of it waits for what does not come, and where it takes too long."""
    with tempfile.TemporaryDirectory() as folder:
        sys.stdout.flush()
        child = os.fork()
        if not child:
            os.setpgid(0, 0)
            # a shell has its background jobs ignore some
            for number in HEEDED:
                signal.signal(number, signal.SIG_DFL)
            status = 1
            try:
                part(folder)
                status = 0
            except (Wrong, subprocess.TimeoutExpired) as wrong:
                print(f'{name}: FAILED: {part.__name__}: {wrong}')
            except BaseException:
                traceback.print_exc()
                print(f'{name}: FAILED: {part.__name__}')
            finally:
                sys.stdout.flush()
                os._exit(status)
        try:
            until = time.monotonic() + limit
            while True:
                done, status = os.waitpid(child, os.WNOHANG)
                if done:
                    return status == 0
                if until < time.monotonic():
                    print(f'{name}: FAILED: {part.__name__}: not done after {limit} s')
                    return False
                time.sleep(.01)
        finally:
            with contextlib.suppress(ProcessLookupError):
                os.killpg(child, signal.SIGKILL)
            with contextlib.suppress(ChildProcessError):
                os.waitpid(child, 0)


def ended(number, _):
    for other in HEEDED:
        signal.signal(other, signal.SIG_IGN)  # one is enough
    sys.exit(128 + number)


def run_parts(name, parts, wanted, limit=LONGEST_PART):
    """Exits 1 where one of the parts fails, behind all of them."""
    unknown = set(wanted) - {part.__name__ for part in parts}
    if unknown:
        sys.exit(f'{name}: there is no part {", ".join(sorted(unknown))}')
    for number in HEEDED:
        signal.signal(number, ended)
    chosen = [part for part in parts if not wanted or part.__name__ in wanted]
    passed = [alone(name, part, limit) for part in chosen]
    if not all(passed):
        sys.exit(1)
    print(f'{name}: {len(chosen)} parts as expected: ' + ', '.join(part.__name__ for part in chosen))
