#!/usr/bin/env python3
""".ci/run, in folders of stand-ins for rt and for the tests: it runs a plain `rt ci` in the checkout as it is; its last line is
'N passed, 0 failed' only where rt ci passed with no bad edit and every test did, and is nowhere in what it prints where one of them failed,
was killed, or the script itself was. What it started is gone when it ends: where one stream of tests has failed, a test hangs, or a signal
comes.

    tests/gate.py     exits 1 at the first path that ends otherwise"""
import os
import re
import shutil
import signal
import subprocess
import sys
import tempfile
import time
import traceback

TOP = os.path.dirname(os.path.dirname(os.path.abspath(__file__)))
PATIENCE = 60  # seconds for what takes a part of one
KIT = 'a-kit logic 0123'
PASSED = '7 passed, 0 failed'
OK = 'rt: ok; handles allowed: none; must-fail edits: 3 refused; every proof and must-fail edit was done in this run'
NEVER = re.compile(r'\d+ passed, 0 failed')


def wrong(what, output):
    sys.exit(f'gate: {what}\n{output}')


def script_of(path, lines):
    with open(path, 'w', encoding='utf-8') as file:
        file.write('\n'.join(['#!/bin/sh', *lines, '']))
    os.chmod(path, 0o755)


ENDING = signal.SIGTERM, signal.SIGINT, signal.SIGHUP


class Stand:
    """A folder with a copy of the gate, a stand-in for rt, one for each test that the gate names and one for .ci/take. Each test leaves its
    name in `ran`; `rt ci` prints a line, OK and then PASSED, `proving` being what it does before that, or instead of it."""

    def __init__(self, top):
        self.top = top
        for name in ('.ci', 'docs', 'tests', 'tools', 'bin', 'crates/stretch_c'):
            os.makedirs(os.path.join(top, name))
        shutil.copy(os.path.join(TOP, 'tools', 'archive'), os.path.join(top, 'tools', 'archive'))
        with open(os.path.join(TOP, '.ci', 'run'), encoding='utf-8') as gate:
            text = gate.read()
        self.gate = os.path.join(top, '.ci', 'run')
        with open(self.gate, 'w', encoding='utf-8') as copy:
            copy.write(text)
        os.chmod(self.gate, 0o755)
        with open(os.path.join(top, 'docs', 'TRUST.md'), 'w', encoding='utf-8') as trust:
            trust.write(f'`{KIT}`\n')
        self.streams = [re.findall(r'\btests/[a-z0-9_]+\.(?:py|sh)', stream) for stream in re.findall(r'(?ms)^[a-z]+_stream\(\) \{$.*?^}$', text)]
        self.tests = sorted(sum(self.streams, []))
        for name in self.tests:
            self.test(name)
        self.rt()

    def test(self, name, does=('exit 0',)):
        """The tests in Python are run by a stand-in for python3, so that all are shell."""
        script_of(os.path.join(self.top, name), [f'echo {name} >>ran', *does])
        script_of(os.path.join(self.top, 'bin', 'python3'), ['exec "$@"'])

    def rt(self, proving=('echo some crate', f'echo "{OK}"', f'echo {PASSED}'), archive=('echo archive >out/libstretch_c.a',),
           sums=('echo sum', 'exit 0')):
        """`archive` is what `rt lib` does, and `sums` what .ci/take does before rt ci and behind it, where it is given the sum. Each time rt is
        run it leaves its words in `asked`, and the place."""
        script_of(os.path.join(self.top, 'bin', 'rt'), [
            f'echo "${{PWD#{self.top}}}:$*" >>{self.top}/asked', 'case "$*" in', f'version) echo {KIT} ;;',
            'lib) echo "rt: what lib says"; mkdir out;', *archive, ';;',
            f'ci) find . ! -path ./asked ! -path ./found | sort >{self.top}/found;', *proving, ';;', '*) exit 9 ;;', 'esac'])
        script_of(os.path.join(self.top, '.ci', 'take'), ['case "$*" in', f"'') {sums[0]} ;;", f'sum) {sums[1]} ;;', '*) exit 9 ;;', 'esac'])

    def lines_of(self, name):
        with open(os.path.join(self.top, name), encoding='utf-8') as lines:
            return lines.read().splitlines()

    def waits(self, name):
        """A test, or rt, that waits until it is ended, or for half of our patience. It leaves its number."""
        return [f'echo $$ >{name}.begun', 'i=0', f'while [ $i -lt {PATIENCE * 10} ]; do sleep 0.05; i=$((i + 1)); done', f'touch {name}.done']

    def start(self, words=None, cwd=None, **more):
        path = os.path.join(self.top, 'bin') + os.pathsep + os.environ['PATH']
        return subprocess.Popen(words or [self.gate], env=dict(os.environ, PATH=path, **more), cwd=cwd, stdin=subprocess.DEVNULL,
                                stdout=subprocess.PIPE, stderr=subprocess.STDOUT, text=True)

    def run(self, *words, ended=(), **more):
        """Output and status of the gate, with which those that wait have been ended."""
        with self.start(*words, **more) as gate:
            try:
                # not by its output, which whoever goes on has open too; that is short
                gate.wait(PATIENCE)
                for name in ended:
                    self.was_ended('the gate has ended', name)
                return gate.communicate(timeout=PATIENCE)[0], gate.returncode
            except subprocess.TimeoutExpired:
                gate.kill()
                wrong(f'the gate does not end; the tests that ran are {self.ran()}', '')

    def begun(self, name):
        """The number that one left which waits, or None."""
        try:
            with open(os.path.join(self.top, f'{name}.begun'), encoding='utf-8') as number:
                return int(number.read() or 0) or None
        except FileNotFoundError:
            return None

    def was_ended(self, what, name):
        """What waits, by now, or as soon as a process that is killed has gone."""
        until = time.monotonic() + 2
        while not is_over(self.begun(name)) and time.monotonic() < until:
            time.sleep(0.01)
        if not is_over(self.begun(name)) or os.path.exists(os.path.join(self.top, f'{name}.done')):
            wrong(f'{what}: {name} went on', '')

    def wait_for(self, name):
        until = time.monotonic() + PATIENCE
        while self.begun(name) is None:
            if until < time.monotonic():
                wrong(f'{name} was not begun', '')
            time.sleep(0.01)

    def ran(self):
        try:
            with open(os.path.join(self.top, 'ran'), encoding='utf-8') as names:
                return sorted(names.read().split())
        except FileNotFoundError:
            return []


def is_over(number):
    """A process that has ended and that nobody has asked for its status."""
    try:
        with open(f'/proc/{number}/stat', encoding='utf-8', errors='replace') as stat:
            return stat.read().rsplit(')', 1)[1].split()[0] == 'Z'
    except OSError:
        return True


def programs():
    """Every file of tests/ that is a program, by its first line."""
    names = []
    for name in sorted(os.listdir(os.path.join(TOP, 'tests'))):
        with open(os.path.join(TOP, 'tests', name), 'rb') as file:
            if file.read(2) == b'#!':
                names.append(f'tests/{name}')
    return names


def passes():
    with tempfile.TemporaryDirectory() as top:
        stand = Stand(top)
        there = sorted(['.', *(os.path.join('.', os.path.relpath(os.path.join(folder, name), top)) for folder, folders, names in os.walk(top)
                               for name in folders + names)])
        output, status = stand.run()
        if status != 0 or output.splitlines()[-1] != PASSED or len(NEVER.findall(output)) != 1 or f'kit {KIT}\n' not in output:
            wrong('all passed', output)
        if stand.lines_of('asked') != [':version', ':ci', '/crates/stretch_c:lib']:
            wrong(f'rt was asked {stand.lines_of("asked")}', output)
        if sorted(stand.lines_of('found')) != there:
            wrong(f'rt ci finds {stand.lines_of("found")}, and not the folder as it was: {there}', output)
        if stand.lines_of('target/staticlib/libstretch.a') != ['archive']:
            wrong('the archive is not the one that rt lib has made', output)
        if stand.ran() != programs():
            wrong(f'the tests that ran are {stand.ran()}, expected {programs()}', output)
        with open(os.path.join(top, 'docs', 'TRUST.md'), 'w', encoding='utf-8') as trust:
            trust.write('`another-kit`\n')
        output, status = stand.run()
        if status != 0 or f'kit {KIT}, ANOTHER' not in output:
            wrong('another kit is not told', output)


def fails(what, change, stream=None, said='', nowhere=True):
    """The last line says so, `said` is there, and PASSED is nowhere. All tests of the stream ran, none where none is named."""
    with tempfile.TemporaryDirectory() as top:
        stand = Stand(top)
        change(stand)
        output, status = stand.run()
        if status == 0 or nowhere and NEVER.search(output) or 'gate: FAILED' not in output.splitlines()[-1] or said not in output:
            wrong(f'{what}: status {status}', output)
        if stream is None and stand.ran() or stream is not None and not set(stream) <= set(stand.ran()):
            wrong(f'{what}: the tests that ran are {stand.ran()}', output)


def goes_on(change):
    """What is no failure."""
    with tempfile.TemporaryDirectory() as top:
        stand = Stand(top)
        change(stand)
        output, status = stand.run()
        if status != 0 or output.splitlines()[-1] != PASSED or stand.ran() != stand.tests:
            wrong(f'no failure: status {status}', output)


def ends_the_other(failing, other, *first):
    """Where a test of one stream fails, a test of the other that is still at work is ended, whatever it does `first`."""
    with tempfile.TemporaryDirectory() as top:
        stand = Stand(top)
        stand.test(other[0], [*first, *stand.waits('other')])
        stand.test(failing[0], ['while [ ! -s other.begun ]; do sleep 0.02; done', 'exit 1'])
        output, status = stand.run(ended=['other'])
        if status == 0 or NEVER.search(output) or 'the other stream was ended' not in output.splitlines()[-1]:
            wrong(f'{failing[0]} fails: status {status}', output)
        if not set(failing) <= set(stand.ran()) or set(other[1:]) & set(stand.ran()):
            wrong(f'{failing[0]} fails: the tests that ran are {stand.ran()}', output)


def hangs():
    """A test that does not end is ended, the others of its stream run, and it is told."""
    with tempfile.TemporaryDirectory() as top:
        stand = Stand(top)
        name = stand.streams[1][0]
        stand.test(name, stand.waits('hanging'))
        output, status = stand.run(ended=['hanging'], TEST_SECONDS='1')
        if status == 0 or NEVER.search(output) or not re.search(f'(?m)^gate: FAILED: python3 {name}, ended after [0-9]+ s$', output):
            wrong(f'{name} hangs: status {status}', output)
        if not set(stand.streams[1]) <= set(stand.ran()):
            wrong(f'{name} hangs: the tests that ran are {stand.ran()}', output)


def killed(number):
    """The script itself, while a test of each stream is still at work and rt ci has passed; and while rt ci is at work."""
    with tempfile.TemporaryDirectory() as top:
        stand = Stand(top)
        begun = [stream[-1] for stream in stand.streams]
        for name in begun:
            stand.test(name, stand.waits(name))
        ended(number, stand, begun)
    if number != signal.SIGKILL:
        with tempfile.TemporaryDirectory() as top:
            stand = Stand(top)
            stand.rt(['echo some crate', *stand.waits('rt'), f'echo "{OK}"', f'echo {PASSED}'])
            ended(number, stand, ['rt'])


def ended(number, stand, begun):
    gate = stand.start()
    for name in begun:
        stand.wait_for(name)
    gate.send_signal(number)
    gate.wait(PATIENCE)
    for name in begun:
        if number == signal.SIGKILL:
            os.kill(stand.begun(name), signal.SIGKILL)  # here nothing else can do it
        else:
            stand.was_ended(f'killed by {number}', name)
    output = gate.communicate(timeout=PATIENCE)[0]
    if gate.returncode == 0 or NEVER.search(output):
        wrong(f'killed by {number}: status {gate.returncode}', output)


def elsewhere():
    """By a relative name, with a folder of that name among those that cd searches."""
    with tempfile.TemporaryDirectory() as top, tempfile.TemporaryDirectory() as other:
        stand = Stand(top)
        os.makedirs(os.path.join(other, '.ci'))
        output, status = stand.run(['.ci/run'], cwd=top, CDPATH=other)
        if status != 0 or output.splitlines()[-1] != PASSED or stand.ran() != stand.tests:
            wrong('with CDPATH', output)


def as_it_comes():
    """A line of rt ci is printed when the next one is there, and not at the end."""
    with tempfile.TemporaryDirectory() as top:
        stand = Stand(top)
        stand.rt(['echo first', 'echo second', 'while [ ! -e seen ]; do sleep 0.05; done', f'echo "{OK}"', f'echo {PASSED}'])
        with stand.start() as gate:
            for line in gate.stdout:
                if line == 'first\n':
                    break
            with open(os.path.join(top, 'seen'), 'w', encoding='utf-8'):
                pass
            output, status = gate.stdout.read(), gate.wait(PATIENCE)
        if status != 0 or not output.startswith('second\n') or output.splitlines()[-1] != PASSED:
            wrong('lines as they come', output)


def cases():
    """Each as a function and what it is called with."""
    with tempfile.TemporaryDirectory() as top:
        streams = Stand(top).streams
    yield from ((passes,), (as_it_comes,), (elsewhere,), (ends_the_other, *streams), (ends_the_other, *streams[::-1]), (hangs,),
                (ends_the_other, *streams, "trap '' TERM"))
    yield from ((killed, number) for number in (signal.SIGKILL, *ENDING))
    for stream in streams:
        for name in stream:
            yield fails, f'{name} fails', lambda stand, name=name: stand.test(name, ['exit 1']), stream
        yield fails, 'a test is killed', lambda stand, stream=stream: stand.test(stream[0], ['kill -9 $$']), stream
        yield fails, 'two tests fail', lambda stand, stream=stream: [stand.test(name, ['exit 3']) for name in stream[:2]], stream
    for what, archive in (('is not proved', ['exit 1']), ('is proved and not there', ['exit 0']),
                          ('is there and not proved', ['echo archive >out/libstretch_c.a', 'exit 1'])):
        yield fails, f'the archive {what}', lambda stand, archive=archive: stand.rt(archive=archive), None, 'what lib says'
    yield fails, 'the sources cannot be read', lambda stand: stand.rt(sums=('exit 1', 'exit 0'))
    yield fails, 'a program is not there, or its sources were changed', lambda stand: stand.rt(sums=('echo sum', 'echo say why; exit 1')), None, 'say why'
    one_failed = '6 passed, 1 failed'
    yield fails, 'a crate fails', lambda stand: stand.rt([f'echo {one_failed}', 'exit 1']), None, f'\n{one_failed}\n'
    for what, proving in (
            ('a crate fails, with status 0', [f'echo {one_failed}']),
            ('a crate fails, with status 0, behind a line that says otherwise', [f'echo "{OK}"', f'echo {one_failed}']),
            ('rt ci prints nothing', ['exit 0']),
            ('rt ci is killed', ['echo some crate', 'kill -9 $$']),
            ('rt ci is killed behind its last line', [f'echo "{OK}"', f'echo {PASSED}', 'kill -9 $$']),
            ('rt ci fails behind its last line', [f'echo "{OK}"', f'echo {PASSED}', 'exit 2']),
            ('some crates alone are proved', [f'echo "{OK}"', f'echo "{PASSED} (low and the crates below alone: not the gate)"']),
            ('rt ci does not say ok', [f'echo {PASSED}']),
            ('rt ci says another word', ['echo "rt: okay, nearly"', f'echo {PASSED}'])):
        yield fails, what, lambda stand, proving=proving: stand.rt(proving), None, '', 'alone' not in what
    for edits in ('3 refused, 2 bad', '0 refused, 1 bad', '13 refused, 2 of them only by a limit, 10 bad'):
        said = OK.replace('3 refused', edits)
        yield fails, f'must-fail edits: {edits}', lambda stand, said=said: stand.rt([f'echo "{said}"', f'echo {PASSED}']), None, said
    limited = OK.replace('3 refused', '3 refused, 1 of them only by a limit')
    yield goes_on, lambda stand: stand.rt([f'echo "{limited}"', f'echo {PASSED}'])
    yield (fails, 'rt ci goes on behind that line', lambda stand: stand.rt([f'echo "{OK}"', f'echo {PASSED}', 'echo and more']), None, '', False)


def share(these):
    """Some of the cases, in a process of their own: most of them wait, so that several at a time take less."""
    sys.stdout.flush()
    process = os.fork()
    if process:
        return process
    status = 1
    try:
        for case, *given in these:
            case(*given)
        status = 0
    except SystemExit as why:
        print(why)
    except BaseException:
        traceback.print_exc()
    finally:
        sys.stdout.flush()
        os._exit(status)


def main():
    # a shell has its background jobs ignore SIGINT, and this may be one of them
    for number in ENDING:
        signal.signal(number, signal.SIG_DFL)
    ways = list(cases())
    if any([os.waitpid(process, 0)[1] for process in [share(ways[first::6]) for first in range(6)]]):
        sys.exit(1)
    print(f'gate: {len(ways)} ways: each test failing, one hanging, rt ci failing or killed, the script killed; the last line is held back, and '
          'nothing goes on')


main()
