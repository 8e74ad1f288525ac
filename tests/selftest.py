#!/usr/bin/env python3
"""The tests themselves: by Python without assertions, with parts that fail, hang, fall or leave something running, without their data, and
with a CDPATH. tests/gate.py is the same for .ci/run.

    tests/selftest.py [PART..]     exits 1 where a test would pass over something; all parts unless some are named"""
import ast
import os
import shlex
import shutil
import signal
import sys

sys.dont_write_bytecode = True
from frame import (SHORT, TOP, all_gone, comes_true, contents, file_of, holds, lines_of, run, run_parts, same, script_of, started)  # noqa: E402

PYTHON = ['tests', 'tools', 'bench']


def optimised(folder):
    """What a test finds out is found out by Python with its assertions switched off too."""
    for place in PYTHON:
        for name in sorted(os.listdir(os.path.join(TOP, place))):
            source = contents(os.path.join(TOP, place, name))
            if name.endswith('.py') or source.startswith(b'#!/usr/bin/env python3\n'):
                for node in ast.walk(ast.parse(source)):
                    holds(f'{place}/{name} has an assertion', not isinstance(node, ast.Assert))
                    holds(f'{place}/{name} has a use for __doc__', not (isinstance(node, ast.Name) and node.id == '__doc__'))
    wrong = {'a verdict': ('standing = lambda w: rules.CLEAR', 'listing'),
             'the number open': ('MOST_OPEN = 64; rules.after_line = (lambda f: lambda *a: f(*a)._replace(held=[]))(rules.after_line)', 'listing'),
             'the first orders': ('orders_stepped = lambda p, run: (None, None)', 'shown_why'),
             'the orders of a verdict': ('standing = lambda w: rules.CLEAR', 'shown_why')}
    for what, (change, called) in wrong.items():
        code = f'import rules; rules.{change}; rules.{called}(open({os.path.join(TOP, "samples", "case11.bin")!r}, "rb").read())'
        for level in ('', '1', '2'):
            status, out, said = run([sys.executable, '-B', '-c', code], env=dict(os.environ, PYTHONOPTIMIZE=level, PYTHONPATH=os.path.join(TOP, 'tests')))
            holds(f'{what}, PYTHONOPTIMIZE={level}: status {status}, {said}', status == 1 and f'rules.Contradiction: {what}: ' in said)


FAILING = """
import os, subprocess, sys, threading, time
sys.path.insert(0, sys.argv[1])
import frame

def fails_while_a_thread_waits(folder):
    reader, writer = os.pipe()
    threading.Thread(target=lambda: os.read(reader, 1)).start()
    raise frame.Wrong('as it should')

def takes_too_long(folder):
    started()
    time.sleep(600)

def leaves_a_process(folder):
    started()

def falls(folder):
    return folder.nothing

def started():
    process = subprocess.Popen(['sleep', '600'])
    with open('started', 'a') as file:
        print(process.pid, file=file)

def passes(folder):
    pass

frame.run_parts('it', [passes, fails_while_a_thread_waits, takes_too_long, leaves_a_process, falls], sys.argv[2:], 1)
"""


def failing_parts(folder):
    """A part that fails, hangs or falls ends, with all that it started, and the others are run."""
    script = file_of(folder, 'failing.py', FAILING.encode())
    words = [sys.executable, '-B', script, os.path.join(TOP, 'tests')]
    status, out, said = run(words, cwd=folder)
    told = [line for line in out.decode().split('\n') if line]
    same('the status', status, 1)
    same('what is told', told, ['it: FAILED: fails_while_a_thread_waits: as it should', 'it: FAILED: takes_too_long: not done after 1 s',
                               'it: FAILED: falls'])
    holds(f'the fall is told: {said}', 'AttributeError' in said)
    left = lines_of(os.path.join(folder, 'started'))
    same('what was started', len(left), 2)
    all_gone('what was started', left)
    same('a part by its name', run(words + ['passes'], cwd=folder), (0, b'it: 1 parts as expected: passes\n', ''))
    same('a part that is not there', run(words + ['nothing'], cwd=folder)[0], 1)
    # a signal ends the part that is at work
    os.remove(os.path.join(folder, 'started'))
    script = file_of(folder, 'failing.py', FAILING.replace('[2:], 1)', '[2:], 600)').encode())
    with started(words + ['takes_too_long'], cwd=folder) as runner:
        comes_true('the part has begun', lambda: len(lines_of(os.path.join(folder, 'started'))) == 1)
        runner.send_signal(signal.SIGTERM)
        same('the status', runner.wait(SHORT), 128 + signal.SIGTERM)
        all_gone('what was started', lines_of(os.path.join(folder, 'started')))


DATA = 'samples.expected', 'pack.refused', 'edges.expected'


class C:
    """tests/c.sh in a folder of its own, with two lines of each file of data, and stand-ins for the compilers, which note what they are
    given and build programs that do nothing."""

    def __init__(self, folder):
        self.top = os.path.join(folder, 'checkout')
        for part in ('tests', 'tools', 'samples', 'include', 'examples'):
            shutil.copytree(os.path.join(TOP, part), os.path.join(self.top, part))
        for name in DATA:
            path = os.path.join(self.top, 'tests', name)
            file_of(os.path.dirname(path), name, b''.join(contents(path).splitlines(True)[:2]))
        self.bin = os.path.join(folder, 'bin')
        os.makedirs(self.bin)
        self.built = os.path.join(folder, 'built')
        for name in ('cc', 'c++'):
            script_of(os.path.join(self.bin, name), f'echo "$*" >>{shlex.quote(self.built)}',
                      'while [ $# -gt 1 ]; do [ "$1" = -o ] && { echo "#!/bin/sh" >"$2" && chmod +x "$2"; }; shift; done')
        script_of(os.path.join(self.bin, 'uname'), 'echo x86_64')
        os.makedirs(os.path.join(self.top, 'lib'))
        file_of(os.path.join(self.top, 'lib'), 'libstretch.a', b'')

    def run(self, **more):
        env = dict(os.environ, PATH=self.bin + os.pathsep + os.environ['PATH'], **more)
        env.pop('C_BY_KIT', None)
        return run(['tests/c.sh', 'lib/libstretch.a', 'built'], env=env, cwd=self.top)


def c_without_data(folder):
    """A file of data without a line is a failure, and not a test of nothing."""
    c = C(folder)
    holds('a file with lines is called empty', b'is empty' not in c.run()[1])
    for name in DATA:
        path = os.path.join(c.top, 'tests', name)
        kept = contents(path)
        file_of(os.path.dirname(path), name, b'')
        status, out, _ = c.run()
        same(f'{name} is empty', (status, f'c: FAILED: tests/{name} is empty'.encode() in out.split(b'\n')), (1, True))
        file_of(os.path.dirname(path), name, kept)


def c_elsewhere(folder):
    """With folders of the same names among those that cd searches, what is built is that of this folder."""
    c = C(folder)
    for name in ('lib', 'tests', 'built'):
        os.makedirs(os.path.join(folder, 'decoy', name))
    c.run(CDPATH=os.path.join(folder, 'decoy'))
    words = contents(c.built).split()
    same('the archive', {word for word in words if word.endswith(b'.a')}, {os.fsencode(os.path.realpath(os.path.join(c.top, 'lib', 'libstretch.a')))})
    holds('what is elsewhere is built', words and b'/decoy/' not in contents(c.built))


PARTS = [optimised, failing_parts, c_without_data, c_elsewhere]


run_parts('selftest', PARTS, sys.argv[1:])
