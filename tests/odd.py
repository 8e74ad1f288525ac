#!/usr/bin/env python3
"""The tools under odd conditions: inputs that do not block, texts that a terminal would obey, signals while something is built or listed,
an odd environment, closed descriptors; and what is alike in all of them. Exits 1 where something is not as docs/DECISIONS.md says.

    tests/odd.py [PART..]     all parts unless some are named"""
import contextlib
import fcntl
import os
import re
import shlex
import signal
import socket
import subprocess
import sys
import time

sys.dont_write_bytecode = True
import logs  # noqa: E402
import rules  # noqa: E402
from frame import (HEEDED, LISTING, NAMES, PACK, PATIENCE, RELEASE, SHORT, SITE, TEXT, TOOLS, TOP, UNPACK, Folder, all_gone, children,  # noqa: E402
                   comes_true, contents, file_of, holds, is_gone, lines_of, message, run, run_parts, same, script_of, some_line, started)
from logs import B, LONG  # noqa: E402
from rules import END, END_RECORD, GAP, INPUT, LIMIT, OUTPUT, TAP_END, pack_record, pack_tap  # noqa: E402

HEADER = 'line kind action stamp verdict open\n'
FORM = rules.pack_property(B)
BEHIND = b'not to be read'


# ---- inputs that do not block

@contextlib.contextmanager
def input_that_does_not_block(kind):
    """Both ends of a pipe, or of a socket, of which the one that is read does not block."""
    if kind == 'pipe':
        reader, writer = os.pipe()
    else:
        reader, writer = (end.detach() for end in socket.socketpair())
    os.set_blocking(reader, False)
    ends = {reader, writer}

    def close(end):
        if end in ends:
            ends.remove(end)
            os.close(end)
    try:
        yield reader, writer, close
    finally:
        close(reader)
        close(writer)


def comes_slowly(words, parts, kind='pipe', env=None):
    """Status, output, messages and what is left in the input, of which one part comes after the other, the first when the tool is there
    and waits."""
    with input_that_does_not_block(kind) as (reader, writer, close):
        with started(words, stdin=reader, stderr=subprocess.PIPE, env=env) as tool:
            time.sleep(.25)
            for part in parts:
                os.write(writer, part)
                time.sleep(.03)
            close(writer)
            out, said = tool.communicate(timeout=PATIENCE)
            left = b''
            with contextlib.suppress(BlockingIOError):
                left = os.read(reader, 1000)
            return tool.returncode, out, said.decode(), left


def waits_for_input(folder):
    """Where nothing has come yet the input has not ended, for each tool, from a pipe and from a socket."""
    made = Folder(folder)
    env = made.environment()
    log = [FORM[:1], FORM[1:9], FORM[9:] + pack_record(INPUT, 0, 100), pack_record(OUTPUT, 2, 61)[:2], pack_record(OUTPUT, 2, 61)[2:],
           END_RECORD + BEHIND]
    card = [FORM, pack_tap(INPUT, 0, 100)[:4], pack_tap(INPUT, 0, 100)[4:] + pack_tap(OUTPUT, 2, 161), TAP_END + BEHIND]
    listed = (HEADER + '1 I 0 100 clear 1\n2 O 2 161 certain 0\nend 2\n').encode()
    named = listed.replace(b'action', b'action name').replace(b'I 0 ', b'I 0 - ').replace(b'O 2 ', b'O 2 - ')
    text = TEXT + b'?0 @100\n!2 @161\nend\n'
    for kind in ('pipe', 'socket'):
        for words, parts, want in (([made.listing], log, listed), ([made.listing, '--tap'], card, listed),
                                   ([made.listing, '--why'], log, b'certain 2\n1 110\n2 131\n'),
                                   ([made.listing, '--names', os.devnull, os.devnull], log, named)):
            same(f'{words[1:]} of a {kind}', comes_slowly(words, parts, kind, env), (0, want, '', BEHIND))
        packed = b''.join(log)[:-len(BEHIND)]
        for words, parts, want in (([UNPACK], log[:-1] + [END_RECORD], text), ([PACK], [text[:20], text[20:41], text[41:]], packed),
                                   ([PACK, '--follow'], [text[:20], text[20:41], text[41:]], packed),
                                   ([NAMES], [b'?0 a\n!', b'2 b\n'], rules.pack_names({(False, 0): b'a', (True, 2): b'b'}))):
            same(f'{words} of a {kind}', comes_slowly(words, parts, kind), (0, want, '', b''))
    # nothing at all, and then an end
    same('an empty log', comes_slowly([made.listing], [], env=env), (1, (HEADER + 'stop 0 7\n').encode(), '', b''))


def late_line(folder):
    """A charge that comes after a while is not lost between two tools, neither of whose inputs blocks."""
    made = Folder(folder)
    with input_that_does_not_block('pipe') as (text, texts, close), input_that_does_not_block('pipe') as (log, logged, close_log):
        with started([made.listing], stdin=log, env=made.environment()) as lister:
            with subprocess.Popen([PACK, '--follow'], stdin=text, stdout=logged) as packer:
                close_log(logged)
                os.write(texts, TEXT + b'?0 @100\n')
                same('the first lines', [some_line(lister.stdout), some_line(lister.stdout)], [HEADER, '1 I 0 100 clear 1\n'])
                time.sleep(.5)
                os.write(texts, b'!2 @161\n')
                same('the late line', some_line(lister.stdout), '2 O 2 161 certain 0\n')
                close(texts)
                same('the last line', some_line(lister.stdout), 'end 2\n')
                same('their statuses', (packer.wait(SHORT), lister.wait(SHORT)), (0, 0))


def no_further(folder):
    """What is behind a refusal or an end is left, in a pipe that does not block and, with names, in a file that is given as the input."""
    made = Folder(folder)
    env = made.environment()
    ends = [(FORM + END_RECORD, 'end 0'), (FORM + pack_record(INPUT, 0, 100) + END_RECORD, 'end 1'),
            (FORM + pack_record(INPUT, 0, 100) + pack_record(END, 1, 0), 'stop 1 8'),
            (FORM + pack_record(INPUT, 0, LIMIT) + pack_record(OUTPUT, 0, 1), 'stop 1 4'),
            (FORM + pack_record(INPUT, 0, 0) * 65, 'stop 64 6'), (FORM[:-1] + b'\1', 'stop 0 8'), (b'\0' * 16, 'stop 0 1'),
            (rules.pack_property(B, 33), 'stop 0 1'), (LONG, rules.listing(LONG, 50)[0][-1])]
    for data, last in ends:
        with input_that_does_not_block('pipe') as (reader, writer, close):
            # the pipe takes it all
            fcntl.fcntl(writer, 1031, 1 << 16)  # F_SETPIPE_SZ
            os.write(writer, data + BEHIND)
            close(writer)
            done = subprocess.run([made.listing], stdin=reader, stdout=subprocess.PIPE, env=env, timeout=PATIENCE)
            same('the last line', done.stdout.decode().split('\n')[-2], last)
            same(f'what is left in the pipe after {last}', os.read(reader, 1000), BEHIND)
        for front in (b'', b'read before'):
            with open(file_of(folder, 'log', front + data + BEHIND * 9000), 'rb', buffering=0) as log:
                log.read(len(front))
                done = subprocess.run([made.listing, '--names', SITE, RELEASE], stdin=log, stdout=subprocess.PIPE, env=env, timeout=PATIENCE)
                same('the last line', done.stdout.decode().split('\n')[-2], last)
                same(f'where the file is read on after {last}', os.lseek(log.fileno(), 0, os.SEEK_CUR), len(front + data))
    # of a file behind a broken list nothing is read, nor more than there is of one that ends early
    broken, log = file_of(folder, 'broken', b'\0\1 '), file_of(folder, 'log', FORM + pack_record(INPUT, 0, 100)[:4])
    for site, last, read in ((broken, 'stop 0 11', 0), (SITE, 'stop 0 7', len(FORM) + 4)):
        with open(log, 'rb', buffering=0) as given:
            done = subprocess.run([made.listing, '--names', site, RELEASE], stdin=given, stdout=subprocess.PIPE, env=env, timeout=PATIENCE)
            same('the last line', done.stdout.decode().split('\n')[-2], last)
            same(f'where the file is read on after {last}', os.lseek(given.fileno(), 0, os.SEEK_CUR), read)


IN_BLOCKS = """#!/usr/bin/env python3
# In the place of the program with names: waits until much more than one record has come, and has read none by then.
import array, fcntl, sys, termios, time
there = array.array('i', [0])
for _ in range(1000):
    fcntl.ioctl(0, termios.FIONREAD, there)
    if there[0] > 10000:
        break
    time.sleep(.01)
print('end %d' % (there[0] > 10000))
"""


def names_in_blocks(folder):
    """With names a file is handed to the program in blocks, and not record by record."""
    made = Folder(folder)
    with open(made.named_program, 'w', encoding='utf-8') as program:
        program.write(IN_BLOCKS)
    log = file_of(folder, 'log', LONG)
    same('a file', made.run('--names', os.devnull, os.devnull, log, rt=False), (0, b'end 1\n', ''))


def stops_blocking(folder):
    """A pipe that is set not to block while the program itself reads it: that its end is not known is told."""
    made = Folder(folder)
    reader, writer = os.pipe()
    with started([made.listing], stdin=reader, stderr=subprocess.PIPE, env=made.environment()) as lister:
        os.write(writer, FORM + pack_record(INPUT, 0, 100))
        same('two lines', [some_line(lister.stdout), some_line(lister.stdout)], [HEADER, '1 I 0 100 clear 1\n'])
        os.set_blocking(reader, False)
        # perhaps it waits already, and then for this one
        os.write(writer, pack_record(INPUT, 0, 0))
        same('the status', lister.wait(SHORT), 2)
        message('it stops blocking', lister.stderr.read().decode(), 'standard input was set not to block')
    os.close(reader)
    os.close(writer)


def cut_line(folder):
    """With --follow a last line without its line end is told, and nothing of it is packed."""
    form, first = FORM, pack_record(INPUT, 0, 100)
    for cut in (b'!2 @100', b'!2 @1005', b'!', b'end', b'# a comment', b' '):
        status, out, said = run([PACK, '--follow'], TEXT + b'?0 @100\n' + cut)
        same(f'{cut}: status and output', (status, out), (1, form + first))
        message(str(cut), said, 'pack: line 5: ', 'without a line end')
    same('a whole line', run([PACK, '--follow'], TEXT + b'?0 @100\n!2 @100\n'), (0, form + first + pack_record(OUTPUT, 2, 0) + END_RECORD, ''))


def full_messages(folder):
    """A message is whole also where standard error does not block and has no room for it yet."""
    reader, writer = os.pipe()
    os.set_blocking(writer, False)
    room = 0
    with contextlib.suppress(BlockingIOError):
        while True:
            room += os.write(writer, b'x' * 4096)
    with started([PACK], stdin=subprocess.DEVNULL, stderr=writer) as packer:
        os.close(writer)
        time.sleep(.5)
        got = b''
        while True:
            some = os.read(reader, 65536)
            if not some:
                break
            got += some
        same('the status', packer.wait(SHORT), 1)
    os.close(reader)
    same('the message', got[room:], b"pack: line 1: there is no 'bounds', and the text ends\n")


# ---- texts that a terminal would obey

OBEYED = [b'\x1b[2J\x1b]0;owned\x07', b'\xc2\x9b31m', b'\x9b31m', b'\xe2\x80\xae', b'\xe2\x80\x8b', b'\xe2\x80\xa8', b'\xc2\x85', b'\x7f\x08',
          b'a\rb', b'\xff\xfe', b'\xed\xb2\x9b', b'\x0b\x0c\x1c']
LONG_WORD = b'x' * 60_000


def plain(what, said, lines=1, longest=400):
    """A message of so many lines that any terminal shows as it is."""
    same(f'{what}: what is not plain in {said!r}', re.findall('[^ -~\n]', said), [])
    same(f'{what}: the lines of {said!r}', said.count('\n'), lines)
    holds(f'{what}: {len(said)} characters', longest is None or len(said) <= longest)


def obeyed_words(folder):
    """A word of a log or a list is shown escaped, and a long one cut."""
    def told(words, text, what):
        status, out, said = run(words, text + b'\n')
        same(f'{what}: status and output', (status, out), (1, b''))
        plain(what, said)

    for word in OBEYED:
        told([PACK], TEXT + word + b' @5', f'pack {word}')
        told([NAMES], word + b' x', f'names {word}')
    for word in (b''.join(OBEYED), LONG_WORD):
        for before, behind in ((b'?', b' @5'), (b'?0 @', b''), (b'gap @5 lost ', b''), (b'end ', b'')):
            told([PACK], TEXT + before + word + behind, f'pack {before} {word[:20]}')
        for before, behind in ((b'bounds ', b' 30'), (b'sequence ?0 ', b''), (b'allow ', b''), (b'allow !', b''), (b'origin ', b'')):
            told([PACK], before + word + behind, f'pack {before} {word[:20]}')
        for before, behind in ((b'', b' x'), (b'!', b' x'), (b'?0 ', b''), (b'?0 ', b' x'), (b'?00', b' x')):
            told([NAMES], before + word + behind, f'names {before} {word[:20]}')
        site = file_of(folder, 'site', b'?0 a\n' + word + b' x\n')
        told([LISTING, '--names', site, os.devnull, os.devnull], b'', f'listing {word[:20]}')
    # what is cut says how much there was, and what is escaped can be told
    said = run([PACK], TEXT + LONG_WORD + b' @5\n')[2]
    same('a long word', said, f"pack: line 4: '{'x' * 40}..' (60000 characters) is not an action: ?0 to ?63 or !0 to !63\n")
    said = run([PACK], TEXT + b'\x1b[31m?0\xc2\x9b\xff\xe2\x80\xae @5\n')[2]
    same('escapes', said, "pack: line 4: '\\x1b[31m?0\\x9b\\xff\\u202e' is not an action: ?0 to ?63 or !0 to !63\n")
    same('no name', run([NAMES], b'?' + b'0' * 5000 + b'\n')[2], 'names: line 1: there is no name behind ?0\n')
    # letters and digits that only look like those of ASCII
    for word, told in ((b'?\xef\xbc\x90', "'\\uff10' is not an action's number"), (b'\xef\xbc\x9f0', "'\\uff1f0' is not an action: ")):
        holds(told, told in run([PACK], TEXT + word + b' @5\n')[2])
        holds(told, told in run([NAMES], word + b' x\n')[2])


def obeyed_arguments(folder):
    """So are words of the command line, the names of files, and what rt says."""
    made = Folder(folder)
    usage = {tool: run([tool, '-h'])[1].decode().split('\n\n')[0].count('\n') + 1 for tool in TOOLS}
    for word in (os.fsdecode(b''.join(OBEYED)), 'a\nlisting:all-is-well'):
        for tool in TOOLS:
            for words, lines in (([word], 1), (['--' + word], usage[tool] + 1), ([tool, word], usage[tool] + 1)):
                status, out, said = run([tool] + words)
                same(f'{tool} {words}: status and output', (status, out), (2, b''))
                plain(f'{tool} {words}', said, lines, None)
        for words, lines in (([PACK, '--origin', word], usage[PACK] + 1), ([LISTING, '--names', os.devnull, word, os.devnull], 1)):
            status, out, said = run(words)
            same(f'{words}: status and output', (status, out), (2, b''))
            plain(f'{words}', said, lines, None)
    same('a printable name', run([UNPACK, 'h\u00e9 \u4e16'])[2], 'unpack: h\u00e9 \u4e16: No such file or directory\n')
    said = '\x1b[2J\u009b31m\u202e'
    made.play([f'crate meaning{said}: modules loaded=1 checked=1', f'crate meaning: modules loaded=1 checked=1 {said}', f'logic=proved {said}',
               f'rt: waiting for {said}', f'rt: 1 not proved {said}'], 1)
    made.change()
    status, out, told = made.run(data=FORM)
    same('rt run fails', (status, out), (2, b''))
    plain('rt run fails', told, 9, None)
    made.play(doc=f"printf '%s\\n' {shlex.quote(said)}")
    plain('rt doc', made.run(data=FORM)[2])


# ---- signals, and what is being built

@contextlib.contextmanager
def building(made, first=':'):
    """A tool whose rt run has started two processes and waits for them, as rt does; and the numbers of the three, rt's first. What the two
    do `first` is given. None of them is left."""
    path = os.path.join(made.top, 'numbers')
    mine = f'echo $$ >>{shlex.quote(path)}'
    made.play(more=f"{mine}; for i in 1 2; do sh -c {shlex.quote(f'{first}; {mine}; exec sleep 600')} & done; wait")
    made.change()
    try:
        with listing_nothing(made) as tool:
            comes_true('rt run has started two processes', lambda: len(lines_of(path)) == 3)
            yield tool, [int(line) for line in lines_of(path)]
    finally:
        for line in lines_of(path):
            with contextlib.suppress(ProcessLookupError):
                os.kill(int(line), signal.SIGKILL)
        os.remove(path)


def listing_nothing(made):
    return started([made.listing], stdin=subprocess.DEVNULL, stderr=subprocess.PIPE, env=made.environment())


def signals_while_building(folder):
    """A signal ends all that a build has started, and the lock is free."""
    made = Folder(folder)
    for number in HEEDED:
        with building(made) as (tool, begun):
            tool.send_signal(number)
            same(f'the status after {number!r}', tool.wait(SHORT), -number)
            all_gone(f'what rt started, after {number!r}', begun)
            same(f'messages after {number!r}', tool.stderr.read(), b'')
        made.play()
        same('the next listing', made.run(data=FORM + END_RECORD)[0], 0)
    # what does not end by itself is killed
    made.hurry()
    with building(made, 'trap "" TERM') as (tool, begun):
        tool.send_signal(signal.SIGTERM)
        same('the status', tool.wait(SHORT), -signal.SIGTERM)
        all_gone('what rt started', begun)


def lock_outlives(folder):
    """Where the tool and rt are killed, what they have started still holds the lock: nothing else is built beside it."""
    made = Folder(folder)
    made.hurry()
    with building(made) as (first, begun):
        first.kill()
        first.wait(SHORT)
        made.play(more=made.asking)
        with listing_nothing(made) as second:
            for pid in begun[:2]:
                os.kill(pid, signal.SIGKILL)
            all_gone('rt and one more', begun[:2])
            same('what is said', some_line(second.stderr), 'listing: waiting for another tools/listing, which is proving and building\n')
            time.sleep(.3)
            same('rt run beside the last of the first', made.times_asked(), 0)
            os.kill(begun[2], signal.SIGKILL)
            same('the status', second.wait(SHORT), 1)
            same('rt run', made.times_asked(), 1)


def one_build_at_a_time(folder):
    made = Folder(folder)
    busy, overlaps = (shlex.quote(os.path.join(made.top, name)) for name in ('busy', 'overlaps'))
    work = f'mkdir {busy} || echo >>{overlaps}; sleep .3; rmdir {busy}; {made.asking}'
    # what the first has built the others find; of a build that fails nothing is there, and each has its own turn
    for status, wanted, builds in ((0, 1, 1), (1, 2, 4)):
        made.play(more=work, status=status)
        made.change()
        with contextlib.ExitStack() as all_of_them:
            tools = [all_of_them.enter_context(listing_nothing(made)) for _ in range(4)]
            same('their statuses', [tool.wait(SHORT) for tool in tools], [wanted] * 4)
        same('builds at the same time', lines_of(os.path.join(made.top, 'overlaps')), [])
        same('builds', made.times_asked(), builds)


def signals_while_listing(folder):
    """Each ends the program too, and nothing is said. What is ignored, as under nohup, stays so."""
    made = Folder(folder)
    first, last = pack_record(INPUT, 0, 100), pack_record(OUTPUT, 2, 61) + END_RECORD
    for number in HEEDED:
        for words in ([], ['--names', os.devnull, os.devnull]):
            with started([made.listing] + words, env=made.environment(), stdin=subprocess.PIPE, stderr=subprocess.PIPE) as live:
                live.stdin.write(FORM + first)
                some_line(live.stdout)
                some_line(live.stdout)
                programs = children(live.pid)
                same('the number of programs run', len(programs), 1)
                live.send_signal(number)
                same(f'the status after {number!r}', live.wait(SHORT), -number)
                holds(f'the program outlives the script after {number!r}', is_gone(programs[0]))
                same('messages', live.stderr.read(), b'')
        for words, parts, want in (([made.listing], [FORM + first, last], b'2 O 2 161 certain 0\nend 2\n'),
                                   ([PACK, '--follow', '--trace'], [b'?0 @100\n', b'!2 @161\nend\n'], last)):
            with started(words, env=made.environment(), stdin=subprocess.PIPE,
                         preexec_fn=lambda number=number: signal.signal(number, signal.SIG_IGN)) as live:
                live.stdin.write(parts[0])
                same('the first record', os.read(live.stdout.fileno(), 1) != b'', True)
                live.send_signal(number)
                time.sleep(.1)
                live.stdin.write(parts[1])
                out, _ = live.communicate(timeout=SHORT)
                same(f'status and end, {number!r} ignored', (live.returncode, out[-len(want):]), (0, want))


# ---- an odd environment

LOADER = os.path.join('toolchain', 'lib', 'ld-linux-x86-64.so.2')


def no_kit(folder):
    """Where rt does not tell where the kit is, nothing is run that lies in the current folder in its place."""
    made = Folder(folder)
    here = os.path.join(folder, 'here')
    tricked = os.path.join(folder, 'tricked')
    for place in ('', 'kit'):
        for name in (LOADER, LOADER.replace('lib/ld-linux-x86-64.so.2', 'bin/qemu-x86_64')):
            path = os.path.join(here, place, name)
            os.makedirs(os.path.dirname(path))
            script_of(path, f'echo tricked >>{shlex.quote(tricked)}; echo end 0')
    for doc, told in (('exit 3', 'status 3'), (':', "''"), ('echo kit/START-HERE.md', "'kit/START-HERE.md'"),
                      (f'echo {shlex.quote(here)}/kit/START-HERE.md; exit 3', 'status 3')):
        made.play(doc=doc)
        for words in ([], ['--command']):
            status, out, said = run([made.listing] + words, FORM + END_RECORD, env=made.environment(), cwd=here)
            same(f'rt doc: {doc}: status, output', (status, out), (2, b''))
            message(f'rt doc: {doc}', said, 'rt doc', told)
        same(f'rt doc: {doc}: what was run', lines_of(tricked), [])
        # the C programs are built and run by the same answer
        status, out, said = run(['sh', '-c', 'top=$1 build=$2; . "$top/tests/x86.sh"; echo "$tools"', 'sh', TOP, folder],
                                env=dict(made.environment(), C_BY_KIT='1'), cwd=here)
        same(f'x86.sh, rt doc: {doc}', (status, out), (2, b''))
    # nor where it does not tell which kit it is, of which a program is made too
    made.play(version='exit 3')
    status, out, said = made.run(data=FORM + END_RECORD)
    same('rt version: status, output', (status, out), (2, b''))
    message('rt version', said, 'rt version', 'status 3')


def relative_path(folder):
    """An rt that the PATH has by a relative name is found from the current folder, as a shell finds it, and is run."""
    made = Folder(folder)
    made.play(more=made.asking)
    made.change()
    here = os.path.join(folder, 'here')
    os.makedirs(os.path.join(here, 'own'))
    os.symlink(made.rt, os.path.join(here, 'own', 'rt'))
    env = dict(made.environment(), PATH='own:' + os.environ['PATH'])
    same('the status', run([made.listing], FORM + END_RECORD, env=env, cwd=here)[0], 0)
    same('rt run', made.times_asked(), 1)


def handed_on(folder):
    """What rt and the program get of the environment: no orders for the emulator, no folders for cd."""
    made = Folder(folder)
    seen = os.path.join(made.top, 'seen')
    env = dict(os.environ, QEMU_STRACE='1', QEMU_LD_PREFIX='/nowhere', CDPATH=folder, QEMULATOR='kept', KEPT='too')
    show = f'env | grep -E "^(QEMU|CDPATH|KEPT)" | sort >>{shlex.quote(seen)}'
    made.play(more=show)
    made.change()
    same('the status', made.run(data=FORM + END_RECORD, env=env)[0], 0)
    script_of(made.program, show, 'echo end 0')
    same('status and output', made.run(rt=False, env=env)[:2], (0, b'end 0\n'))
    same('what is handed on', lines_of(seen), [b'KEPT=too', b'QEMULATOR=kept'] * 2)
    # the C programs that the kit builds
    status, out, said = run(['sh', '-c', 'top=$1 build=$2; . "$top/tests/x86.sh"; env', 'sh', TOP, folder], env=dict(env, C_BY_KIT='1'))
    same('x86.sh', (status, [line for line in out.split(b'\n') if line.startswith(b'QEMU')], said), (0, [b'QEMULATOR=kept'], ''))


def closed_descriptors(folder):
    """A standard stream that is closed is not taken by the next file: the program gets the null device there."""
    made = Folder(folder)
    script_of(made.program, 'readlink /proc/$$/fd/0 /proc/$$/fd/2', 'echo end 0')
    log, told = file_of(folder, 'log', FORM + END_RECORD), os.path.join(folder, 'told')
    for how, words, streams in (('<&-', '', [os.devnull, told]), ('2>&-', '', [log, os.devnull]), ('<&- 2>&-', '', [os.devnull] * 2),
                                ('<&- 2>&-', log, [log, os.devnull]), ('<&-', log, [log, told]), ('2>&-', log, [log, os.devnull])):
        with open(log, 'rb') as given, open(told, 'wb') as messages:
            done = subprocess.run(['/bin/sh', '-c', f'exec "$@" {how}', 'sh', made.listing] + words.split(), stdin=given,
                                  stdout=subprocess.PIPE, stderr=messages, env=made.environment(rt=False), timeout=PATIENCE)
        same(f'{how} {words}: status, streams', (done.returncode, done.stdout.decode().split()), (0, streams + ['end', '0']))
    for tool, status in ((PACK, 1), (UNPACK, 1), (NAMES, 0)):
        for how in ('<&-', '<&- 2>&-'):
            got, out, said = run(['sh', '-c', f'exec "$@" {how}', 'sh', tool])
            same(f'{tool} {how}', (got, out, 'Traceback' in said, said == ''), (status, b'', False, '2>' in how or status == 0))


# ---- alike in every tool

def header_version():
    return re.search(b'(?m)^#define ANTHEGYRA_VERSION ([0-9]+)$', contents(os.path.join(TOP, 'include', 'anthegyra.h')))[1]


def options_alike(folder):
    """-h, --version, options behind the file, -- and -, also where Python leaves texts of the sources out."""
    env = dict(os.environ, PYTHONOPTIMIZE='2')
    for tool in TOOLS:
        name = os.path.basename(tool)
        for more in ({}, {'env': env}):
            help_text = run([tool, '--help'], **more)
            same(f'{name} --help', (help_text[0], help_text[1].split(b'\n')[0].split()[:2], help_text[2]), (0, [b'usage:', f'tools/{name}'.encode()], ''))
            same(f'{name} -h', run([tool, '-h'], **more), help_text)
            same(f'{name} --version', run([tool, '--version'], **more), (0, b'anthegyra ' + header_version() + b'\n', ''))
            status, out, said = run([tool, '--nonsense'], **more)
            same(f'{name} --nonsense: status and output', (status, out), (2, b''))
            message(f'{name} --nonsense', said, f'usage: tools/{name}', 'unrecognized arguments: --nonsense')
        with open('/dev/full', 'wb') as full:
            same(f'{name} -h to a full device', run([tool, '-h'], stdout=full)[0], 2)
    made = Folder(folder)
    text, log = TEXT + b'?0 @100\n!2 @161\n', FORM + pack_record(INPUT, 0, 100) + pack_record(OUTPUT, 2, 61) + END_RECORD
    card = FORM + pack_tap(INPUT, 0, 100) + pack_tap(OUTPUT, 2, 161) + TAP_END
    listed, why = (HEADER + '1 I 0 100 clear 1\n2 O 2 161 certain 0\nend 2\n').encode(), b'certain 2\n1 110\n2 131\n'
    names, packed = b'?0 a\n', rules.pack_names({(False, 0): b'a'})
    unpacked = text + b'end\n'
    for tool, options, data, want in ((PACK, [], text, log), (PACK, ['--tap'], text, card), (PACK, ['--trace', '--origin', '0'], text, log[len(FORM):]),
                                      (UNPACK, [], log, unpacked), (UNPACK, ['--tap'], card, unpacked), (NAMES, [], names, packed),
                                      (made.listing, [], log, listed), (made.listing, ['--tap'], card, listed), (made.listing, ['--why'], log, why)):
        path = file_of(folder, '-x', data)
        for words, given in ((options + [path], b''), ([path] + options, b''), (options + ['--', '-x'], b''), (options + ['./-x'], b''),
                             (options, data), (options + ['-'], data), (['-'] + options, data)):
            same(f'{tool} {words}', run([tool] + words, given, env=made.environment(), cwd=folder), (0, want, ''))


def blanks_alike(folder):
    """Spaces and tabs are blanks, in texts and in lists; nothing else is."""
    for blank in (b' ', b'\t', b' \t  \t'):
        words = [b'%sbounds', b'10', b'30\n', b'sequence', b'?0\n', b'allow', b'!1\n', b'?0', b'@', b'100', b'# c\n', b'gap', b'@200', b'lost', b'5', b'\n']
        text = blank.join(words).replace(b'%s', blank).replace(b'\n' + blank, b'\n')
        same(f'a text with {blank}', run([PACK], text), (0, FORM + pack_record(INPUT, 0, 100) + pack_record(GAP, 5, 100) + END_RECORD, ''))
        same(f'a list with {blank}', run([NAMES], blank + b'?0' + blank + b'a' + blank + b'# c\n'), (0, rules.pack_names({(False, 0): b'a'}), ''))
    others = [b'\x0b', b'\x0c', b'\x1c', b'\x1d', b'\x1e', b'\x1f', b'\x00', b'\r', b'\xc2\x85', b'\xc2\xa0', b'\xe1\x9a\x80', b'\xe2\x80\x83', b'\xe2\x80\xa8',
              b'\xe2\x80\xaf', b'\xe3\x80\x80', b'\xef\xbb\xbf']
    for other in others:
        for words, text, line in (([PACK], TEXT + b'?0' + other + b'@100\n', 4), ([NAMES], b'!1 x\n?0' + other + b'a\n', 2)):
            status, out, said = run(words, text)
            same(f'{words} {text}: status and output', (status, out), (1, b''))
            message(f'{words} {text}', said, f'line {line}: ')
    for words, text in (([PACK], TEXT.replace(b' 10', b'\x0b10')), ([NAMES], b'?0 a\xc2\xa0\n'), ([NAMES], b'?0 a\r\r\n')):
        status, out, said = run(words, text)
        same(f'{words} {text}: status and output', (status, out), (1, b''))
        message(f'{words} {text}', said, 'line 1: ')


def unpacked_in_pieces(folder):
    """The text of a long log is written in parts, and of none that is damaged at its end anything is. What is written at a time comes as one
    packet, which cannot be longer than the socket's buffer."""
    records = 40_000
    data = FORM + b''.join(pack_record(k % 2, k % 64, k % 5) for k in range(records)) + END_RECORD
    for log, want in ((data, 0), (data[:-1] + b'\1', 1)):
        ours, theirs = socket.socketpair(socket.AF_UNIX, socket.SOCK_SEQPACKET)
        with ours, started([UNPACK, file_of(folder, 'log', log)], stderr=subprocess.PIPE) as bystander, subprocess.Popen(
                [UNPACK, os.path.join(folder, 'log')], stdout=theirs, stderr=subprocess.PIPE) as unpack:
            theirs.close()
            whole = bystander.communicate(timeout=PATIENCE)[0]
            pieces = []
            while True:
                some = ours.recv(1 << 20)
                if not some:
                    break
                pieces.append(some)
            said = unpack.stderr.read().decode()
            same('the status', (unpack.wait(SHORT), 'refusal 8' in said), (want, bool(want)))
        same('the text', b''.join(pieces), whole)
        same('the lines', whole.count(b'\n'), 0 if want else records + 4)
        holds(f'{len(pieces)} pieces', want or len(pieces) > 5)


PARTS = [waits_for_input, late_line, no_further, names_in_blocks, stops_blocking, cut_line, full_messages, obeyed_words, obeyed_arguments,
         signals_while_building, lock_outlives, one_build_at_a_time, signals_while_listing, no_kit, relative_path, handed_on, closed_descriptors,
         options_alike, blanks_alike, unpacked_in_pieces]


if __name__ == '__main__':
    logs.named_command()
    for _words in ([], ['--tap'], ['--why']):
        logs.listing_command(*_words)
    run_parts('odd', PARTS, sys.argv[1:])
