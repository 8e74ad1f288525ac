#!/usr/bin/env python3
"""tools/listing, tools/names, tools/pack and tools/unpack as a user meets them: full and closed outputs, readers that go away,
input that comes slowly, bad arguments, bad bytes. Exits 1 at the first thing that is not as docs/DECISIONS.md says.

    tests/tools.py [PART..]     all parts unless some are named"""
import fcntl
import os
import random
import re
import resource
import shlex
import shutil
import signal
import subprocess
import sys
import threading
import time

sys.dont_write_bytecode = True
import logs  # noqa: E402
import rules  # noqa: E402
from frame import (CARD, CARD_TEXT, KIT, LISTING, MARK, NAMES, PACK, PATIENCE, PROGRAMS, RELEASE, SAMPLES, SHORT, SITE, SWITCH, TEXT, TOP, UNPACK,  # noqa: E402
                   Folder, building, children, contents, file_of, holds, is_gone, lines_of, message, run, run_parts, same, script_of, some_bytes,
                   some_line, started)
from logs import B, LONG, LONG_CARD, card_at_limit  # noqa: E402
from rules import END, END_RECORD, GAP, INPUT, LIMIT, OUTPUT, TAP_END, TURN, pack_record, pack_tap  # noqa: E402


def environments():
    """Python's own buffers, and none."""
    plain = {name: value for name, value in os.environ.items() if name != 'PYTHONUNBUFFERED'}
    return plain, dict(plain, PYTHONUNBUFFERED='1')


def small_files():
    """From here on no file may have more than 40 bytes: a disk that fills up in the middle of a write."""
    resource.setrlimit(resource.RLIMIT_FSIZE, (40, 40))


def lost_output(words, env, folder, quiet=False):
    """A full device, a disk that fills up, a closed output and a reader that is gone."""
    with open('/dev/full', 'wb') as full:
        status, _, said = run(words, stdout=full, env=env)
        same('status on a full device', status, 2)
        message('a full device', said, 'not everything could be written', 'No space left')
    path = os.path.join(folder, 'short')
    with open(path, 'wb') as short:
        status, _, said = run(words, stdout=short, env=env, preexec_fn=small_files)
        same('bytes on a disk that fills up', os.path.getsize(path), 40)
        same('status on a disk that fills up', status, 2)
        message('a disk that fills up', said, 'not everything could be written')
    status, _, said = run(['sh', '-c', '"$@" >&-', 'sh'] + words, env=env)
    same('status with a closed output', status, 2)
    message('a closed output', said, 'standard output is closed')
    reader, writer = os.pipe()
    os.close(reader)
    status, _, said = run(words, stdout=writer, env=env)
    os.close(writer)
    same('status when the reader is gone', status, 2)
    if quiet:
        same('messages when the reader is gone', said, '')
    else:
        message('the reader is gone', said, 'not everything could be written', 'Broken pipe')


# ---- parts

def listing_status(folder):
    made = Folder(folder)
    for words, path, listing in [([], path, rules.listing) for path in SAMPLES] + [(['--tap'], CARD, rules.tap_listing)]:
        want, _ = listing(contents(path))
        status, out, said = made.run(*words, path)
        same(f'the listing of {path}', out.decode().split('\n'), want + [''])
        same(f'the status of {path}', status, 1 if want[-1].startswith('stop') else 0)
        same(f'messages for {path}', said, '')
    for words, broken in (([], pack_record(END, 1, 0)), (['--tap'], pack_tap(GAP, 1, 0))):
        for data, last in ((b'', 'stop 0 7'), (b'\0' * 71, 'stop 0 1'), (rules.pack_property(B) + broken, 'stop 0 8')):
            status, out, _ = made.run(*words, data=data)
            same('the status of a refusal', (status, out.decode().split('\n')[-2]), (1, last))


def listing_long(folder):
    """The shell's loop goes on for thousands of records."""
    for words, log, listing in (([], LONG, rules.listing), (['--tap'], LONG_CARD, rules.tap_listing)):
        want, _ = listing(log, 50)
        counts = {word: sum(line.split()[4:5] == [word] for line in want) for word in rules.WORDS}
        holds(f'few of some verdict: {counts}', len(want) > 4000 and min(counts.values()) > 40)
        holds(f"the card's counter does not return: {want[-2]}", not words or int(want[-2].split()[3]) > TURN + 10_000)
        status, out, _ = run([LISTING] + words, log)
        same('the status of a long listing', status, 0)
        same('the lines of a long listing', len(out.decode().split('\n')) - 1, len(want))
        same('a long listing', out.decode().split('\n'), want + [''])


def listing_lost_output(folder):
    """In a folder whose rt writes no files, since one of the outputs here is a file that may not grow."""
    made = Folder(folder)
    path = os.path.join(folder, 'long')
    with open(path, 'wb') as long:
        long.write(LONG)
    for env in environments():
        lost_output([made.listing, path], made.environment(env), folder, quiet=True)
    for words in (['--names', SITE, RELEASE, path], ['--tap', CARD]):
        lost_output([made.listing] + words, made.environment(environments()[0]), folder, quiet=True)
    for words in ('tools/listing samples/case14.bin | head -1', 'tools/listing samples/case14.bin | head -1 | cat'):
        status, out, said = run(['sh', '-c', words], cwd=TOP)
        same(words, (status, out, said), (0, b'line kind action stamp verdict open\n', ''))


def listing_slow_reader(folder):
    """An output that does not block, of which little is taken at a time."""
    reader, writer = os.pipe()
    fcntl.fcntl(writer, 1031, 4096)  # F_SETPIPE_SZ
    os.set_blocking(writer, False)
    got = []

    def read():
        time.sleep(.5)
        while True:
            some = os.read(reader, 4096)
            if not some:
                return
            got.append(some)
    slow = threading.Thread(target=read)
    slow.start()
    status, _, said = run([LISTING], LONG, stdout=writer)
    os.close(writer)
    slow.join()
    os.close(reader)
    same('status with an output that does not block', (status, said), (0, ''))
    same('a listing to an output that does not block', b''.join(got).decode().split('\n')[:-1], rules.listing(LONG, 50)[0])


def listing_live(folder):
    """Each line is there before the next record comes; a program that dies is noticed; a signal ends both."""
    header, made = 'line kind action stamp verdict open\n', Folder(folder)
    live_lines([LISTING], None, [header, '1 I 0 100 clear 1\n', '2 O 2 120 suspect 1\n'])
    live_lines([made.listing, '--tap'], made.environment(), [header, '1 I 0 4294967286 clear 1\n', '2 O 2 4294967306 suspect 1\n'],
               [pack_tap(INPUT, 0, 4_294_967_286), pack_tap(OUTPUT, 2, 10), TAP_END])


def live_lines(words, env, want, records=(pack_record(INPUT, 0, 100), pack_record(OUTPUT, 2, 20), END_RECORD)):
    """Two records, and the end."""
    for end in ('end', 'killed', 'signal'):
        with started(words, env=env, stdin=subprocess.PIPE, stderr=subprocess.PIPE) as live:
            for part, line in zip([rules.pack_property(B), *records[:2]], want):
                live.stdin.write(part)
                same('a line, before the next record', some_line(live.stdout), line)
            programs = children(live.pid)
            same('the number of programs run', len(programs), 1)
            if end == 'end':
                live.stdin.write(records[2])
                same('the last line', some_line(live.stdout), 'end 2\n')
                same('the status', live.wait(SHORT), 0)
            elif end == 'killed':
                os.kill(programs[0], signal.SIGKILL)
                same('the status when the program dies', live.wait(SHORT), 2)
                message('the program dies', live.stderr.read().decode(), 'ended before the listing did')
            else:
                live.send_signal(signal.SIGTERM)
                same('the status after a signal', live.wait(SHORT), -signal.SIGTERM)
                holds('the program outlives the script', is_gone(programs[0]))
                same('messages after a signal', live.stderr.read(), b'')


def listing_leaves_input(folder):
    """Bytes behind the end record, behind a refused record and behind a refused property are still in the pipe."""
    made = Folder(folder)
    form = rules.pack_property(B)
    commands = [shlex.split(run([LISTING, *words, '--command'])[1].decode()) for words in ([], ['--tap'])]
    behind = b'not to be read'
    ordinary = [made.listing], [made.listing, '--names', SITE, RELEASE], commands[0]
    for programs, pack, end, past, taken in (
            (ordinary, pack_record, END_RECORD, pack_record(INPUT, 0, LIMIT) + pack_record(OUTPUT, 0, 1), 1),
            (([made.listing, '--tap'], commands[1]), pack_tap, TAP_END, card_at_limit() + pack_tap(OUTPUT, 0, 0), 257)):
        for data, last in ((form + end, 'end 0'),
                           (form + pack(INPUT, 0, 100) + end, 'end 1'),
                           (form + pack(INPUT, 0, 100) + pack(END, 1, 0), 'stop 1 8'),
                           (form + pack(END, 0, 1), 'stop 0 8'),
                           (form + past, f'stop {taken} 4'),
                           (form + pack(INPUT, 0, 0) * 65, 'stop 64 6'),
                           (form[:-1] + b'\1', 'stop 0 8'),
                           (b'\0' * 16, 'stop 0 1'),
                           (rules.pack_property(B, 33), 'stop 0 1'),
                           (rules.pack_property(B._replace(lb=31)), 'stop 0 2')):
            for words in programs:
                leaves_input(words, made.environment(), data, behind, last)
    # of a log behind a broken list nothing is read
    broken = file_of(folder, 'broken', b'\0\1 ')
    for site, release, last in ((broken, RELEASE, 'stop 0 11'), (SITE, broken, 'stop 0 12')):
        leaves_input([made.listing, '--names', site, release], made.environment(), b'', form + END_RECORD, last)


def leaves_input(words, env, data, behind, last):
    reader, writer = os.pipe()
    os.write(writer, data + behind)
    os.close(writer)
    done = subprocess.run(words, stdin=reader, stdout=subprocess.PIPE, timeout=PATIENCE, env=env)
    left = os.read(reader, 1000)
    os.close(reader)
    same('the last line', done.stdout.decode().split('\n')[-2], last)
    same(f'what is left in the pipe after {last}', left, behind)


# what rt says where its own build is still the one of these sources, and where two crates are proved
UNCHANGED = ['rt: nothing has changed since the last proved build, by out/listing.stamp, so nothing is checked now']
PROVED = ['logic=proved functions=1 of no crate', 'rt: chose --jobs 2 for meaning', 'fn meaning::one: proved', 'library fields: modules loaded=48 checked=0',
          'crate meaning: modules loaded=0 checked=40', 'axioms libc: none reached of the 128 declared', 'logic=proved functions=1 native=nat',
          'rt: waiting for another rt to finish in crates/listing', 'rt: chose --jobs 2 for listing', 'fn listing::main: proved',
          'crate other: modules loaded=9 checked=1', 'logic=not-proved', 'crate listing: modules loaded=0 checked=220',
          'logic=proved functions=7 axioms=8', 'logic=proved functions=1 of no crate', 'linked target=x86_64-unknown-linux-gnu']
TOLD = 'meaning proved\nrt: waiting for another rt to finish in crates/listing\nlisting proved\n'


def changed_sources(made):
    """What a program is built again for, and what it is not: whether, a name, and a function that changes it."""
    def add(*names):
        path = os.path.join(made.top, *names)
        os.makedirs(os.path.dirname(path), exist_ok=True)
        with open(path, 'ab') as file:
            file.write(b'# one line more\n')

    def resting_on(kit):
        path = os.path.join(made.top, 'crates.txt')
        file_of(made.top, 'crates.txt', contents(path).replace(b'listing: below libc', b'listing: below libc ' + kit))

    def one_byte_more():
        with open(made.program, 'ab') as program:
            program.write(b' ')

    yield True, 'its own source', lambda: made.change('listing')
    yield True, 'the source of a crate below', made.change
    yield True, 'a file more', lambda: add('crates', 'below', 'src', 'more.rt')
    yield True, 'a definition', lambda: add('crates', 'below', 'specs', 'Lib.antt')
    yield True, 'a proof', lambda: add('crates', 'listing', 'proofs', 'main', 'Answers.antt')
    yield True, 'a file less', lambda: os.remove(os.path.join(made.top, 'crates', 'below', 'src', 'more.rt'))
    yield True, 'a library of the kit more', lambda: resting_on(b'io')
    yield True, 'another kit', lambda: made.play(UNCHANGED, more=made.asking, version='echo another-kit')
    yield True, 'the kit as it was', lambda: made.play(UNCHANGED, more=made.asking)
    yield True, 'the program itself', one_byte_more
    yield True, 'no mark', lambda: os.remove(made.program + '.made')
    yield False, 'a comment in crates.txt', lambda: add('crates.txt')
    yield False, 'another program', lambda: made.change('show_why')
    yield False, 'what no program is made from', lambda: add('crates', 'listing', 'stdout')


def listing_builds(folder):
    """Arguments first; then rt run where something has changed, heard of only where something is proved; a log only where it fails."""
    made = Folder(folder)
    data = contents(SAMPLES[0])
    want = ('\n'.join(rules.listing(data)[0]) + '\n').encode()
    made.play(UNCHANGED, more=made.asking)
    made.change()
    for words in (['--nonsense'], ['a', 'b'], ['--command', 'a'], ['-x'], ['--tap=5'], ['a', '--', '-h']):
        status, out, said = made.run(*words)
        same(f'{words}: status, output, rt run', (status, out, made.times_asked()), (2, b'', 0))
        message(str(words), said, 'usage: tools/listing [FILE]')
    for words, what in ((['no such file'], 'no such file: No such file'), (['/'], '/: Is a directory'), ([''], 'No such file')):
        status, out, said = made.run(*words)
        same(f'{words}: status, output, rt run', (status, out, made.times_asked()), (2, b'', 0))
        message(str(words), said, what)
    for word in ('--help', '-h'):
        status, out, said = made.run(word)
        same(word, (status, said, out.startswith(b'usage: tools/listing [FILE]'), made.times_asked()), (0, '', True, 0))
    same('nothing to prove', made.run(data=data), (0, want, ''))
    same('rt run', made.times_asked(), 1)
    same('nothing to build', made.run(data=data), (0, want, ''))
    same('rt run where nothing has changed', made.times_asked(), 0)
    for is_built, what, change in changed_sources(made):
        change()
        same(f'{what}: the listing, twice', [made.run(data=data) for _ in range(2)], [(0, want, '')] * 2)
        same(f'{what}: rt run', made.times_asked(), int(is_built))
    link = os.path.join(folder, 'list it')
    os.symlink(made.listing, link)
    again = os.path.join(folder, 'again')
    os.symlink('list it', again)
    same('through a symbolic link', made.run(listing=link, data=data), (0, want, ''))
    same('through two', made.run(SAMPLES[0], listing=again), (0, want, ''))
    same('rt run', made.times_asked(), 0)
    status, out, said = made.run('--command')
    same('the command', shlex.split(os.fsdecode(out))[-1], made.program)
    same('the command, run', run(shlex.split(os.fsdecode(out)), data)[:2], (0, want))
    made.play(PROVED, more=made.asking)
    for text in ('the sources have changed', 'proving and building the program first, which takes some minutes'):
        made.change()
        status, out, said = made.run(data=data)
        same('the listing of a program built anew', (status, out), (0, want))
        message('the program is built', said, text, TOLD)
        holds(f'too much is said: {said!r}', said.count('\n') == 4 and 'library' not in said and 'other proved' not in said)
        os.remove(made.program)
    same('rt run', made.times_asked(), 2)
    same('logs left behind', os.listdir(made.logs), [])
    # a file that is changed while rt is at work: it is not known which text was built, so that it is built again, also where it is changed back
    made.play(more=f'{made.asking}; echo >>../below/src/lib.rt')
    below = os.path.join(made.top, 'crates', 'below', 'src')
    text = contents(os.path.join(below, 'lib.rt'))
    for _ in range(2):
        file_of(below, 'lib.rt', text)
        same('changed while it is built', made.run(data=data)[:2], (0, want))
    same('rt run', made.times_asked(), 2)
    made.play(['fn session::one: not proved', 'rt: 1 not proved: session'], 1)
    made.build()
    same('what is built does not need it', made.run(data=data), (0, want, ''))
    made.change()
    status, out, said = made.run(data=data)
    same('status and output where rt run fails', (status, out), (2, b''))
    logs = os.listdir(made.logs)
    same('the number of logs', len(logs), 1)
    message('rt run fails', said, 'session::one: not proved', 'status 1', logs[0], 'a f\\xf6lder', 'not UTF-8')
    same('the log', contents(os.path.join(made.logs, logs[0])), contents(made.said))
    # status 0 alone is no build
    script_of(made.rt, 'case $1 in', f'version) echo {KIT} ;;', 'run) echo nothing was built ;;', 'esac')
    status, out, said = made.run(data=data)
    same('status and output where rt run says nothing', (status, out), (2, b''))
    message('rt run says nothing', said, 'status 0', 'nothing was built')
    made.build()
    # without rt a built program runs as it is, if this machine runs x86-64 programs without the kit
    try:
        runs = run([made.program], data)[:2] == (0, want)
    except OSError:
        runs = False
    status, out, said = made.run(rt=False, data=data)
    same('without rt', (status, out), (0, want) if runs else (2, b''))
    holds(f'without rt: {said!r}', 'Traceback' not in said and (said == '' if runs else 'listing: ' in said))
    os.remove(made.program)
    status, out, said = made.run(rt=False, data=data)
    same('without rt and program', (status, out), (2, b''))
    message('without rt and program', said, 'no rt on the PATH')
    # a program that cannot even start
    made.play(UNCHANGED)
    open(made.program, 'wb').close()
    file_of(os.path.dirname(made.program), 'listing.made', building.mark_of('listing', building.sum_of(['listing'], KIT)))
    status, out, said = made.run(data=data)
    same('a program that cannot start', (status, out), (2, b''))
    message('a program that cannot start', said, 'listing: ')


NAMED_SWITCH = '''\
line kind action name stamp verdict open
1 I 1 whole-city 1000000 clear 1
2 O 2 old-tile 1031000 clear 1
3 I 2 city-centre 1200000 clear 1
4 O 2 old-tile 1244000 clear 1
5 I 0 switch 2000000 clear 1
6 O 0 acknowledged 2090000 clear 0
7 O 2 old-tile 2090400 certain 0
8 G 3 - 2500000 blind 0
9 O 2 old-tile 2560000 blind 0
10 I 2 city-centre 2630000 blind 0
11 I 0 switch 3000000 clear 1
12 I 2 city-centre 3005000 clear 2
13 O 0 acknowledged 3060000 clear 2
14 O 2 old-tile 3061000 suspect 2
end 14
'''.encode()


def listing_names(folder):
    """The sample in full, its lists packed and as text; every sample and a long log with the same names; statuses."""
    made = Folder(folder)
    for site in (SITE, SITE + '.txt'):
        for release in (RELEASE, RELEASE + '.txt'):
            same('the sample with names', made.run('--names', site, release, SWITCH), (0, NAMED_SWITCH, ''))
    log = contents(SWITCH)
    same('a log from standard input', made.run('--names', SITE, RELEASE, data=log), (0, NAMED_SWITCH, ''))
    lists = b''.join(rules.announced(contents(path)) for path in (SITE, RELEASE))
    for data in [contents(path) for path in SAMPLES] + [LONG, b'', log[:1], log[:-1], b'\0' * 71]:
        want, _ = rules.named_listing(lists + data, 50)
        status, out, said = made.run('--names', SITE, RELEASE, data=data)
        same('a listing with names', out.decode().split('\n'), want + [''])
        same(f'the status after {want[-1]}', (status, said), (1 if want[-1].startswith('stop') else 0, ''))
    # a log that cannot be read is one that ends, as it is without names
    for words, told in (([], ''), (['--names', SITE, RELEASE], 'listing: /proc/self/mem: Input/output error\n')):
        status, out, said = made.run(*words, '/proc/self/mem')
        same('a log that cannot be read', (status, out.split(b'\n')[1:], said), (1, [b'stop 0 7', b''], told))


def gate_takes(folder):
    """.ci/take, by which the gate gives tools/listing the programs that rt ci has built: those of the sources that were there before it."""
    made = Folder(folder)
    made.play(more=made.asking)
    data = contents(SAMPLES[0])
    want = ('\n'.join(rules.listing(data)[0]) + '\n').encode()
    os.makedirs(os.path.join(made.top, '.ci'))
    take = os.path.join(made.top, '.ci', 'take')
    shutil.copy(os.path.join(TOP, '.ci', 'take'), take)
    env = made.environment()

    def built(name, by=TOP):
        out = os.path.join(made.top, 'crates', name, 'out')
        os.makedirs(out, exist_ok=True)
        shutil.copy(os.path.join(by, 'target', 'bin', name), out)

    shutil.rmtree(os.path.join(made.top, 'target'))
    for change in (lambda: None, made.change, lambda: made.change('show_why'), lambda: file_of(made.top, 'crates.txt', contents(
            os.path.join(made.top, 'crates.txt')) + b'unused:\n')):
        change()
        status, total, said = run([take], env=env)
        same('the sum', (status, len(total), said), (0, 65, ''))
        total = total.decode().strip()
        for name in PROGRAMS:
            built(name)
        told = f'take: {", ".join(sorted(PROGRAMS))}\n'.encode()
        same('taken', run([take, total], env=env), (0, told, ''))
        same('what is there', sorted(os.listdir(os.path.dirname(made.program))), sorted(name + end for name in PROGRAMS for end in ('', '.made')))
        same('the listing', made.run(data=data), (0, want, ''))
        same('with names', made.run(SWITCH, '--names', SITE, RELEASE), (0, NAMED_SWITCH, ''))
        same('rt run', made.times_asked(), 0)
    # another sum, sources changed meanwhile, another kit, a program that is not there, no rt
    shutil.rmtree(os.path.join(made.top, 'target'))
    made.change('show_why')
    for words in ([total], ['x'], [total, total]):
        status, out, said = run([take, *words], env=env)
        same(f'{words}: status, output', (status, out), (1, b''))
        message(str(words), said, 'was changed while rt ci ran')
    total = run([take], env=env)[1].decode().strip()
    made.play(version='echo another-kit')
    same('another kit', run([take, total], env=env)[:2], (1, b''))
    made.play(version='exit 3')
    status, out, said = run([take], env=env)
    same('no kit', (status, out), (1, b''))
    message('no kit', said, 'rt version', 'status 3')
    same('no rt', run([take], env=made.environment(rt=False))[:2], (1, b''))
    made.play(more=made.asking)
    os.remove(os.path.join(made.top, 'crates', 'tap_listing', 'out', 'tap_listing'))
    status, out, said = run([take, total], env=env)
    same('a program is not there', (status, out), (1, b''))
    message('a program is not there', said, 'tap_listing')
    same('nothing half written', [name for name in os.listdir(os.path.dirname(made.program)) if name.endswith('.new')], [])
    os.remove(os.path.join(made.top, 'crates.txt'))
    status, out, said = run([take], env=env)
    same('no crates', (status, out), (1, b''))
    message('no crates', said, 'crates.txt')


def archive(folder):
    """tools/archive: what `rt lib` makes of stretch_c, under its name, and nothing where that fails."""
    top = os.path.join(folder, 'a folder')
    for part in ('tools', 'bin', 'crates/stretch_c', 'elsewhere/crates/stretch_c'):
        os.makedirs(os.path.join(top, part))
    tool = os.path.join(top, 'tools', 'archive')
    shutil.copy(os.path.join(TOP, 'tools', 'archive'), tool)
    made, asked = os.path.join(top, 'target', 'staticlib', 'libstretch.a'), os.path.join(top, 'asked')
    env = dict(os.environ, PATH=os.path.join(top, 'bin') + ':' + os.environ['PATH'], CDPATH=os.path.join(top, 'elsewhere'))

    def rt(*lines):
        script_of(os.path.join(top, 'bin', 'rt'), f'echo "$*:$PWD" >>{shlex.quote(asked)}', *lines)

    rt('exit 1')
    same('it is not proved', (run([tool], env=env, cwd='/')[0] != 0, os.path.exists(made)), (True, False))
    rt('exit 0')
    same('it is not there', (run([tool], env=env, cwd='/')[0] != 0, os.path.exists(made)), (True, False))
    for text in ('one', 'two'):
        rt('mkdir -p out', f'printf {text} >out/libstretch_c.a')
        same('the archive', (run([tool], env=env, cwd='/')[0], contents(made)), (0, text.encode()))
    rt('printf three >out/libstretch_c.a', 'exit 1')
    same('it is proved no more', (run([tool], env=env, cwd='/')[0] != 0, contents(made)), (True, b'two'))
    same('what is left', os.listdir(os.path.dirname(made)), ['libstretch.a'])
    same('what rt was asked', set(lines_of(asked)), {os.fsencode(f'lib:{os.path.realpath(top)}/crates/stretch_c')})
    os.remove(asked)
    for words, status in ((['-h'], 0), (['--help'], 0), (['x'], 2), (['-h', 'x'], 2)):
        got, out, said = run([tool, *words], env=env)
        same(f'{words}: status, messages', (got, said), (status, ''))
        holds(f'{words}: {out}', out.startswith(b'usage: tools/archive') and b'target/staticlib/libstretch.a' in out)
    holds('rt was asked', not os.path.exists(asked))


def listing_names_lists(folder):
    """What a list's file may hold. A good packed list is one, whatever else it could be; then text; the program judges the rest."""
    made = Folder(folder)
    made.play(UNCHANGED, more=made.asking)
    data = rules.pack_property(B) + pack_record(INPUT, 0, 100) + pack_record(INPUT, 35, 61) + END_RECORD

    def listed(site, release):
        """Status, the two names or else the last line, messages, and how often rt run was run, where something has changed."""
        made.change()
        status, out, said = made.run('--names', site, release, data=data)
        lines = out.decode().split('\n')[:-1]
        told = [line.split()[3] for line in lines[1:-1]] if lines[-1:] == ['end 2'] else lines[-1:]
        return status, told, said, made.times_asked('named_listing')

    text = b'?35 late\n?0 in\n'
    comment = b'# ' + b'x' * 32  # a good list too: ?35, the length 32, a name
    both = file_of(folder, 'both', rules.pack_names({(False, 0): b'i', (False, 35): b'l'}))
    for what, file, names in (('no bytes', b'', 'i l'), ('text', text, 'in late'), ('a mark', MARK + text, 'in late'),
                              ('CRLF', text.replace(b'\n', b'\r\n'), 'in late'), ('no line end at the end', text[:-1], 'in late'),
                              ('a mark alone', MARK, 'i l'), ('blanks', b' \t\r\n\n', 'i l'), ('a comment', b'# no names', 'i l'),
                              ('blanks before text', MARK + b'\n\n \t' + text, 'in late'), ('a comment before', b'#\n' + text, 'in late'),
                              ('one name', b'?35 late', 'i late'), ('packed', rules.pack_names({(False, 0): b'I'}), 'I l'),
                              ('a list and a comment', comment, 'i ' + 'x' * 32), ('a comment that is no list', comment + b'\n', 'i l')):
        same(what, listed(file_of(folder, 'list', file), both), (0, names.split(), '', 1))
    same('a release as text', listed('/dev/null', file_of(folder, 'list', text)), (0, ['in', 'late'], '', 1))
    same('no names', listed('/dev/null', '/dev/null'), (0, ['-', '-'], '', 1))
    every = {(out, k): b'%02d' % k + b'~' * 38 for out in (False, True) for k in range(64)}
    path = file_of(folder, 'list', rules.pack_names(every))
    same('the longest list', listed(path, path), (0, ['00' + '~' * 38, '35' + '~' * 38], '', 1))
    for file, line in ((b'?0 in\n?0 again\n', 2), (MARK + b'\n# one\n!64 x', 3), (comment + b'\nnonsense\n', 2)):
        path = file_of(folder, 'bad', file)
        told = run([NAMES, path])[2]
        message('bad text', told, f'names: line {line}: ')
        want = (1, [], told.replace('names: ', f'listing: {path}: '), 0)
        same(f'bad text {file!r}, the site', listed(path, RELEASE), want)
        same(f'bad text {file!r}, the release', listed(SITE, path), want)
    for file in (b'nonsense\n', b'\0\1 ', b'?', b'!x 1\n', MARK + b'x', b'\0' * 8193, b'\xff' * 65535):
        path = file_of(folder, 'broken', file)
        same(f'{file[:20]!r}, the site', listed(path, RELEASE), (1, ['stop 0 11'], '', 1))
        same(f'{file[:20]!r}, the release', listed(SITE, path), (1, ['stop 0 12'], '', 1))
    same('two broken lists', listed(path, path), (1, ['stop 0 11'], '', 1))
    large = file_of(folder, 'large', b'# ' + b'x' * 65534)
    for site, release, what in ((large, RELEASE, 'at most 65535 bytes'), (SITE, '/dev/zero', 'at most 65535 bytes'),
                                ('no such file', RELEASE, 'no such file: No such file'),
                                (SITE, 'no such file', 'no such file: No such file'), ('/', RELEASE, '/: Is a directory')):
        status, told, said, asked = listed(site, release)
        same(f'{what}: status, output, rt run', (status, told, asked), (2, [], 0))
        message(what, said, what)
    path = file_of(folder, 'log', data)
    same('a list from standard input', made.run('--names', '/dev/stdin', both, path, data=b'?0 in\n')[1].split(b'\n')[1:3],
         [b'1 I 0 in 100 clear 1', b'2 I 35 l 161 clear 1'])


def listing_names_builds(folder):
    """Arguments first, then rt run of the one program that is wanted."""
    made = Folder(folder)
    made.play(UNCHANGED, more=made.asking)
    made.change()
    for words in (['--names'], ['--names', SITE], ['--names', SITE, RELEASE, SWITCH, SWITCH], ['--names', SITE, '--tap'],
                  ['--names', SITE, RELEASE, '--names', SITE, RELEASE], ['--names', SITE, RELEASE, '--nonsense'],
                  ['--command', '--names', SITE, RELEASE]):
        status, out, said = made.run(*words)
        same(f'{words}: status, output, rt run', (status, out, made.times_asked()), (2, b'', 0))
        message(str(words), said, 'usage: tools/listing [FILE]', 'tools/listing --names SITE RELEASE [FILE]')
    for log in ('no such file', '/'):
        status, out, said = made.run('--names', SITE, RELEASE, log)
        same(f'{log}: status, output, rt run', (status, out, made.times_asked()), (2, b'', 0))
        message(log, said, log)
    same('the file first', made.run(SWITCH, '--names', SITE, RELEASE), (0, NAMED_SWITCH, ''))
    same('rt run', made.times_asked('named_listing'), 1)
    builds_one(made, ['--names', SITE, RELEASE, SWITCH], NAMED_SWITCH, made.named_program)


def builds_one(made, words, want, program):
    """A sample that needs this program and no other, and the first program without it."""
    name = os.path.basename(program)
    made.build()
    made.play(UNCHANGED, more=made.asking)
    same(f'the sample by {name}, where nothing has changed', made.run(*words), (0, want, ''))
    same('rt run', made.times_asked(name), 0)
    os.remove(made.program)
    made.change()
    same(f'the sample by {name}', made.run(*words), (0, want, ''))
    same('rt run', made.times_asked(name), 1)
    made.build()
    os.remove(program)
    made.change()
    same(f'a sample without {name}', made.run(SWITCH)[0], 0)
    same('rt run', made.times_asked(), 1)
    made.play(PROVED, more=made.asking)
    for text in ('proving and building the program first, which takes some minutes', 'the sources have changed'):
        made.change()
        status, out, said = made.run(*words)
        same('the listing of a program built anew', (status, out), (0, want))
        message('the program is built', said, text, TOLD)
    same('rt run', made.times_asked(name), 2)
    made.play(['fn fields::one: not proved'], 1)
    made.change()
    status, out, said = made.run(*words)
    same('status and output where rt run fails', (status, out), (2, b''))
    message('rt run fails', said, 'fields::one: not proved', 'status 1')
    os.remove(program)
    status, out, said = made.run(*words, rt=False)
    same('without rt and program', (status, out), (2, b''))
    message('without rt and program', said, name, 'no rt on the PATH')


def listing_names_live(folder):
    """Line by line, as without names; and a log that grows, all the way from its text."""
    made = Folder(folder)
    words = [made.listing, '--names', file_of(folder, 'site', b'!2 broken\n'), file_of(folder, 'release', b'?0 go\n!2 out\n')]
    header, env = 'line kind action name stamp verdict open\n', made.environment()
    live_lines(words, env, [header, '1 I 0 go 100 clear 1\n', '2 O 2 broken 120 suspect 1\n'])
    with started([PACK, '--follow'], stdin=subprocess.PIPE) as packer, started(words, stdin=packer.stdout, env=env) as lister:
        packer.stdout.close()
        packer.stdin.write(TEXT)
        same('the header', some_line(lister.stdout), header)
        for text, line in ((b'?0 @100\n', '1 I 0 go 100 clear 1\n'), (b'gap @110 lost 0\n', '2 G 0 - 110 blind 0\n'),
                           (b'gap @110 lost 62\n', '3 G 62 - 110 blind 0\n'), (b'gap @110\n', '4 G 63 - 110 blind 0\n'),
                           (b'!2 @171\n', '5 O 2 broken 171 clear 0\n')):
            packer.stdin.write(text)
            same('a line of a growing log', some_line(lister.stdout), line)
        packer.stdin.close()
        same('its last line', some_line(lister.stdout), 'end 5\n')
        same('their statuses', (packer.wait(SHORT), lister.wait(SHORT)), (0, 0))
    # a log that comes byte by byte, and one that does not block
    for blocks in (True, False):
        reader, writer = os.pipe()
        os.set_blocking(reader, blocks)
        with started(words, stdin=reader, env=env) as lister:
            os.close(reader)
            for byte in rules.pack_property(B) + pack_record(INPUT, 0, 100):
                time.sleep(.002)
                os.write(writer, bytes([byte]))
            same('the lines of slow bytes', [some_line(lister.stdout), some_line(lister.stdout)], [header, '1 I 0 go 100 clear 1\n'])
            os.write(writer, END_RECORD[:3])
            os.close(writer)
            same('the last line of a log cut short', some_line(lister.stdout), 'stop 1 7\n')
            same('its status', lister.wait(SHORT), 1)


CARD_LISTING = '''\
line kind action stamp verdict open
1 I 1 4294100000 clear 1
2 O 2 4294131000 clear 1
3 I 0 4294960000 clear 1
4 O 0 4295050000 clear 0
5 O 2 4295050400 certain 0
6 G 63 4295500000 blind 0
7 I 0 8589930000 clear 1
8 I 2 8589935000 clear 2
9 O 0 8589990000 clear 2
10 O 2 8589991000 suspect 2
end 10
'''.encode()


def listing_tap(folder):
    """The card's sample in full, also with names and without --tap by way of its text; arguments first, then rt run."""
    made = Folder(folder)
    card = contents(CARD)
    same('the sample of the card', made.run('--tap', CARD), (0, CARD_LISTING, ''))
    same('its bytes from standard input', made.run('--tap', data=card), (0, CARD_LISTING, ''))
    same('a part of it', made.run('--tap', data=card[:-6]), (1, CARD_LISTING.replace(b'end 10', b'stop 9 7').replace(
        b'10 O 2 8589991000 suspect 2\n', b''), ''))
    ordinary = run([PACK], run([UNPACK, '--tap', CARD])[1])[1]
    same('an ordinary log of it', made.run(data=ordinary), (0, CARD_LISTING, ''))
    same('with names', made.run('--names', SITE, RELEASE, data=ordinary)[1].decode().split('\n')[3:6],
         ['3 I 0 switch 4294960000 clear 1', '4 O 0 acknowledged 4295050000 clear 0', '5 O 2 old-tile 4295050400 certain 0'])
    status, out, said = made.run('--tap', '/proc/self/mem')
    same('a log that cannot be read', (status, out.split(b'\n')[1:], said), (1, [b'stop 0 7', b''], ''))
    made.play(UNCHANGED, more=made.asking)
    made.change()
    for words in (['--tap', '--nonsense'], ['--tap', CARD, CARD], ['--tap', '--names', SITE, RELEASE],
                  ['--tap', '--names', SITE, RELEASE, CARD], ['--names', SITE, RELEASE, '--tap'],
                  ['--names', '--tap', SITE, RELEASE], ['--tap', '--command', CARD]):
        status, out, said = made.run(*words)
        same(f'{words}: status, output, rt run', (status, out, made.times_asked()), (2, b'', 0))
        message(str(words), said, 'usage: tools/listing [FILE]', 'tools/listing --tap [FILE]')
    for log in ('no such file', '/'):
        status, out, said = made.run('--tap', log)
        same(f'{log}: status, output, rt run', (status, out, made.times_asked()), (2, b'', 0))
        message(log, said, log)
    same('the file first', made.run(CARD, '--tap'), (0, CARD_LISTING, ''))
    same('rt run', made.times_asked('tap_listing'), 1)
    for given in (['--tap', '--command'], ['--command', '--tap']):
        made.change()
        status, out, said = made.run(*given)
        words = shlex.split(os.fsdecode(out))
        same('the command', (status, words[-1], said, made.times_asked('tap_listing')), (0, made.tap_program, '', 1))
    same('the command, run', run(words, card)[:2], (0, CARD_LISTING))
    builds_one(made, ['--tap', CARD], CARD_LISTING, made.tap_program)


SWITCH_WHY = b'''\
suspect 4
1 3002000
3 3020000
4 3021000
2 3021000
3 3020000
4 3021000
1 3021000
2 3021000
'''


def listing_why(folder):
    """The samples, and what ends in a refusal, blind, or in nothing; lost output; arguments first, then rt run."""
    made = Folder(folder)
    same('a sample', made.run('--why', SWITCH), (0, SWITCH_WHY, ''))
    same('its bytes from standard input', made.run('--why', data=contents(SWITCH)), (0, SWITCH_WHY, ''))
    same('a part of it', made.run('--why', data=contents(SWITCH)[:-1]), (1, b'stop 7\n', ''))
    for path in SAMPLES:
        want = '\n'.join(rules.shown_why(contents(path))[0]) + '\n'
        same(path, made.run('--why', path), (int(want.startswith('stop')), want.encode(), ''))
    same('no run', made.run('--why', data=rules.pack_property(B) + pack_record(GAP, 0, 7) + END_RECORD), (0, b'blind\n', ''))
    same('no line', made.run('--why', data=rules.pack_property(B) + END_RECORD), (0, b'clear 0\n', ''))
    same('a log that cannot be read', made.run('--why', '/proc/self/mem'), (1, b'stop 7\n', ''))
    lost_output([made.listing, '--why', SWITCH], made.environment(), folder, quiet=True)
    # a program that ends before it has said all, or says something else; without rt it is run by itself
    for text, status in (('suspect 4\n1 30', 0), ('suspect 4\n1 3002000\n', 9), ('', 0), ('suspect\n', 0), ('end 4\n', 0)):
        with open(made.why_program, 'w') as program:
            program.write(f"#!/bin/sh\nprintf '{text}'\nexit {status}\n")
        ended, out, said = made.run('--why', SWITCH, rt=False)
        same(f'{text!r} and status {status}', (ended, out), (2, text.encode()))
        message(text, said, f'the program ended before the listing did (status {status})')
    made.build()
    made.play(UNCHANGED, more=made.asking)
    made.change()
    for words in (['--why', '--nonsense'], ['--why', CARD, CARD], ['--why', '--tap'], ['--tap', '--why'],
                  ['--why', '--names', SITE, RELEASE], ['--names', SITE, RELEASE, '--why'], ['--why', '--command', SWITCH]):
        status, out, said = made.run(*words)
        same(f'{words}: status, output, rt run', (status, out, made.times_asked()), (2, b'', 0))
        message(str(words), said, 'usage: tools/listing [FILE]', 'tools/listing --why [FILE]')
    for log in ('no such file', '/'):
        status, out, said = made.run('--why', log)
        same(f'{log}: status, output, rt run', (status, out, made.times_asked()), (2, b'', 0))
        message(log, said, log)
    status, out, said = made.run('--why', '--command')
    words = shlex.split(os.fsdecode(out))
    same('the command', (status, words[-1], said, made.times_asked('show_why')), (0, made.why_program, '', 1))
    same('the command, run', run(words, contents(SWITCH))[:2], (0, SWITCH_WHY))
    builds_one(made, ['--why', SWITCH], SWITCH_WHY, made.why_program)


def names_text(folder):
    """Good text in any order, and each way to write it badly. The samples' lists are what is made of their texts."""
    for path in (SITE, RELEASE):
        same(f'the list of {path}.txt', run([NAMES, path + '.txt']), (0, contents(path), ''))
    plain = b'!2 old-tile\n?0 switch\n?63 last\n!0 first\n'
    crlf = plain.replace(b'\n', b'\r\n')
    want = rules.pack_names({(True, 2): b'old-tile', (False, 0): b'switch', (False, 63): b'last', (True, 0): b'first'})
    for what, text in (('plain', plain), ('a byte-order mark', MARK + plain), ('CRLF', crlf), ('both', MARK + crlf),
                       ('no line end at the end', plain[:-1]), ('half a line end at the end', crlf[:-1]),
                       ('another order', b''.join(sorted(plain.splitlines(True)))),
                       ('blanks', b'\n \t\n\t' + plain.replace(b' ', b' \t ').replace(b'\n', b' \t\n ')),
                       ('comments', b'# all\n \t#\xff\n' + plain.replace(b'\n', b' # \xc3\xa9\n') + b'#'),
                       ('short comments', plain.replace(b'\n', b'\t#?0 x\n')),
                       ('zeros before a number', plain.replace(b'?0', b'?000').replace(b'!2', b'!02'))):
        same(f'names: {what}', run([NAMES], text), (0, want, ''))
    for text, named in ((b'', {}), (b'\n# none\n', {}), (MARK, {}),
                        (b'?0 #\n?1 #1 # one\n?2 a#2\n?3 # #3\n', {0: b'#', 1: b'#1', 2: b'a#2', 3: b'#'}),
                        (b'?5 !~ \n?6 ?0\n?7 ' + b'x' * 40, {5: b'!~', 6: b'?0', 7: b'x' * 40})):
        same(f'the list of {text!r}', run([NAMES], text), (0, rules.pack_names({(False, k): name for k, name in named.items()}), ''))
    every = {(out, k): bytes(33 + (at + 40 * k) % 94 for at in range(40)) for out in (False, True) for k in range(64)}
    text = [b'%c%d %s\n' % (b'?!'[out], k, name) for (out, k), name in every.items()]
    random.Random(20260102).shuffle(text)
    same('all 128 names', run([NAMES], b''.join(text)), (0, rules.pack_names(every), ''))
    word, action, number = 'a name is one word', 'is not an action: ', "is not an action's number"
    for text, line, told in ((b'?0 a\n!0 b\n?0 c\n', 3, '?0 stands twice: it has the name a already'),
                             (b'!1 a\n\n!01 a\n', 3, '!1 stands twice: it has the name a already'),
                             (b'# x\n?0 ' + b'x' * 41 + b'\n', 2, 'a name has at most 40 bytes, and this one has 41'),
                             (b'?0 a\n?1\n', 2, 'there is no name behind ?1'), (b'?1 \t\r\n', 1, 'there is no name behind ?1'),
                             (b'?1 a\tb # c\n', 1, word), (b'?1 # c\n', 1, word),
                             (b'?1 a\n!1 \xc3\xa9\n', 2, 'the bytes of a name are from 33 to 126, and this name has a byte 195'),
                             (b'?1 a\r\r\n', 1, 'a byte 13'), (b'?1 a\x7f\n', 1, 'a byte 127'), (b'?1 \0\n', 1, 'a byte 0'),
                             (b'?64 a\n', 1, 'at most 63'), (b'!' + b'9' * 5000 + b' a\n', 1, 'at most 63'),
                             (b'? a\n', 1, number), (b'?1#a\n', 1, number), (b'gap a\n', 1, action), (b'?1 a\n\xff\n', 2, action),
                             (b'?1 a\n' + MARK + b'?2 b\n', 2, action), (b'?0 a\n' + b'#' * 65537, 2, 'at most 65536 bytes')):
        status, out, said = run([NAMES], text)
        same(f'{text[:30]!r}: status and output', (status, out), (1, b''))
        message(f'{text[:30]!r}', said, f'names: line {line}: ', told)


def names_output(folder):
    lost_output([NAMES, RELEASE + '.txt'], environments()[0], folder)
    for words in (['--nonsense'], ['a', 'b'], ['no such file'], [TOP], ['']):
        status, out, said = run([NAMES] + words, cwd=folder)
        same(f'{words}: status and output', (status, out), (2, b''))
        message(str(words), said)


def pack_output(folder):
    text = os.path.join(TOP, 'samples', 'case14.txt')
    packed = contents(os.path.join(TOP, 'samples', 'case14.bin'))
    for env in environments():
        for words in ([PACK, text], [PACK, '--follow', text], [UNPACK, os.path.join(TOP, 'samples', 'case14.bin')]):
            lost_output(words, env, folder)
        same('what is packed', run([PACK, text], env=env), (0, packed, ''))
        # a reader that takes some and goes: the rest does not fit into the pipe
        long = b''.join(b'!%d @%d\n' % (k % 64, k) for k in range(30000))
        with started([PACK], stdin=subprocess.PIPE, stderr=subprocess.PIPE, env=env) as packer:
            packer.stdin.write(TEXT + long)
            packer.stdin.close()
            some_bytes(packer.stdout, 10)
            packer.stdout.close()
            same('status when the reader goes', packer.wait(PATIENCE), 2)
            message('a reader that goes', packer.stderr.read().decode(), 'not everything could be written')
    for words in ([PACK, '--nonsense'], [PACK, 'a', 'b'], [PACK, '--origin'], [PACK, '--origin', 'x'], [UNPACK, 'a', 'b'],
                  [PACK, '--origin', '1', '--origin', '1'], [PACK, '--origin', '-1'], [PACK, '--prop'], [UNPACK, '--tr'],
                  [PACK, 'no such file'], [UNPACK, 'no such file'], [PACK, TOP], [UNPACK, TOP], [PACK, '--property', '--trace'],
                  [UNPACK, '--property', '--trace'], [UNPACK, '--tap', '--trace', '--property'], [UNPACK, '--tap', 'a', 'b'],
                  [UNPACK, '--tap', '--nonsense'], [PACK, '--tap', '--nonsense'], [PACK, '--tap', 'a', 'b']):
        status, out, said = run(words, cwd=folder)
        same(f'{words}: status and output', (status, out), (2, b''))
        message(str(words), said)


def pack_text(folder):
    plain = TEXT + b'?0 @100\n!2 @161\n'
    form = rules.pack_property(B)
    want = form + pack_record(INPUT, 0, 100) + pack_record(OUTPUT, 2, 61) + END_RECORD
    card = form + pack_tap(INPUT, 0, 100) + pack_tap(OUTPUT, 2, 161) + TAP_END
    day = 1_760_000_000_000_000
    late = TEXT + b'?0 @%d\n!2 @%d\n' % (day + 100, day + 161)
    for more, packed in (([], want), (['--follow'], want), (['--follow', '--tap'], card)):
        for what, words, text in (('plain', [], plain), ('a byte-order mark', [], MARK + plain), ('CRLF', [], plain.replace(b'\n', b'\r\n')),
                                  ('both', [], MARK + plain.replace(b'\n', b'\r\n')),
                                  ('an origin', [], b'origin %d\n' % day + late), ('--origin', ['--origin', str(day)], late),
                                  ('an origin behind the property', [], late.replace(b'?0 @', b'origin %d\n?0 @' % day)),
                                  ('origin 0', ['--origin', '0'], plain), ('an end', [], plain + b'end\n')):
            same(f'{what} {more}', run([PACK] + words + more, text), (0, packed, ''))
    same('no line end at the end', run([PACK], plain[:-1]), (0, want, ''))
    same('--property', run([PACK, '--property'], plain), (0, form, ''))
    same('--trace', run([PACK, '--trace'], plain), (0, want[len(form):], ''))
    same('--trace without a property', run([PACK, '--trace', '--origin', '5'], b'?0 @105\n'),
         (0, pack_record(INPUT, 0, 100) + END_RECORD, ''))
    same('the highest stamp', run([PACK, '--trace', '--origin', '7'], b'!0 @%d\n' % (LIMIT + 7)), (0, pack_record(OUTPUT, 0, LIMIT) + END_RECORD, ''))
    for words, text, told in (([], late, ['line 4: ', '12.7 days', 'origin N', '--origin']),
                              (['--origin', '7'], TEXT + b'?0 @%d\n' % (LIMIT + 8), ['line 4: ', '12.7 days']),
                              ([], TEXT + b'?0 @' + b'9' * 5000 + b'\n', ['line 4: ', '12.7 days']),
                              (['--origin', '101'], plain, ['line 4: ', 'below the origin, 101']),
                              ([], b'origin 101\n' + plain, ['line 5: ', 'below the origin, 101']),
                              (['--origin', '1'], b'origin 1\n' + plain, ['line 1: ', 'twice']),
                              ([], b'origin 1\norigin 1\n' + plain, ['line 2: ', 'twice']),
                              ([], plain + b'origin 1\n', ['line 6: ', 'before the first line']),
                              ([], b'origin\n' + plain, ['line 1: ', "'origin' takes one number"]),
                              ([], b'origin -1\n' + plain, ['line 1: ', 'is not an origin']),
                              ([], b'bounds 10 30\nallow none\n?0 @1\nsequence ?0\n', ['line 3: ', "no 'sequence'"]),
                              ([], b'bounds 10 30\nallow none\nend\n', ['line 3: ', "no 'sequence'"]),
                              ([], plain + b'#' * 70000, ['line 6: ', 'at most 65536 bytes']),
                              ([], plain + MARK + b'!2 @161\n', ['line 6: '])):
        status, out, said = run([PACK] + words, text)
        same(f'{told}: status and output', (status, out), (1, b''))
        message(str(told), said, *told)


def follow(*words):
    return started([PACK, '--follow'] + list(words), stdin=subprocess.PIPE, stderr=subprocess.PIPE)


def follow_lines(words, lines, bad, last, line):
    """Lines with their records, then an end of the input, an end of the text or bad text, which is at this line."""
    form = rules.pack_property(B)
    for end in (b'', b'end\n', *bad):
        with follow(*words) as live:
            live.stdin.write(b'# as it comes\nallow !1\nbounds 10 30\nseq')
            live.stdin.write(b'uence ?0\n')
            same('the property, before the first line', some_bytes(live.stdout, len(form)), form)
            for text, record in lines:
                live.stdin.write(text)
                same('a record, before the next line', some_bytes(live.stdout, len(record)), record)
            live.stdin.write(end)
            if not end:
                live.stdin.close()
            # what ends it does so while its input is open
            same(f'status after {end!r}', live.wait(SHORT), int(end in bad))
            same(f'what comes last after {end!r}', live.stdout.read(), b'' if end in bad else last)
            said = live.stderr.read().decode()
            if end in bad:
                message('bad text', said, f'pack: line {line}: ')
            else:
                same('messages', said, '')


def pack_follow(folder):
    follow_lines([], ((b'?0 @100\n', pack_record(INPUT, 0, 100)), (b'gap @100\r\n', pack_record(GAP, 63, 0)),
                      (b'gap @100 lost 5\r\n', pack_record(GAP, 5, 0)), (b'!2 @161\n', pack_record(OUTPUT, 2, 61))),
                 (b'!2 @160\n', b'nonsense\n', b'gap @161 lost x\n'), END_RECORD, 9)
    follow_lines(['--tap'], ((b'?0 @4294967290\n', pack_tap(INPUT, 0, 4_294_967_290)),
                             (b'gap @4294967290\r\n', pack_tap(GAP, 0, 4_294_967_290)),
                             (b'!2 @4294967300\n', pack_tap(OUTPUT, 2, 4))),
                 (b'!2 @4294967299\n', b'!2 @8589934596\n', b'gap @4294967300 lost 5\n'), TAP_END, 8)
    # memory: the highest seen, before the input ends
    highest = {}
    for lines in (1000, 100_000):
        with follow('--trace') as live:
            taken = []
            reader = threading.Thread(target=lambda: taken.append(len(live.stdout.read())))
            reader.start()
            live.stdin.write(b''.join(b'!0 @%d # %s\n' % (k, b'x' * 100) for k in range(lines)))
            # all but what a pipe holds has been read
            status = contents(f'/proc/{live.pid}/status').decode()
            highest[lines] = int(re.search(r'VmHWM:\s*([0-9]+) kB', status)[1])
            live.stdin.close()
            reader.join()
            same('the status of a long log', live.wait(PATIENCE), 0)
            same('the bytes of a long log', taken, [6 * (lines + 1)])
    holds(f'memory grows with the log: {highest}', highest[100_000] < highest[1000] + 3000)
    # a log that grows, all the way to its verdicts
    for words, first, second in (([], 100, 161), (['--tap'], 4_294_967_290, 4_294_967_351)):
        with follow(*words) as packer, started([LISTING] + words, stdin=packer.stdout) as lister:
            packer.stdout.close()
            packer.stdin.write(TEXT)
            same('the header', some_line(lister.stdout), 'line kind action stamp verdict open\n')
            for text, line in ((b'?0 @%d\n' % first, f'1 I 0 {first} clear 1\n'),
                               (b'!2 @%d\n' % second, f'2 O 2 {second} certain 0\n')):
                packer.stdin.write(text)
                same('a line of a growing log', some_line(lister.stdout), line)
            packer.stdin.close()
            same('its last line', some_line(lister.stdout), 'end 2\n')
            same('their statuses', (packer.wait(SHORT), lister.wait(SHORT)), (0, 0))


def pack_lost(folder):
    """How many lines were lost: as it is up to 62, 63 for more or unknown, and the card says only that."""
    for words, lost in (('', 63), (' lost 0', 0), (' lost 1', 1), (' lost 5', 5), (' lost 62', 62), (' lost 63', 63), (' lost 64', 63),
                        (' lost 250', 63), (' lost 18446744073709551615', 63), ('   lost  007 # seven', 7)):
        text = f'?1 @7\ngap @200{words}\n'.encode()
        want = pack_record(INPUT, 1, 7) + pack_record(GAP, lost, 193) + END_RECORD
        same(f'gap{words}', run([PACK, '--trace'], text), (0, want, ''))
        shown = b'?1 @7\ngap @200%s\nend\n' % (b'' if lost == 63 else b' lost %d' % lost)
        same(f'gap{words}, back', run([UNPACK, '--trace'], want), (0, shown, ''))
        status, out, said = run([PACK, '--trace', '--tap'], text)
        if lost == 63:
            same(f"the card's gap{words}", (status, out, said), (0, pack_tap(INPUT, 1, 7) + pack_tap(GAP, 0, 200) + TAP_END, ''))
        else:
            same(f"the card's gap{words}", (status, out), (1, b''))
            message(f"the card's gap{words}", said, 'pack: line 2: ', f'that {lost} lines were lost', 'Leave out --tap')
    for text, told in ((b'gap @200 lost', 'expected'), (b'gap @200 lost -1', "'-1' is not"), (b'gap @200 lost x', "'x' is not"),
                       (b'gap @200 lost 5 6', 'expected'), (b'gap lost 5 @200', 'expected'), (b'gap 5 @200', 'expected'), (b'?0 @200 lost 5', 'expected'),
                       (b'gap @200 lost 18446744073709551616', 'at most')):
        status, out, said = run([PACK, '--trace'], text + b'\n')
        same(f'{text}: status and output', (status, out), (1, b''))
        message(str(text), said, 'pack: line 1: ', told)


def pack_card(folder):
    """What the card can say and what not, at both sides of each edge."""
    def text_of(lines, origin=0):
        return b''.join(b'%s @%d\n' % (act.encode(), origin + int(stamp)) for act, stamp in map(str.split, lines.split(', ')))

    form, day = rules.pack_property(B), 1_760_000_000_000_000
    same('the sample of the card', run([PACK, '--tap', CARD_TEXT]), (0, contents(CARD), ''))
    for lines, records in (('?0 0', '00 00000000'), ('?0 4294967295', '00 FFFFFFFF'), ('gap 4294967295', '80 FFFFFFFF'),
                           ('!63 5, ?63 4294967300', '7F 00000005 3F 00000004'),
                           ('?1 4294967295, !1 4294967296, !1 4294967296', '01 FFFFFFFF 41 00000000 41 00000000'),
                           ('gap 4294967295, gap 8589934590, !2 8589934596', '80 FFFFFFFF 80 FFFFFFFE 42 00000004')):
        want = bytes.fromhex(records + 'C0 00000000')
        same(lines, run([PACK, '--tap'], TEXT + text_of(lines)), (0, form + want, ''))
        same(f'{lines}, an origin', run([PACK, '--tap', '--trace', '--origin', str(day)], text_of(lines, day)), (0, want, ''))
        same(f'{lines}, back', run([UNPACK, '--tap', '--trace'], want), (0, text_of(lines) + b'end\n', ''))
    first = ['4294967295 ', 'first stamp', "'origin N'", '--origin N']
    later = ['4294967295 ', 'is 4294967296 above the one before it', 'Leave out --tap', 'gap mark']
    for lines, line, told, before in (('?0 4294967296', 6, first, ''), ('gap 4294967296', 6, first, ''),
                                      (f'!0 {LIMIT}', 6, first, ''), ('?0 5, !1 4294967301', 7, later, '00 00000005'),
                                      ('?0 0, gap 4294967296', 7, later, '00 00000000'),
                                      (f'?0 1, !1 {LIMIT}', 7, ['is 1099511627774 above'], '00 00000001'),
                                      ('?0 4294967295, !1 4294967296, !2 8589934592', 8, later, '00 FFFFFFFF 41 00000000')):
        text = TEXT + b'# as the card sends it\n\n' + text_of(lines)
        for given in (text, b'origin %d\n' % day + TEXT + b'\n' + text_of(lines, day)):
            status, out, said = run([PACK, '--tap'], given)
            same(f'{lines}: status and output', (status, out), (1, b''))
            message(lines, said, f'pack: line {line}: ', *told)
        same(f'{lines}, followed', run([PACK, '--tap', '--follow'], text), (1, form + bytes.fromhex(before), said))
        # without --tap it can be said, and a property has no lines
        same(f'{lines} without --tap', run([PACK], text)[0], 0)
        same(f'{lines}, the property alone', run([PACK, '--tap', '--property'], text), (0, form, ''))
    for words, lines, told in (([], f'?0 {LIMIT + 1}', ['line 4: ', '12.7 days']), ([], '?0 5, !1 4', ['line 5: ', 'falls: 5 ']),
                               (['--origin', '101'], '?0 100', ['line 4: ', 'below the origin, 101'])):
        status, out, said = run([PACK, '--tap'] + words, TEXT + text_of(lines))
        same(f'{lines}: status and output', (status, out), (1, b''))
        message(lines, said, *told)


def unpack_back(folder):
    """Packed bytes, to text, to the same bytes."""
    rng = random.Random(20260101)
    forms = [contents(path) for path in SAMPLES] + [LONG]
    for n in (1, 2, 31, 32):
        for allowed in (0, 2 ** 64 - 1, rng.getrandbits(64)):
            lb = rng.choice([1, 60_000_000, rng.randrange(1, 60_000_000)])
            p = rules.Property([(rng.random() < .5, rng.randrange(64)) for _ in range(n)], allowed, lb, rng.choice([lb, 60_000_000]))
            lines = b''.join(pack_record(kind, rng.choice([0, 62, 63, rng.randrange(64)]), rng.choice([0, 1, rng.randrange(2 ** 30)]))
                             for kind in [rng.randrange(3) for _ in range(rng.randrange(20))])
            forms.append(rules.pack_property(p) + lines + END_RECORD)
    forms.append(rules.pack_property(B) + pack_record(OUTPUT, 63, LIMIT) + pack_record(GAP, 0, 0) + END_RECORD)
    for data in forms:
        status, text, said = run([UNPACK], data)
        same('unpacking', (status, said), (0, ''))
        same(f'the way there and back of {data[:60].hex()}', run([PACK], text), (0, data, ''))
        # the last is not for the card
        if data != forms[-1]:
            sent = logs.as_card(data)
            text = run([UNPACK], logs.unknown(data))[1]
            same("unpacking the card's", run([UNPACK, '--tap'], sent), (0, text, ''))
            same(f"the way there and back of the card's {sent[:60].hex()}", run([PACK, '--tap'], text), (0, sent, ''))
    card, sent = ['--tap'], logs.as_card(run([PACK, CARD_TEXT])[1])
    same('the sample of the card', sent, contents(CARD))
    for words, data in [([], data) for data in forms[:3]] + [(card, sent)]:
        _, _, size = rules.read_property(data)
        for part, some in (('--property', data[:size]), ('--trace', data[size:])):
            status, text, said = run([UNPACK, part] + words, some)
            same('unpacking a part', (status, said), (0, ''))
            same(f'the way there and back of a {part}', run([PACK, part] + words, text), (0, some, ''))
    form, made = rules.pack_property(B), Folder(folder)
    limit = card_at_limit()
    status, text, said = run([UNPACK, '--tap', '--trace'], limit + TAP_END)
    same('the card at the limit', (status, text.decode().split()[-5:], said),
         (0, ['gap', '@1099511627520', 'gap', '@1099511627775', 'end'], ''))
    same('the card at the limit, back', run([PACK, '--tap', '--trace'], text), (0, limit + TAP_END, ''))
    for words, data, told in (([], b'', 'refusal 7: '), ([], form[:-1], 'refusal 7: '), ([], form, 'refusal 7: record 1, at byte 17'),
                              ([], form + END_RECORD[:5], 'refusal 7: record 1, at byte 17'), ([], form[:-1] + b'\1' + END_RECORD, 'refusal 8: '),
                              ([], b'\0' * 16 + END_RECORD, 'refusal 1: '), ([], rules.pack_property(B, 33) + END_RECORD, 'refusal 1: '),
                              ([], rules.pack_property(B._replace(lb=0)) + END_RECORD, 'refusal 2: '),
                              ([], rules.pack_property(B._replace(ub=60_000_001)) + END_RECORD, 'refusal 2: '),
                              ([], form + pack_record(INPUT, 0, 0) + pack_record(END, 1, 0) + END_RECORD, 'refusal 8: record 2, at byte 23'),
                              ([], form + pack_record(END, 1, 0), 'refusal 8: record 1'), ([], form + pack_record(END, 0, 1), 'refusal 8: record 1'),
                              ([], form + pack_record(INPUT, 0, LIMIT) + pack_record(INPUT, 0, 1) + END_RECORD, 'refusal 4: record 2'),
                              ([], form + END_RECORD + b'\0', 'refusal 8: 1 bytes stand behind the end record'),
                              (['--property'], form + b'\0', 'refusal 8: 1 bytes stand behind the property'),
                              (['--trace'], b'', 'refusal 7: record 1'),
                              (card, b'', 'refusal 7: '), (card, form, 'refusal 7: record 1, at byte 17'),
                              (card, form + TAP_END[:4], 'refusal 7: record 1, at byte 17'),
                              (card, form[:-1] + b'\1' + TAP_END, 'refusal 8: '),
                              (card, form + pack_tap(INPUT, 0, 5) + pack_tap(GAP, 0, 4)[:4], 'refusal 7: record 2, at byte 22'),
                              (card, form + pack_tap(INPUT, 0, 5) + pack_tap(GAP, 1, 4), 'refusal 8: record 2, at byte 22'),
                              (card, form + pack_tap(END, 1, 0), 'refusal 8: record 1'),
                              (card, form + pack_tap(END, 0, 1), 'refusal 8: record 1'),
                              (card, form + limit + pack_tap(INPUT, 0, 0) + TAP_END, 'refusal 4: record 258'),
                              (card, form + limit + pack_tap(GAP, 0, 4_294_967_294), 'refusal 4: record 258'),
                              (card, form + limit + pack_tap(GAP, 1, 0), 'refusal 8: record 258'),
                              (card, form + TAP_END + b'\0', 'refusal 8: 1 bytes stand behind the end record'),
                              (card + ['--property'], form + b'\0', 'refusal 8: 1 bytes stand behind the property'),
                              (['--trace'] + card, TAP_END[:4], 'refusal 7: record 1')):
        status, out, said = run([UNPACK] + words, data)
        same(f'{told}: status and output', (status, out), (1, b''))
        message(told, said, told)
        # and the watcher says so too, as far as its program reads
        if words in ([], card) and 'behind' not in told:
            same(f'the listing of {told}', made.run(*words, data=data)[1].decode().split()[-1], told.split()[1][:-1])


def readme(folder):
    """README's line that shows only changes of verdict, and what it says to do after 'stop N 6'."""
    lines = [line.strip() for line in contents(os.path.join(TOP, 'README.md')).decode().split('\n') if '| awk ' in line]
    same("the number of README's lines with awk", len(lines), 1)
    status, out, said = run(['sh', '-c', lines[0]], cwd=TOP)
    same("README's line", (status, out.decode().split('\n'), said), (0, [
        'line kind action stamp verdict open', '1 I 1 1000000 clear 1', '7 O 2 2090400 certain 0', '8 G 3 2500000 blind 0',
        '11 I 0 3000000 clear 1', '14 O 2 3061000 suspect 2', 'end 14', ''], ''))
    made = Folder(folder)
    crowd = run([UNPACK, os.path.join(TOP, 'samples', 'case14.bin')])[1].decode()
    same('a crowd', made.run(data=run([PACK], crowd.encode())[1])[1].decode().split('\n')[-2], 'stop 64 6')
    marked = crowd.replace('?0 @60\n', 'gap @60 lost 1\n!1 @120\n?0 @181\n')
    same('a crowd with a gap mark', made.run(data=run([PACK], marked.encode())[1])[1].decode().split('\n')[-5:],
         ['65 G 1 60 blind 0', '66 O 1 120 blind 0', '67 I 0 181 clear 1', 'end 67', ''])


def rules_cited(folder):
    """What docs/RULES.md cites, 'crate/specs/File: names', is defined there."""
    text = ' '.join(contents(os.path.join(TOP, 'docs', 'RULES.md')).decode().split())
    cited = re.findall('`([a-z_]+/(?:specs|proofs)/[A-Za-z]+)`: ((?:`[^`]+`(?:, )?)+)', text)
    holds(f'only {len(cited)} citations', len(cited) > 30)
    for place, names in cited:
        path = os.path.join(TOP, 'crates', place + '.antt')
        holds(f'docs/RULES.md cites {place}, which is not there', os.path.exists(path))
        source = contents(path).decode()
        for name in re.findall('`([^`]+)`', names):
            defined = r'(?m)^\s*(?:(?:abbrev |unfoldable )?pub )?(?:record |data )?' + re.escape(name) + r'(?=[\s:(])'
            holds(f"docs/RULES.md cites '{name}' of {place}, which is not there", re.search(defined, source))
    for path in set(re.findall('`((?:tests|samples|include|docs)/[A-Za-z0-9_./-]+)`', text)):
        holds(f'docs/RULES.md cites {path}, which is not there', os.path.exists(os.path.join(TOP, path)))


def edits_cited(folder):
    """Each call of docs/PROMISES.md has two wrong programs, of which one or more are edits that are there; and every edit is named."""
    text = contents(os.path.join(TOP, 'docs', 'PROMISES.md')).decode()
    rows = re.findall('(?m)^[|] (`.*) [|]$', text)
    holds(f'only {len(rows)} calls', len(rows) > 20)
    for row in rows:
        call, programs = row.split(' | ')[0], row.split(' | ')[-1]
        own = 'stretch' if '(C)' in call else re.match('`([a-z_]+)::', call)[1]
        kept, _, tried = programs.partition('*tried*')
        groups = [group for group in kept.split(';') if group.strip()]
        edits = [(re.search(r'\(`([a-z_]+)`\)', group), re.findall('`([a-z0-9_]+)`(?![)])', group)) for group in groups]
        holds(f'{call}: no edit, or one wrong program only', edits and (tried.strip() or sum(len(names) for _, names in edits) > 1))
        for crate, names in edits:
            for name in names:
                path = os.path.join('crates', crate[1] if crate else own, 'must-fail', name + '.edit')
                holds(f'{call}: there is no {path}', os.path.exists(os.path.join(TOP, path)))
    for crate in os.listdir(os.path.join(TOP, 'crates')):
        edits = os.path.join(TOP, 'crates', crate, 'must-fail')
        for name in os.listdir(edits) if os.path.isdir(edits) else ():
            holds(f'docs/PROMISES.md does not name {crate}/{name}', f'`{name[:-len(".edit")]}`' in text)


def demands_cited(folder):
    """What docs/PROMISES.md names of the demands is what the file of the demands states or hands on."""
    text = contents(os.path.join(TOP, 'docs', 'PROMISES.md')).decode()
    told = text[text.index('- **The demands**'):]
    told = set(re.findall('`([a-zA-Z0-9_-]+)`', told[:told.index('\n\n')])) - {'line', 'mark'}
    source = contents(os.path.join(TOP, 'crates', 'demands', 'proofs', 'Demands.antt')).decode()
    handed = set(re.findall(r'(?m)^ *pub ([a-z][a-zA-Z0-9_-]*) :', source))
    fields = set()
    for record in re.findall(r'(?m)^( *)pub record .*\n((?:\1  .*\n)+)', source):
        fields |= set(re.findall(r'(?m)^ *pub ([a-z][a-zA-Z0-9_-]*) :', record[1]))
    for names in re.findall(r'(?m)^pub use .*[{](.*)[}]$', source):
        handed |= {name.split(' as ')[-1].strip() for name in names.split(',')}
    handed -= fields
    holds(f'only {len(handed)} theorems', len(handed) > 60)
    same('theorems of the demands that docs/PROMISES.md does not name', sorted(handed - told), [])
    same('theorems that docs/PROMISES.md names and the demands do not hand on', sorted(told - handed), [])


PARTS = [listing_status, listing_long, listing_lost_output, listing_slow_reader, listing_live, listing_leaves_input, listing_builds, gate_takes, archive,
         listing_names, listing_names_lists, listing_names_builds, listing_names_live, listing_tap, listing_why, names_text,
         names_output, pack_output, pack_text, pack_follow, pack_lost, pack_card, unpack_back, readme, rules_cited,
         edits_cited, demands_cited]


def main(names):
    # builds the programs if they are not there
    logs.named_command()
    for words in ([], ['--tap'], ['--why']):
        logs.listing_command(*words)
    run_parts('tools', PARTS, names)


main(sys.argv[1:])
