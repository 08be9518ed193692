#!/usr/bin/env bash
# Plays three samples, and a made minute, with the built program over a host one of whose calls on one file fails, or whose file ends
# before its size, without workers and with three, the minute with one and with eight too, and compares what is printed, the status,
# the sink and the log with what the rules say. The earlier log stays where none is made. Then checks the logs of both plays over such a
# host, which changes no file. Needs a C compiler for the small library that fails.
# Its last line is 'host: N passed, M failed'.
. "$(dirname "${BASH_SOURCE[0]}")/failing.sh"
python3 - "$top" "$program" "$room" <<'PY'
import os, shutil, subprocess, sys

top, program, room = sys.argv[1:]
earlier = b'an earlier log\n'
unread, unwritten = (b'read fault\n', 4), (b'write fault\n', 5)
empty, begun, whole = ['empty'], ['begun'], ['whole']
# what couldn't be written is tried again when the file is let go, so any front may be there
front = empty + begun + whole
absent = ['absent']


def short(place, size, which=b'line 2'):
    return b'short: %s at %d of %d\n' % (which, place, size), 8


# the play; the kind of the call that fails, its number or the place of the end, and the file; what is told; and what the sink's
# file may be afterwards, which isn't begun where a source's worker is ahead
cases = [
    ('three', 'open', 1, 'in.wav', unread, absent),
    ('three', 'read', 1, 'in.wav', unread, absent),
    ('three', 'end', 20, 'in.wav', short(20, 50), absent),
    ('three', 'end', 46, 'in.wav', short(46, 50), empty),
    ('three', 'open', 1, 'out.wav', unwritten, absent),
    ('three', 'write', 1, 'out.wav', unwritten, front),
    ('three', 'open', 1, 'log', unwritten, whole),
    ('minute', 'read', 5, 'w/a.wav', unread, begun),
    ('minute', 'end', 1000, 'w/a.wav', short(1000, 960044), empty),
    ('minute', 'end', 100000, 'w/a.wav', short(100000, 960044), begun),
    ('minute', 'write', 3, 'w/out.wav', unwritten, front),
    ('minute', 'write', 1, 'log', unwritten, whole),
]
numbers_of_workers = {'three': (0, 3), 'minute': (0, 1, 3, 8)}


def run(folder, words, fault=None):
    """What the program prints in a folder, and its status."""
    failing = {} if fault is None else {'LD_PRELOAD': f'{room}/fail.so', 'FAIL_KIND': fault[0], 'FAIL_NUMBER': str(fault[1]),
                                        'FAIL_NAME': fault[2]}
    ran = subprocess.run([program, *words], cwd=folder, env=os.environ | failing, stdin=subprocess.DEVNULL, stdout=subprocess.PIPE,
                         stderr=subprocess.DEVNULL, timeout=60)
    return ran.stdout, ran.returncode


def play(folder, script, workers=0, fault=None):
    """What the play in a folder prints and its status, and the log."""
    with open(f'{folder}/log', 'wb') as log:
        log.write(earlier)
    return run(folder, ['play', script, str(workers), 'log'], fault), open(f'{folder}/log', 'rb').read()


def extent(sink, all_of_it):
    """How much of its bytes a sink has."""
    if sink is None:
        return 'absent'
    return 'whole' if sink == all_of_it else 'empty' if not sink else 'begun' if all_of_it.startswith(sink) else 'other'


def content(path):
    return open(path, 'rb').read() if os.path.exists(path) else None


scripts = {'three': ('play.omx', 'out.wav'), 'minute': ('w/mix.omx', 'w/out.wav')}
os.makedirs(f'{room}/three')
shutil.copy(f'{top}/examples/first/in.wav', f'{room}/three')
open(f'{room}/three/play.omx', 'w').write('omx 1 play\nsource a in.wav\nsink b out.wav\nlink a.0 b.0 2 4096\n')
os.makedirs(f'{room}/minute/w')
subprocess.run([program, 'make', '1', '480000', 'w'], cwd=f'{room}/minute', stdout=subprocess.DEVNULL, check=True, timeout=60)

good = bad = 0
sinks, logs = {}, {}
for name, (script, sink) in scripts.items():
    (printed, status), log = play(f'{room}/{name}', script)
    logs[name] = log
    sinks[name] = content(f'{room}/{name}/{sink}')
    if status != 0 or not log.endswith(b'\nend\n'):
        bad += 1
        print(f'{name}: {printed!r}, status {status}')
for (name, kind, number, file, told, left), workers in ((case, it) for case in cases for it in numbers_of_workers[case[0]]):
    script, sink = scripts[name]
    if os.path.exists(f'{room}/{name}/{sink}'):
        os.remove(f'{room}/{name}/{sink}')
    got, log = play(f'{room}/{name}', script, workers, (kind, number, file))
    has = extent(content(f'{room}/{name}/{sink}'), sinks[name])
    is_left = has in left or (workers > 0 and left == begun and has == 'empty')
    # a log that was opened has a prefix of its text, which by workers has another order behind its first line
    known = len(log) if workers == 0 else logs[name].index(b'\n')
    is_kept = logs[name].startswith(log[:known]) if (kind, file) == ('write', 'log') else log == earlier
    if got == told and is_left and is_kept:
        good += 1
    else:
        bad += 1
        print(f'{name}, {kind} {number} of {file}, {workers} workers: wanted {told}, {left}, got {got}, {has}, and the log {log[:20]!r}')
# the same of checks, where each file is there
for name, (script, sink) in scripts.items():
    play(f'{room}/{name}', script)
script_size, log_size = (os.path.getsize(f'{room}/three/{it}') for it in ('play.omx', 'log'))
audits = [
    ('three', 'open', 1, 'play.omx', unread),
    ('three', 'read', 1, 'play.omx', unread),
    ('three', 'end', 20, 'play.omx', short(20, script_size, b'script')),
    ('three', 'open', 1, 'in.wav', unread),
    ('three', 'read', 1, 'in.wav', unread),
    ('three', 'end', 20, 'in.wav', short(20, 50)),
    ('three', 'end', 46, 'in.wav', short(46, 50)),
    ('three', 'open', 1, 'out.wav', unread),
    ('three', 'read', 1, 'out.wav', unread),
    ('three', 'end', 20, 'out.wav', short(20, 50, b'line 3')),
    ('three', 'open', 1, 'log', unread),
    ('three', 'read', 1, 'log', unread),
    ('three', 'end', 100, 'log', short(100, log_size, b'log')),
    ('minute', 'read', 5, 'w/a.wav', unread),
    ('minute', 'end', 100000, 'w/a.wav', short(100000, 960044)),
    ('minute', 'read', 3, 'w/out.wav', unread),
    ('minute', 'end', 100000, 'w/out.wav', short(100000, 480058, b'line 7')),
]


def files_below(folder):
    return {it: content(os.path.join(at, it)) for at, _, names in os.walk(folder) for it in names}


for name, kind, number, file, told in audits:
    before = files_below(f'{room}/{name}')
    got = run(f'{room}/{name}', ['audit', scripts[name][0], 'log'], (kind, number, file))
    if got == told and files_below(f'{room}/{name}') == before:
        good += 1
    else:
        bad += 1
        print(f'a check of {name}, {kind} {number} of {file}: wanted {told}, got {got}')
print(f'host: {good} passed, {bad} failed')
sys.exit(bad > 0)
PY
