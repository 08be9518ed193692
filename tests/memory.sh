#!/usr/bin/env bash
# Plays the mix of examples/play, the same with a late source, and the mix of three links of tests/plays without workers and with two,
# as often as each takes memory, and refuses another allocation each time: the play is told `out of memory`, status 7, leaves the log
# of an earlier play as it is, and of its sink's file nothing or a prefix; and of the first two, one that is refused a line of its log in
# the midst of its samples stops with less than the whole. Workers can take memory fewer times than before, and do without a thread that
# can't be made: then the play is whole. Then checks the log of the mix so, which is told `out of memory` and changes no file, or gets its
# yes. Needs a C compiler for the small library that refuses. Its last line is 'memory: N passed, M failed'.
. "$(dirname "${BASH_SOURCE[0]}")/failing.sh"
python3 - "$top" "$program" "$room" <<'PY'
import os, shutil, subprocess, sys

top, program, room = sys.argv[1:]
# a script, the files that it reads, the file that it writes, its workers, and whether its log wants memory in the midst of its samples
plays = [
    ('examples/play/mix.omx', ('low.wav', 'high.wav'), 'mix.wav', 0, True),
    ('examples/play/late.omx', ('low.wav', 'high.wav'), 'late.wav', 0, True),
    ('tests/plays/mix_of_three_links/before/s.omx', ('a.wav', 'b.wav'), 's.wav', 0, False),
    ('tests/plays/mix_of_three_links/before/s.omx', ('a.wav', 'b.wav'), 's.wav', 2, False),
]
earlier = b'an earlier log\n'
good = bad = 0


def play(path, sources, sink, workers, refused):
    """What a play in an empty folder prints, its status, how much memory it asked for, and its sink and log."""
    origin, script = os.path.split(f'{top}/{path}')
    folder = f'{room}/{script}-{workers}-{refused}'
    os.mkdir(folder)
    for name in (script, *sources):
        shutil.copy(f'{origin}/{name}', folder)
    open(f'{folder}/log', 'wb').write(earlier)
    count = f'{room}/count'
    said = {'LD_PRELOAD': f'{room}/fail.so', 'FAIL_ALLOC': str(refused), 'COUNT_ALLOC': count}
    ran = subprocess.run([program, 'play', script, str(workers), 'log'], cwd=folder, env=os.environ | said, stdout=subprocess.PIPE, timeout=60)
    sink, log = [open(name, 'rb').read() if os.path.exists(name) else None
                 for name in (f'{folder}/{sink}', f'{folder}/log')]
    shutil.rmtree(folder)
    return ran.stdout, ran.returncode, int(open(count).read()), sink, log


for script, sources, sink, workers, stops in plays:
    told, status, most, whole, log = play(script, sources, sink, workers, 0)
    if status != 0 or not log.endswith(b'\nend\n'):
        print(f'{script}, {workers} workers: {told!r}, status {status}')
        bad += 1
    stopped = 0
    for number in range(1, most + 1):
        printed, status, asked, written, log = play(script, sources, sink, workers, number)
        is_refused = asked >= number and (printed, status, log) == (b'out of memory\n', 7, earlier) and whole.startswith(written or b'')
        # by workers, where none was refused, or what a thread is made with was
        is_whole = workers > 0 and (printed, status, written) == (told, 0, whole) and log.endswith(b'\nend\n')
        is_good = is_refused or is_whole
        good, bad = good + is_good, bad + (not is_good)
        stopped += 0 < len(written or b'') < len(whole)
        if not is_good:
            print(f'{script}, {workers} workers, allocation {number}: {printed!r}, status {status}, log {log[:20]!r}')
    if stops and not stopped:
        print(f'{script}, {workers} workers: no refused allocation stopped the run')
        bad += 1


def checked(folder, refused):
    """What a check in the folder prints, its status, and how much memory it asked for."""
    said = {'LD_PRELOAD': f'{room}/fail.so', 'FAIL_ALLOC': str(refused), 'COUNT_ALLOC': f'{room}/count'}
    ran = subprocess.run([program, 'audit', 'mix.omx', 'log'], cwd=folder, env=os.environ | said, stdout=subprocess.PIPE, timeout=60)
    return ran.stdout, ran.returncode, int(open(f'{room}/count').read())


folder = f'{room}/checked'
os.mkdir(folder)
for name in ('mix.omx', 'low.wav', 'high.wav'):
    shutil.copy(f'{top}/examples/play/{name}', folder)
subprocess.run([program, 'play', 'mix.omx', '0', 'log'], cwd=folder, stdout=subprocess.DEVNULL, check=True, timeout=60)
left = {name: open(f'{folder}/{name}', 'rb').read() for name in os.listdir(folder)}
told, status, most = checked(folder, 0)
if (told, status) != (b'yes %d acts\n' % (left['log'].count(b'\n') - 1), 0):
    print(f'the check of the mix: {told!r}, status {status}')
    bad += 1
for number in range(1, most + 1):
    printed, status, _ = checked(folder, number)
    is_good = (printed, status) == (b'out of memory\n', 7) and {name: open(f'{folder}/{name}', 'rb').read() for name in os.listdir(folder)} == left
    good, bad = good + is_good, bad + (not is_good)
    if not is_good:
        print(f'the check of the mix, allocation {number}: {printed!r}, status {status}')
print(f'memory: {good} passed, {bad} failed')
sys.exit(bad > 0)
PY
