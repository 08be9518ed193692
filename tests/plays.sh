#!/usr/bin/env bash
# Runs the plays of tests/plays with the built program: without workers, with 2 and with 4, and with 1 or 8 by turns. A play is a
# folder: `words`, one a line, whose number of workers is left aside; the files of `before`, which stand in an empty folder when the
# program starts; `out`, what is printed, with a line 'status N' at its end; and the files of `after`, which are there at the end beside
# those of `before`. Of a log its last line is looked at, and who made each act. An independent model worked the numbered plays out from
# the rules; `codes` has what G.711's formulas give, and the others were worked out by hand.
# Its last line is 'plays: N passed, M failed'.
. "$(dirname "${BASH_SOURCE[0]}")/program.sh"
exec python3 - "$top" "$program" <<'PY'
import os, subprocess, sys, tempfile

top, program = sys.argv[1:]
plays = os.path.join(top, 'tests/plays')
# the acts of a log that the thread which conducts makes
conducted = {b'send', b'drop', b'set', b'tunnel'}


def files_in(folder):
    """The files of a folder by their names; of a folder that isn't there, none."""
    names = os.listdir(folder) if os.path.isdir(folder) else []
    return {name: open(os.path.join(folder, name), 'rb').read() for name in names}


def played(words, files):
    """What the program prints and its status, and the files that are there afterwards."""
    with tempfile.TemporaryDirectory() as room:
        for name, content in files.items():
            with open(os.path.join(room, name), 'wb') as file:
                file.write(content)
        try:
            ran = subprocess.run([program, *words], cwd=room, stdin=subprocess.DEVNULL, stdout=subprocess.PIPE,
                                 stderr=subprocess.DEVNULL, timeout=60)
        except subprocess.TimeoutExpired:
            return b'no end in 60 seconds\n', files_in(room)
        return ran.stdout + b'status %d\n' % ran.returncode, files_in(room)


def is_made(line, workers):
    """Whether the act of a log's line was made by a thread that may: without workers by the one that plays, which is 0."""
    _, thread, act = line.split(b' ')[:3]
    return thread == b'0' if workers == 0 or act in conducted else 1 <= int(thread) <= workers


def fault_of_log(log, workers):
    """What is wrong with the log of a play that was done whole, or nothing."""
    lines = (log or b'').split(b'\n')
    if lines[-2:] != [b'end', b'']:
        return 'the log is missing or has no end'
    other = [line for line in lines[:-2] if not is_made(line, workers)]
    return f'by another thread: {other[0].decode()}' if other else None


def difference(play, workers):
    """What is other than it should be with so many workers, or nothing."""
    verb, script, _, name = open(os.path.join(play, 'words')).read().splitlines()
    wanted = open(os.path.join(play, 'out'), 'rb').read()
    before = files_in(os.path.join(play, 'before'))
    printed, there = played([verb, script, str(workers), name], before)
    if printed != wanted:
        return f'wanted {wanted!r}, got {printed!r}'
    log = there.pop(name, None)
    if not wanted.endswith(b'status 0\n'):
        wrong = None if log is None else 'there is a log after a fault'
    else:
        wrong = fault_of_log(log, workers)
    after = before | files_in(os.path.join(play, 'after'))
    other = [name for name in sorted(after.keys() | there.keys()) if after.get(name) != there.get(name)]
    return wrong or (f'other files: {" ".join(other)}' if other else None)


good = bad = 0
for place, name in enumerate(sorted(it.name for it in os.scandir(plays) if it.is_dir())):
    for workers in (0, 2, 4, (1, 8)[place % 2]):
        wrong = difference(os.path.join(plays, name), workers)
        good, bad = good + (wrong is None), bad + (wrong is not None)
        if wrong is not None:
            print(f'{name}, {workers} workers: {wrong}')
print(f'plays: {good} passed, {bad} failed')
sys.exit(bad > 0)
PY
