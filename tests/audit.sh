#!/usr/bin/env bash
# Audits with the built program. First the logs of examples/audit, and the folders of tests/audits, each of them a check: `words`, one a
# line; the files of `before`, which stand in an empty folder when the program starts and are the same afterwards; and `out`, what is printed,
# with a line 'status N' at its end. Then each play of tests/plays that is done whole, without workers and with 2 or 4 by turns, the named
# ones with both: its log gets a yes, and each damaged form of it, or of a sink's file, what the rules say (tests/damage.py).
# Its last line is 'audits: N passed, M failed'.
. "$(dirname "${BASH_SOURCE[0]}")/program.sh"
exec python3 - "$top" "$program" <<'PY'
import os, subprocess, sys, tempfile
from concurrent.futures import ThreadPoolExecutor

top, program = sys.argv[1:]
sys.dont_write_bytecode = True
sys.path.insert(0, os.path.join(top, 'tests'))
import damage

audits, plays = os.path.join(top, 'tests/audits'), os.path.join(top, 'tests/plays')


def files_in(folder):
    """The files of a folder by their names."""
    return {name: open(os.path.join(folder, name), 'rb').read() for name in os.listdir(folder)}


def put(room, files):
    for name, content in files.items():
        with open(os.path.join(room, name), 'wb') as file:
            file.write(content)


def words_in(folder):
    return open(os.path.join(folder, 'words')).read().splitlines()


def told(words, room):
    """What the program prints in the folder, and its status."""
    try:
        ran = subprocess.run([program, *words], cwd=room, stdin=subprocess.DEVNULL, stdout=subprocess.PIPE,
                             stderr=subprocess.DEVNULL, timeout=60)
    except subprocess.TimeoutExpired:
        return 'no end in 60 seconds\n'
    return ran.stdout.decode(errors='replace') + f'status {ran.returncode}\n'


def folder_differences(name):
    """What is other than it should be where the folder is checked, for the one check that it is."""
    folder = os.path.join(audits, name)
    wanted, before = open(os.path.join(folder, 'out')).read(), files_in(os.path.join(folder, 'before'))
    with tempfile.TemporaryDirectory() as room:
        put(room, before)
        got = told(words_in(folder), room)
        there = files_in(room)
    return [None if got == wanted and there == before else f'{name}: wanted {wanted!r}, got {got!r}' if got != wanted else
            f'{name}: other files']


def example_differences(name):
    """The same of a log of the examples."""
    folder = os.path.join(top, 'examples/audit')
    wanted, got = open(os.path.join(folder, f'{name}.out')).read(), told(['audit', 'copy.omx', f'{name}.log'], folder)
    return [None if got == wanted else f'{name}: wanted {wanted!r}, got {got!r}']


def play_differences(case):
    """The same of a play and each damaged form of what it left."""
    name, workers = case
    folder, found = os.path.join(plays, name), []
    _, script, _, log = words_in(folder)
    with tempfile.TemporaryDirectory() as room:
        put(room, files_in(os.path.join(folder, 'before')))
        played = told(['play', script, str(workers), log], room)
        if not played.endswith('status 0\n'):
            return [f'{name}, {workers} workers: {played!r}']
        left = files_in(room)
        for what, other, is_right in damage.forms(left, script, log, f'{name} {workers}'):
            put(room, other)
            got, there = told(['audit', script, log], room), files_in(room)
            right = is_right(got) and there == left | other
            found.append(None if right else f'{name}, {workers} workers, {what}: got {got!r}' + (', other files' * (there != left | other)))
            put(room, {it: left[it] for it in other})
    return found


def is_whole(name):
    return open(os.path.join(plays, name, 'out'), 'rb').read().endswith(b'status 0\n')


folders = sorted(it.name for it in os.scandir(audits) if it.is_dir())
whole = [it for it in sorted(it.name for it in os.scandir(plays) if it.is_dir()) if is_whole(it)]
# the named ones by 2 and by 4
cases = [(name, workers) for place, name in enumerate(whole)
         for workers in ((0, 2, 4) if name[-1].isalpha() else (0, (2, 4)[place % 2]))]
good = bad = 0
with ThreadPoolExecutor(len(os.sched_getaffinity(0))) as pool:
    found = [*pool.map(example_differences, ('whole', 'claim_left_out')), *pool.map(folder_differences, folders),
             *pool.map(play_differences, cases)]
    for differences in found:
        for wrong in differences:
            good, bad = good + (wrong is None), bad + (wrong is not None)
            if wrong is not None:
                print(wrong)
print(f'audits: {good} passed, {bad} failed')
sys.exit(bad > 0)
PY
