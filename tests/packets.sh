#!/usr/bin/env bash
# Packs and unpacks the files of tests/packets and of examples/packets with the built program, and those that
# by_struct.py builds. In the folders `pack` and `unpack` NAME.in is the first file, NAME.out what is printed, with a
# line 'status N' at its end, and NAME.new the second file, where the status is 0; a long one is compressed. An
# independent model worked them out from the rules. Its last line is 'packets: N passed, M failed'.
. "$(dirname "${BASH_SOURCE[0]}")/program.sh"
exec python3 - "$top" "$program" <<'PY'
import gzip, os, subprocess, sys, tempfile

top, program = sys.argv[1:]
sys.dont_write_bytecode = True
sys.path.insert(0, os.path.join(top, 'tests/packets'))
import by_struct



def content(path):
    if not os.path.exists(path):
        return gzip.open(path + '.gz').read() if os.path.exists(path + '.gz') else None
    return open(path, 'rb').read()


def stored(word):
    """The cases of a folder: a name, the word, the first file, what is printed, and the second file."""
    folder = os.path.join(top, 'tests/packets', word)
    for name in sorted(name[:-3] for name in os.listdir(folder) if name.endswith('.in')):
        path = os.path.join(folder, name)
        yield f'{word} {name}', word, content(path + '.in'), content(path + '.out').decode(), content(path + '.new')


def example():
    """What a newcomer unpacks first."""
    path = os.path.join(top, 'examples/packets/late')
    return 'example', 'unpack', content(path + '.packets'), content(path + '.out').decode(), content(path + '.wav')


def difference(word, given, told, wanted):
    """What is other than it should be, or nothing."""
    with tempfile.TemporaryDirectory() as work:
        with open(os.path.join(work, 'input'), 'wb') as file:
            file.write(given)
        try:
            ran = subprocess.run([program, word, 'input', 'output'], cwd=work, stdin=subprocess.DEVNULL,
                                 stdout=subprocess.PIPE, timeout=60)
        except subprocess.TimeoutExpired:
            return 'no end in 60 seconds'
        printed = ran.stdout.decode() + f'status {ran.returncode}\n'
        if printed != told:
            return f'wanted {told!r}, got {printed!r}'
        if content(os.path.join(work, 'input')) != given:
            return 'the first file changed'
        # on another status than 0 the second file may be there, empty or begun
        if ran.returncode == 0 and content(os.path.join(work, 'output')) != wanted:
            return 'other bytes'
    return None


good = bad = 0
for name, *case in [example(), *stored('pack'), *stored('unpack'), *by_struct.cases()]:
    wrong = difference(*case)
    good, bad = good + (wrong is None), bad + (wrong is not None)
    if wrong is not None:
        print(f'{name}: {wrong}')
print(f'packets: {good} passed, {bad} failed')
sys.exit(bad > 0)
PY
