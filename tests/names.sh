#!/usr/bin/env bash
# Plays a file into a second name of itself, of the script, of the sink or of the standard output, on real files with the built
# program: each such sink or log is a write fault, status 5, and no byte is lost. What is printed goes into the file `told`.
# Its last line is 'names: N passed, M failed'.
. "$(dirname "${BASH_SOURCE[0]}")/program.sh"
exec python3 - "$top" "$program" <<'PY'
import os, subprocess, sys, tempfile

top, program = sys.argv[1:]
sound = open(os.path.join(top, 'examples/first/in.wav'), 'rb').read()
refused, played = ('write fault\n', 5), ('sink b 3 frames 50 bytes\nok\n', 0)

# what is played, the name of its sink, that of its log, and what is told
cases = [
    ('a dot before the source', './in.wav', 'log', refused),
    ('a folder and back to the source', 'folder/../in.wav', 'log', refused),
    ('the source by its whole path', '{work}/in.wav', 'log', refused),
    ('a symbolic link to the source', 'soft.wav', 'log', refused),
    ('a hard link to the source', 'hard.wav', 'log', refused),
    ('a dot before the script', './play.omx', 'log', refused),
    ('a log that is the script', 'out.wav', './play.omx', refused),
    ('a log that is the source', 'out.wav', 'hard.wav', refused),
    ('a log that is the new sink', 'out.wav', './out.wav', refused),
    ('a log that is the sink by a link', 'out.wav', 'out-link.wav', refused),
    ('the standard output', 'told', 'log', refused),
    ('the standard output by a dot', './told', 'log', refused),
    ('the standard output by its device', '/dev/stdout', 'log', refused),
    ('the standard output by its number', '/dev/fd/1', 'log', refused),
    ('the standard output of the process', '/proc/self/fd/1', 'log', refused),
    ('a log that is the standard output', 'out.wav', 'told', refused),
    ('a log that is its device', 'out.wav', '/dev/stdout', refused),
    ('a sink that was there', 'old.wav', 'log', played),
    ('a sink that is new', 'out.wav', 'log', played),
    ('a sink that is no file', '/dev/null', 'log', played),
]


def run(work, sink, log):
    """Plays in.wav, and answers what is told, whether the script and the source are whole, and the sink's bytes."""
    script = f'omx 1 play\nsource a in.wav\nsink b {sink}\nlink a.0 b.0 2 4096\n'.encode()
    kept = {'in.wav': sound, 'play.omx': script}
    for name, content in {**kept, 'old.wav': b'old' * 100}.items():
        open(os.path.join(work, name), 'wb').write(content)
    os.mkdir(os.path.join(work, 'folder'))
    os.symlink('in.wav', os.path.join(work, 'soft.wav'))
    os.symlink('out.wav', os.path.join(work, 'out-link.wav'))
    os.link(os.path.join(work, 'in.wav'), os.path.join(work, 'hard.wav'))
    with open(os.path.join(work, 'told'), 'wb') as told:
        ran = subprocess.run([program, 'play', 'play.omx', '0', log], cwd=work, stdin=subprocess.DEVNULL, stdout=told,
                             stderr=subprocess.DEVNULL, timeout=60)
    whole = all(open(os.path.join(work, name), 'rb').read() == content for name, content in kept.items())
    printed = open(os.path.join(work, 'told'), 'rb').read().decode(errors='replace')
    path = os.path.join(work, sink)
    written = open(path, 'rb').read() if os.path.isfile(path) else None
    return (printed, ran.returncode), whole, written


good = bad = 0
for name, sink, log, told in cases:
    with tempfile.TemporaryDirectory() as work:
        sink = sink.format(work=work)
        got, whole, written = run(work, sink, log)
    # a sink of its own holds the sound, whatever came of the log
    own = sink in ('old.wav', 'out.wav')
    if got == told and whole and (written == sound or not own):
        good += 1
    else:
        bad += 1
        print(f'{name}: wanted {told}, got {got}; kept {whole}, sink {written!r:.60}')
print(f'names: {good} passed, {bad} failed')
sys.exit(bad > 0)
PY
