#!/usr/bin/env bash
# Plays each WAV file of tests/corpus with the built program, and compares what it prints, its status and
# the file that it writes with what the index says. Its last line is 'corpus: N passed, M failed'.
. "$(dirname "${BASH_SOURCE[0]}")/program.sh"
exec python3 - "$top/tests/corpus" "$program" <<'PY'
import os, shutil, struct, subprocess, sys, tempfile

folder, program = sys.argv[1:]
tags = {'pcm': (1, 16), 'alaw': (6, 8), 'mulaw': (7, 8)}


def written(kind, channels, rate, samples):
    """The one text that is written of samples."""
    tag, bits = tags[kind]
    frame = channels * bits // 8
    fields = struct.pack('<HHIIHH', tag, channels, rate, rate * frame, frame, bits)
    if kind == 'pcm':
        chunks = b'fmt ' + struct.pack('<I', 16) + fields
    else:
        chunks = b'fmt ' + struct.pack('<I', 18) + fields + b'\0\0'
        chunks += b'fact' + struct.pack('<II', 4, len(samples) // frame)
    chunks += b'data' + struct.pack('<I', len(samples)) + samples + b'\0' * (len(samples) % 2)
    return b'RIFF' + struct.pack('<I', 4 + len(chunks)) + b'WAVE' + chunks


def wanted(answer, data):
    """The text, the status and the output's bytes that the index's answer stands for."""
    words = answer.split()
    if words[0] not in tags:
        return f"line 2: {answer.split(' / ')[1]}\n", 3, None
    kind, channels, rate, start, frames = words[0], int(words[1]), int(words[2]), int(words[4]), int(words[6])
    size = frames * channels * tags[kind][1] // 8
    output = written(kind, channels, rate, data[start:start + size])
    return f'sink b {frames} frames {len(output)} bytes\nok\n', 0, output


good = bad = 0
lines = open(os.path.join(folder, 'INDEX.tsv')).read().splitlines()[1:]
for line in lines:
    name, answer = line.split('\t')[0], line.split('\t')[-1]
    data = open(os.path.join(folder, name), 'rb').read()
    work = tempfile.mkdtemp()
    open(os.path.join(work, 'in.wav'), 'wb').write(data)
    open(os.path.join(work, 'play.omx'), 'w').write('omx 1 play\nsource a in.wav\nsink b out.wav\nlink a.0 b.0 2 4096\n')
    ran = subprocess.run([program, 'play', 'play.omx', '0', 'log'], cwd=work, stdin=subprocess.DEVNULL, stdout=subprocess.PIPE, timeout=60)
    path = os.path.join(work, 'out.wav')
    output = open(path, 'rb').read() if os.path.exists(path) else None
    got = (ran.stdout.decode(), ran.returncode, output)
    shutil.rmtree(work)
    if got == wanted(answer, data):
        good += 1
    else:
        bad += 1
        print(f'{name}: wanted {wanted(answer, data)[:2]}, got {got[:2]}')
print(f'corpus: {good} passed, {bad} failed')
sys.exit(bad > 0)
PY
