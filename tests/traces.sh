#!/usr/bin/env bash
# Runs each trace script of tests/traces with the built program, and compares what it prints and its status with the
# text beside it, whose last line is 'status N'. The texts were worked out from the rules by an independent model,
# or by hand. Its last line is 'traces: N passed, M failed'.
. "$(dirname "${BASH_SOURCE[0]}")/program.sh"
exec python3 - "$top" "$program" <<'PY'
import os, subprocess, sys

top, program = sys.argv[1:]


def told(folder, script):
    """What the program prints of the script, and its status."""
    try:
        ran = subprocess.run([program, 'trace', script], cwd=folder, stdin=subprocess.DEVNULL,
                             stdout=subprocess.PIPE, timeout=60)
    except subprocess.TimeoutExpired:
        return b'no end in 60 seconds\n'
    return ran.stdout + b'status %d\n' % ran.returncode


def first_difference(want, got):
    """The first line in which two texts differ, and that line of each."""
    wanted, printed = want.split(b'\n'), got.split(b'\n')
    at = next(i for i in range(max(len(wanted), len(printed))) if wanted[i:i + 1] != printed[i:i + 1])
    show = lambda lines: lines[at].decode(errors='replace')[:160] if at < len(lines) else '(nothing)'
    return f'line {at + 1}: wanted {show(wanted)!r}, got {show(printed)!r}'


good = bad = 0
for folder in ('tests/traces', 'examples/traces'):
    folder = os.path.join(top, folder)
    for script in sorted(name for name in os.listdir(folder) if name.endswith('.omx')):
        want = open(os.path.join(folder, script[:-4] + '.out'), 'rb').read()
        got = told(folder, script)
        if got == want:
            good += 1
        else:
            bad += 1
            print(f'{script}: {first_difference(want, got)}')
print(f'traces: {good} passed, {bad} failed')
sys.exit(bad > 0)
PY
