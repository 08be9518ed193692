#!/usr/bin/env bash
# Runs the gate from nothing, with these crates where the kit's `rt ci` takes names (none: all), and prints the processor seconds of each crate's proof, tests, edits and
# build, the dearest crate first, as rows for docs/BENCH.md. Outside the gate. Its log stays beside it, in /tmp.
# Usage: bench/gate.sh [NAME ..]
set -eu
cd "$(dirname "${BASH_SOURCE[0]}")/.."
exec python3 - "$@" <<'PY'
import os, subprocess, sys, tempfile, time

TICKS = os.sysconf('SC_CLK_TCK')
KINDS = ('proof', 'tests', 'edits', 'build')


def words_of(pid):
    return open(f'/proc/{pid}/cmdline', 'rb').read().decode(errors='replace').split('\0')


def stat_of(pid):
    """The parent of a process, and the seconds that it has taken itself."""
    fields = open(f'/proc/{pid}/stat').read().rpartition(')')[2].split()
    return int(fields[1]), (int(fields[11]) + int(fields[12])) / TICKS


def kind_of(pid, words):
    """What a run of the prover is for. An edit is tried in a folder of its own."""
    if 'rt-edit' in os.readlink(f'/proc/{pid}/cwd'):
        return 'edits'
    return 'tests' if '--test' in words else 'build' if '--crate-checked' in words else 'proof'


def sample(top, spent):
    """Notes the seconds of each run of the prover below the process."""
    parents, seconds = {}, {}
    for pid in filter(str.isdigit, os.listdir('/proc')):
        try:
            parents[int(pid)], seconds[int(pid)] = stat_of(pid)
        except OSError:
            pass
    for pid in parents:
        above = pid
        while above in parents and above != top:
            above = parents[above]
        if above != top:
            continue
        try:
            words = words_of(pid)
            if words[0].endswith('/bin/rattle') and '--crate-name' in words:
                spent[pid, words[words.index('--crate-name') + 1], kind_of(pid, words)] = seconds[pid]
        except OSError:
            pass


log = tempfile.NamedTemporaryFile('wb', prefix='gate-', suffix='.log', delete=False)
begun, spent = time.time(), {}
# a kit without --anew keeps nothing from run to run, and takes no names
help_text = subprocess.run(['rt', 'help'], stdout=subprocess.PIPE, stderr=subprocess.STDOUT).stdout
words = ['--anew', *sys.argv[1:]] if b'--anew' in help_text else []
run = subprocess.Popen(['rt', 'ci', *words], stdin=subprocess.DEVNULL, stdout=log, stderr=log)
while run.poll() is None:
    sample(run.pid, spent)
    time.sleep(0.5)
wall = time.time() - begun
crates = {}
for (_, crate, kind), seconds in spent.items():
    crates.setdefault(crate, dict.fromkeys(KINDS, 0))[kind] += seconds
print('| Crate | Proof | Tests | Edits | Build |\n|---|---|---|---|---|')
for crate, row in sorted(crates.items(), key=lambda it: -sum(it[1].values())):
    print(f'| `{crate}` | ' + ' | '.join(f'{row[it]:.0f}' for it in KINDS) + ' |')
whole = {it: sum(row[it] for row in crates.values()) for it in KINDS}
print('| together, in processor seconds | ' + ' | '.join(f'{whole[it]:.0f}' for it in KINDS) + ' |')
print(f'\n{wall / 60:.1f} minutes on {len(os.sched_getaffinity(0))} processors, '
      f'{sum(whole.values()) / 60:.1f} processor minutes; status {run.returncode}; the log is {log.name}')
sys.exit(run.returncode)
PY
