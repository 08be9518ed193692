#!/usr/bin/env bash
# Gives the built program files that can't be read or written, scripts and words that are refused, on real files, and compares
# what it prints, its status and all files afterwards with what the rules say; then a file that is cut at every byte, large plays,
# and made inputs. A file that isn't there, or can't be read or written, is also a line on the standard error, with its name and
# the host's reason. Nothing here stands on permissions, since root has them all. Its last line is 'faults: N passed, M failed'.
. "$(dirname "${BASH_SOURCE[0]}")/program.sh"
exec python3 - "$top" "$program" <<'PY'
import bisect, os, re, struct, subprocess, sys, tempfile

top, program = sys.argv[1:]


def pcm(samples):
    """A WAV file of one channel and 8,000 frames a second."""
    form = struct.pack('<HHIIHH', 1, 1, 8000, 16000, 2, 16)
    body = b'WAVE' + b'fmt ' + struct.pack('<I', 16) + form + b'data' + struct.pack('<I', len(samples)) + samples
    return b'RIFF' + struct.pack('<I', len(body)) + body


def copy(source, sink, size=4096):
    return f'omx 1 play\nsource a {source}\nsink b {sink}\nlink a.0 b.0 2 {size}\n'.encode()


def fans(first):
    """A play of links with `first` and 1,016 buffers, by four splitters and mixers."""
    lines = ['omx 1 play', 'source a zeros.wav', 'sink b out.wav']
    lines += [line for it in range(4) for line in (f'splitter s{it} 8', f'mixer m{it} 8' + ' 1' * 8)]
    lines += [f'link a.0 s0.0 {first} 2']
    lines += [f'link s{it}.{at + 1} m{it}.{at} 31 2' for it in range(4) for at in range(8)]
    lines += [f'link m{it}.8 s{it + 1}.0 6 2' for it in range(3)] + ['link m3.8 b.0 6 2']
    return '\n'.join(lines).encode() + b'\n'


def made(x, frames):
    """What `make` writes from this number on."""
    samples = bytearray()
    for _ in range(frames):
        x = (x * 6364136223846793005 + 1442695040888963407) % 2**64
        samples += struct.pack('<H', x >> 48)
    return pcm(bytes(samples))


def a_law(codes):
    """A WAV file of A-law, of one channel and 8,000 frames a second."""
    form = struct.pack('<HHIIHHH', 6, 1, 8000, 8000, 1, 8, 0)
    body = b'WAVE' + b'fmt ' + struct.pack('<I', 18) + form + b'fact' + struct.pack('<II', 4, len(codes))
    body += b'data' + struct.pack('<I', len(codes)) + codes + bytes(len(codes) % 2)
    return b'RIFF' + struct.pack('<I', len(body)) + body


def mixed(one, other):
    """What comes of the play that `make` writes: the first file at half gain and the second, together as A-law."""
    limits = [16 * (n % 16) if n < 16 else (256 + 16 * (n % 16)) << (n // 16 - 1) for n in range(1, 128)]
    codes = bytearray()
    for (a,), (b,) in zip(struct.iter_unpack('<h', one[44:]), struct.iter_unpack('<h', other[44:])):
        x = max(-32768, min(32767, (a >> 1) + b))
        codes.append((bisect.bisect_right(limits, max(x, -x - 1)) + 128 * (x >= 0)) ^ 0x55)
    return a_law(bytes(codes))


short = pcm(struct.pack('<3h', 0, 1000, -1000))
long = pcm(bytes(i % 251 for i in range(200000)))
zeros = pcm(bytes(6))
# a code of A-law, which is half of 27,735 and -15,191 together: the step from -1,344 to -1,280
code = a_law(b'\x61')
minute = {'folder/a.wav': made(1, 480000), 'folder/b.wav': made(2, 480000)}
minute_out = mixed(*minute.values())
before = {
    'short.wav': short,
    'long.wav': long,
    'short.omx': copy('short.wav', 'out.wav'),
    'long.omx': copy('long.wav', 'out.wav'),
    'steps.omx': copy('long.wav', 'out.wav', 64),
    'from-folder.omx': copy('folder', 'out.wav'),
    'from-none.omx': copy('none', 'out.wav'),
    'from-loop.omx': copy('loop', 'out.wav'),
    'to-folder.omx': copy('short.wav', 'folder'),
    'to-none.omx': copy('short.wav', 'none/out.wav'),
    'short-to-full.omx': copy('short.wav', '/dev/full'),
    'long-to-full.omx': copy('long.wav', '/dev/full'),
    'trace.omx': b'omx 1 trace\nget a OMX.lab.gain\nstate a\n',
    'no-text.omx': b'omx 1 trace\n\xff\n',
    'large.omx': copy('large.wav', 'out.wav'),
    'cut.omx': copy('cut.wav', 'out.wav'),
    'late.omx': copy('short.wav', 'out.wav').replace(b'source', b'late'),
    'zeros.wav': zeros,
    'all-blocks.omx': fans(8),
    'more-blocks.omx': fans(9),
    'code.wav': code,
    'packets': b'omxrtp1\n' + struct.pack('>HBBHII', 13, 0x80, 8, 1, 0, 0) + b'\x61',
    'log': b'an earlier log\n',
}
mix = b'''omx 1 play
source a folder/a.wav
source b folder/b.wav
gain g 2048
mixer m 2 4096 4096
alaw e
sink s folder/out.wav
link a.0 g.0 4 4096
link g.1 m.0 4 4096
link b.0 m.1 4 4096
link m.2 e.0 4 4096
link e.1 s.0 4 4096
'''


def ends(log):
    return log.endswith(b'\nend\n')


def does_not_end(log):
    return not ends(log)


def tells_settings_once(log):
    return ends(log) and log.count(b' take a = event settings 0\n') == 1


def is_front(sink):
    return 0 < len(sink) < len(long) and long.startswith(sink)


def is_front_of_minute(sink):
    return 0 < len(sink) < len(minute_out) and minute_out.startswith(sink)


def cut(size):
    """A play of the first bytes of a file of three samples, what is told of it, and the files afterwards."""
    frames, changed = (size - 44) // 2, {'cut.wav': short[:size]}
    if size < 44:
        why = ('not a RIFF WAVE file' if size < 12 else 'no format chunk' if size < 20 else
               'bad format chunk' if size < 36 else 'no data chunk')
        told = f'line 2: {why}\n', 3
    else:
        told = f'sink b {frames} frames {44 + 2 * frames} bytes\nok\n', 0
        changed |= {'out.wav': pcm(short[44:44 + 2 * frames]), 'log': ends}
    return f'a file cut to {size} bytes', f'head -c {size} short.wav >cut.wav; omxrun play cut.omx 0 log', told, changed


usage = ('usage: trace SCRIPT | play SCRIPT WORKERS LOG | make SEED FRAMES DIR | pack WAV PACKETS '
         '| unpack PACKETS WAV | clock SCRIPT | audit SCRIPT LOG\n', 2)
unread, unwritten, silent = ('read fault\n', 4), ('write fault\n', 5), ('', 5)
# a file may have so many KiB: a write above it fails under the wrapper, which ignores the signal, and ends the bare program
limit = 'ulimit -c 0; ulimit -f'
make_minute = 'omxrun make 1 480000 folder >made && rm made &&'
# the sink is a pipe, which is opened once the source's size was looked at, and is full before the source is read up to the cut
cut_while_played = '''mkfifo folder/out.wav
{ omxrun play folder/mix.omx $workers log; s=$?; : >folder/out.wav; exit $s; } & exec 4<folder/out.wav
truncate -s 500001 folder/a.wav; cat <&4 >got; wait $!; s=$?; rm folder/out.wav; exit $s'''
# what a short play leaves
played = 'omxrun play short.omx 0 log >told && rm told &&'
left = {'out.wav': short, 'log': ends}
# the number of acts left aside
counted = "| sed 's/[0-9][0-9]*/N/'; exit ${PIPESTATUS[0]}"
# a pipe whose reader has ended
unheard = 'exec 3> >(true); wait $!;'

# what is run, what is printed and the status, and the files that are other than before
cases = [
    ('a script that is a folder', 'omxrun play folder 0 log', unread, {}),
    ('a trace that is a folder', 'omxrun trace folder', unread, {}),
    ('a source that is a folder', 'omxrun play from-folder.omx 0 log', unread, {}),
    ('no script', 'omxrun play none 0 log', ('absent: script\n', 6), {}),
    ('no trace', 'omxrun trace none', ('absent: script\n', 6), {}),
    ('no source', 'omxrun play from-none.omx 0 log', ('absent: line 2\n', 6), {}),
    ('a source that leads to itself', 'ln -s loop loop; omxrun play from-loop.omx 0 log; s=$?; rm loop; exit $s', unread, {}),
    ('a sink in no folder', 'omxrun play to-none.omx 0 log', ('absent: line 3\n', 6), {}),
    ('a log in no folder', 'omxrun play short.omx 0 none/log', ('absent: log\n', 6), {'out.wav': short}),
    ('a sink that is a folder', 'omxrun play to-folder.omx 0 log', unwritten, {}),
    ('a sink on a full disk', 'omxrun play short-to-full.omx 0 log', unwritten, {}),
    ('a long sink on a full disk', 'omxrun play long-to-full.omx 0 log', unwritten, {}),
    ('a sink that has no room when it is closed', f'{limit} 0; wrapped play short.omx 0 log', unwritten, {'out.wav': b''}),
    ('a log that is a folder', 'omxrun play short.omx 0 folder', unwritten, {'out.wav': short}),
    ('a log on a full disk', 'omxrun play short.omx 0 /dev/full', unwritten, {'out.wav': short}),
    ('a sink that grows too long', f'{limit} 64; wrapped play long.omx 0 log', unwritten, {'out.wav': is_front}),
    ('a log that grows too long', f'{limit} 200; wrapped play steps.omx 0 log', unwritten,
     {'out.wav': long, 'log': does_not_end}),
    ('a play printed on a full disk', 'omxrun play short.omx 0 log >/dev/full', silent, {'out.wav': short, 'log': ends}),
    ('a trace printed on a full disk', 'omxrun trace trace.omx >/dev/full', silent, {}),
    ('a fault printed on a full disk', 'omxrun trace no-text.omx >/dev/full', silent, {}),
    ('made inputs printed on a full disk', 'omxrun make 1 1 folder >/dev/full', silent,
     {'folder/a.wav': made(1, 1), 'folder/b.wav': made(2, 1), 'folder/mix.omx': mix}),
    ('a play whose output is closed', 'omxrun play short.omx 0 log >&-', silent, {'out.wav': short, 'log': ends}),
    ('a play that nobody reads', f'{unheard} omxrun play short.omx 0 log >&3', silent, {'out.wav': short, 'log': ends}),
    ('a trace that nobody reads', f'{unheard} omxrun trace trace.omx >&3', silent, {}),
    ('no input', 'omxrun pack none out', ('absent: input\n', 6), {}),
    ('an input that is a folder', 'omxrun pack folder out', unread, {'out': b''}),
    ('packets in no folder', 'omxrun pack code.wav none/out', ('absent: output\n', 6), {}),
    ('packets on a full disk', 'omxrun pack code.wav /dev/full', unwritten, {}),
    ('no packets', 'omxrun unpack none out.wav', ('absent: input\n', 6), {}),
    ('packets that are a folder', 'omxrun unpack folder out.wav', unread, {'out.wav': b''}),
    ('codes in no folder', 'omxrun unpack packets none/out.wav', ('absent: output\n', 6), {}),
    ('codes on a full disk', 'omxrun unpack packets /dev/full', unwritten, {}),
    ('no clock', 'omxrun clock none', ('absent: script\n', 6), {}),
    ('a clock that is a folder', 'omxrun clock folder', unread, {}),
    ('made inputs where a folder is', 'mkdir folder/a.wav; omxrun make 1 1 folder', unwritten, {}),
    ('a script that is no text', 'omxrun trace no-text.omx', ('script line 2: not text\n', 1), {}),
    ('a script that is too long', 'truncate -s 65537 zeros.omx; omxrun trace zeros.omx', ('script line 0: too long\n', 1),
     {'zeros.omx': bytes(65537)}),
    ('a source that is too large', 'truncate -s 67108865 large.wav; omxrun play large.omx 0 log; s=$?; rm large.wav; exit $s',
     ('line 2: larger than 67108864 bytes\n', 3), {}),
    ('too many blocks', 'omxrun play more-blocks.omx 0 log', ('script line 48: too many blocks\n', 1), {}),
    ('a check', f'{played} omxrun audit short.omx log', ('yes 48 acts\n', 0), left),
    ('a check of a play by two workers', f'omxrun play short.omx 2 log >told && rm told && omxrun audit short.omx log {counted}',
     ('yes N acts\n', 0), left),
    ('a check with no sink', 'omxrun audit short.omx log', ('absent: line 3\n', 6), {}),
    ('a check with no log', f'{played} rm log; omxrun audit short.omx log', ('absent: log\n', 6), left | {'log': None}),
    ('a check with no script', 'omxrun audit none log', ('absent: script\n', 6), {}),
    ('a check with no source', f'{played} rm short.wav; omxrun audit short.omx log', ('absent: line 2\n', 6), left | {'short.wav': None}),
    ('a check of a log in no folder', f'{played} omxrun audit short.omx none/log', ('absent: log\n', 6), left),
    ('a check whose script is a folder', 'omxrun audit folder log', unread, {}),
    ('a check whose source is a folder', 'omxrun audit from-folder.omx log', unread, {}),
    ('a check whose sink is a folder', f'{played} omxrun audit to-folder.omx log', unread, left),
    ('a check whose log is a folder', f'{played} omxrun audit short.omx folder', unread, left),
    ('a check whose script is a trace', 'omxrun audit trace.omx log', ('script line 1: first line\n', 1), {}),
    ('a check of an earlier log', f'{played} echo "an earlier log" >log; omxrun audit short.omx log',
     ('no: log line 1: not canonical\n', 12), left | {'log': b'an earlier log\n'}),
    ('a check of the script as a log', f'{played} omxrun audit short.omx short.omx', ('no: log line 1: not canonical\n', 12), left),
    ('a check of an end alone', f'{played} echo end >log; omxrun audit short.omx log', ('no: log line 1: not ended\n', 12),
     left | {'log': b'end\n'}),
    ('a check of an empty log', f'{played} : >log; omxrun audit short.omx log', ('no: log line 1: not ended\n', 12), left | {'log': b''}),
    ('a check of a log without its first claim', f"{played} sed -i '0,/ claim /{{/ claim /d}}' log; "
     "awk '$0 != \"end\" {$1 = NR} 1' log >new; mv new log; omxrun audit short.omx log", ('no: log line 18: not out\n', 12),
     left | {'log': ends}),
    ('a check of a sink that was cut', f'{played} truncate -s 49 out.wav; omxrun audit short.omx log',
     ('no: log line 25: other file\n', 12), left | {'out.wav': short[:49]}),
    ('a check printed on a full disk', f'{played} omxrun audit short.omx log >/dev/full', silent, left),
    ('a check that nobody reads', f'{played} {unheard} omxrun audit short.omx log >&3', silent, left),
    ('a made minute that is checked', f'{make_minute} omxrun play folder/mix.omx 4 log >told && rm told && '
     f'omxrun audit folder/mix.omx log {counted}', ('yes N acts\n', 0),
     minute | {'folder/mix.omx': mix, 'folder/out.wav': minute_out, 'log': ends}),
    ('no words', 'omxrun', usage, {}),
    ('nine workers', 'omxrun play short.omx 9 log', usage, {}),
    ('a leading zero', 'omxrun play short.omx 00 log', usage, {}),
    ('a log that is the script', 'omxrun play short.omx 0 short.omx', usage, {}),
    ('too many frames', 'omxrun make 1 33000001 folder', usage, {}),
    ('a worker', 'omxrun play short.omx 1 log', ('sink b 3 frames 50 bytes\nok\n', 0), {'out.wav': short, 'log': ends}),
    ('a source that is absent, by two workers', 'omxrun play from-none.omx 2 log', ('absent: line 2\n', 6), {}),
    ('a long sink on a full disk, by two workers', 'omxrun play long-to-full.omx 2 log', unwritten, {}),
    ('a log on a full disk, by two workers', 'omxrun play short.omx 2 /dev/full', unwritten, {'out.wav': short}),
    ('a late source', 'omxrun play late.omx 0 log', ('sink b 3 frames 50 bytes\nok\n', 0),
     {'out.wav': short, 'log': tells_settings_once}),
    *[cut(size) for size in range(51)],
    ('a long play', 'omxrun play long.omx 0 log', ('sink b 100000 frames 200044 bytes\nok\n', 0),
     {'out.wav': long, 'log': ends}),
    ('all blocks', 'omxrun play all-blocks.omx 0 log', ('sink b 3 frames 50 bytes\nok\n', 0), {'out.wav': zeros, 'log': ends}),
    ('all blocks by eight workers', 'omxrun play all-blocks.omx 8 log', ('sink b 3 frames 50 bytes\nok\n', 0),
     {'out.wav': zeros, 'log': ends}),
    ('made inputs', 'omxrun make 1 1 folder', ('made 1 frames\n', 0),
     {'folder/a.wav': made(1, 1), 'folder/b.wav': made(2, 1), 'folder/mix.omx': mix}),
    ('the greatest seed', 'omxrun make 18446744073709551615 1000 folder', ('made 1000 frames\n', 0),
     {'folder/a.wav': made(2**64 - 1, 1000), 'folder/b.wav': made(0, 1000), 'folder/mix.omx': mix}),
    ('a made play', 'omxrun make 1 1 folder && omxrun play folder/mix.omx 0 log',
     ('made 1 frames\nsink s 1 frames 60 bytes\nok\n', 0),
     {'folder/a.wav': made(1, 1), 'folder/b.wav': made(2, 1), 'folder/mix.omx': mix, 'folder/out.wav': code, 'log': ends}),
    ('a made minute', f'{make_minute} omxrun play folder/mix.omx 0 log', ('sink s 480000 frames 480058 bytes\nok\n', 0),
     minute | {'folder/mix.omx': mix, 'folder/out.wav': minute_out, 'log': ends}),
    *[(f'a made minute by {workers} workers', f'{make_minute} omxrun play folder/mix.omx {workers} log',
       ('sink s 480000 frames 480058 bytes\nok\n', 0), minute | {'folder/mix.omx': mix, 'folder/out.wav': minute_out, 'log': ends})
      for workers in (1, 4, 8)],
    ('a made minute whose log is on a full disk', f'{make_minute} omxrun play folder/mix.omx 0 /dev/full', unwritten,
     minute | {'folder/mix.omx': mix, 'folder/out.wav': minute_out}),
    *[(f'a made minute without its second file, by {workers} workers',
       f'{make_minute} rm folder/b.wav; omxrun play folder/mix.omx {workers} log', ('absent: line 3\n', 6),
       {'folder/a.wav': minute['folder/a.wav'], 'folder/mix.omx': mix}) for workers in (0, 1, 8)],
    ('a made minute whose first file is cut while it is played', f'{make_minute} workers=0; {cut_while_played}',
     ('short: line 2 at 500001 of 960044\n', 8),
     minute | {'folder/a.wav': minute['folder/a.wav'][:500001], 'folder/mix.omx': mix, 'got': is_front_of_minute}),
    ('a made minute whose first file is cut while four workers play it', f'{make_minute} workers=4; {cut_while_played}',
     ('short: line 2 at 500001 of 960044\n', 8),
     minute | {'folder/a.wav': minute['folder/a.wav'][:500001], 'folder/mix.omx': mix, 'got': is_front_of_minute}),
    ('inputs in no folder', 'omxrun make 1 1 none', ('absent: made 1\n', 6), {}),
]


def run(work, command):
    """What is told of the command, in a folder with all the files, the standard error, and the files that are there afterwards."""
    os.mkdir(os.path.join(work, 'folder'))
    for name, content in before.items():
        with open(os.path.join(work, name), 'wb') as file:
            file.write(content)
    runs = 'omxrun() { timeout 60 "$0" "$@"; }; wrapped() { timeout 60 "$wrapper" "$@"; }; '
    ran = subprocess.run(['bash', '-c', runs + command, program], cwd=work, env={**os.environ, 'wrapper': f'{top}/omxrun'},
                         stdin=subprocess.DEVNULL, stdout=subprocess.PIPE, stderr=subprocess.PIPE, timeout=120)
    paths = [os.path.join(folder, name) for folder, _, names in os.walk(work) for name in names]
    return (ran.stdout.decode(), ran.returncode), ran.stderr.decode(), {os.path.relpath(it, work): open(it, 'rb').read() for it in paths}


def is_reason(told, error):
    """Does the standard error say which file a fault is of, and why?"""
    fault = re.match('read fault|write fault|absent', told[0])
    return error == '' if fault is None else re.fullmatch(fault[0] + r': \S+: .+ \(os error \d+\)\n', error) is not None


def is_as(want, content):
    return content is not None and want(content) if callable(want) else content == want


good = bad = 0
for name, command, told, changed in cases:
    with tempfile.TemporaryDirectory() as work:
        got, error, there = run(work, command)
    after = before | changed
    other = [it for it in sorted(after.keys() | there.keys()) if not is_as(after.get(it), there.get(it))]
    if got == told and not other and is_reason(told, error):
        good += 1
    else:
        bad += 1
        print(f'{name}: wanted {told}, got {got}; other files: {" ".join(other) or "none"}; standard error {error!r}')
print(f'faults: {good} passed, {bad} failed')
sys.exit(bad > 0)
PY
