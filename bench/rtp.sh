#!/usr/bin/env bash
# Packs a mu-law file of 8,000,000 frames, unpacks the packets, and copies each by `cat`, five times each by turns, and
# prints the ratios of the best times and the peak memory of unpacking, for this list and for one of 385,000 packets. It
# stands outside the gate.
. "$(dirname "${BASH_SOURCE[0]}")/timing.sh"

# A mu-law file of so many frames, an even number.
mulaw_file() {
  python3 - "$1" <<'PY'
import os, struct, sys
frames = int(sys.argv[1])
form = struct.pack('<HHIIHHH', 7, 1, 8000, 8000, 1, 8, 0)
body = b'WAVEfmt ' + struct.pack('<I', len(form)) + form + b'fact' + struct.pack('<II', 4, frames)
body += b'data' + struct.pack('<I', frames)
sys.stdout.buffer.write(b'RIFF' + struct.pack('<I', len(body) + frames) + body + os.urandom(frames))
PY
}

peak() { /usr/bin/time -f %M "$program" "$@" 2>&1 >/dev/null; }

"$top/omxrun" trace /dev/null >/dev/null || true
mulaw_file 8000000 >in.wav
mulaw_file 61600000 >long.wav
"$program" pack in.wav packets >/dev/null
"$program" unpack packets out.wav >/dev/null
cmp in.wav out.wav
"$program" pack long.wav long-packets >/dev/null

ours() { "$program" pack in.wav packets; }
theirs() { cat in.wav >copy; }
echo "pack takes $(hundredths 5) hundredths of the time of cat"

ours() { "$program" unpack packets out.wav; }
theirs() { cat packets >copy; }
echo "unpack takes $(hundredths 5) hundredths of the time of cat"
echo "peak memory of unpack $(peak unpack packets out.wav) KiB for 50000 packets, $(peak unpack long-packets long-out.wav) KiB for 385000"
cmp long.wav long-out.wav
