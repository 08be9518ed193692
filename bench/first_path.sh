#!/usr/bin/env bash
# Plays a WAV file of 67,108,864 bytes and copies it by `cat`, which leaves the copy to the kernel where it can, and by reads
# and writes of the play's own size, each five times by turns. Prints the ratios of the best times and the program's peak memory.
# It stands outside the gate.
. "$(dirname "${BASH_SOURCE[0]}")/timing.sh"
{
  printf 'RIFF\xf8\xff\xff\x03WAVEfmt \x10\0\0\0\x01\0\x01\0\x40\x1f\0\0\x80\x3e\0\0\x02\0\x10\0data\xd4\xff\xff\x03'
  head -c 67108820 /dev/urandom
} >in.wav
printf 'omx 1 play\nsource a in.wav\nsink b out.wav\nlink a.0 b.0 2 4096\n' >play.omx
"$top/omxrun" play play.omx 0 log >/dev/null
cmp in.wav out.wav

ours() { "$program" play play.omx 0 log; }

theirs() { cat in.wav >copy.wav; }
echo "play takes $(hundredths 5) hundredths of the time of cat"
theirs() { dd if=in.wav of=copy.wav bs=65536 status=none; }
echo "play takes $(hundredths 5) hundredths of the time of reads and writes of 65536 bytes"
echo "peak memory $(/usr/bin/time -f %M "$program" play play.omx 0 log 2>&1 >/dev/null) KiB"
