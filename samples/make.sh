#!/usr/bin/env bash
# make.sh: speaks the walk and writes its cookie anew. It takes Debian's espeak-ng.
set -eu
cd "$(dirname "$0")"
# espeak-ng writes a WAV header of 44 bytes; samples follow, 16-bit little-endian mono at 22,050 Hz
espeak-ng -v en-gb -s 130 --stdout "Ten steps down. The pond is on your left. Keep to the rail." | tail -c +45 >walk.pcm
# frame length 4096; version 0, depth 16, pb 40, mb 10, kb 14, channels 1; max run 255; max frame bytes, average bit rate; 22050 Hz
printf '\x00\x00\x10\x00\x00\x10\x28\x0a\x0e\x01\x00\xff\x00\x00\x00\x00\x00\x00\x00\x00\x00\x00\x56\x22' >cookie.bin
