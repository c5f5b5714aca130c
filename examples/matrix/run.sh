#!/usr/bin/env bash
# Counts the guest's misses of a cache of 4 KiB and of one of 16 KiB, and compares the reports with small.txt and large.txt,
# and what `show` makes of the first.
set -eu
. "$(dirname "$0")/../begin.sh"
aprof cache --sets 16 --ways 4 --line 64 -o out/small.txt matrix
diff small.txt out/small.txt
aprof cache --sets 64 --ways 4 --line 64 -o out/large.txt matrix
diff large.txt out/large.txt
aprof show out/small.txt | diff show.txt -
