#!/usr/bin/env bash
# Profiles the guest on the texts of words, and compares its output, its report, and what `show` makes of it, where a program
# is there that writes names of C++ as they are in the source.
set -eu
. "$(dirname "$0")/../begin.sh"
aprof run -o out/report.txt index ../words/text-{60,120,240,480,960}.txt > out/output.txt
diff output.txt out/output.txt
diff report.txt out/report.txt
if command -v c++filt > /dev/null; then
  aprof show out/report.txt | diff show.txt -
else
  echo "examples/index: left out: show's names: no c++filt (Debian's package binutils)"
fi
