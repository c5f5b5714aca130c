#!/usr/bin/env bash
# Profiles the guest, and compares its output, its report, and what `show` makes of it.
set -eu
. "$(dirname "$0")/../begin.sh"
aprof run -o out/report.txt queue > out/output.txt
diff output.txt out/output.txt
diff report.txt out/report.txt
aprof show out/report.txt | diff show.txt -
