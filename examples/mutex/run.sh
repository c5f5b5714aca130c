#!/usr/bin/env bash
# Profiles the guest by turns of 1, 7 and 10000 instructions, and compares the reports. Those of the two short turns are the same.
set -eu
. "$(dirname "$0")/../begin.sh"
aprof run --quantum 1 -o out/report-1.txt mutex
diff report-7.txt out/report-1.txt
aprof run --quantum 7 -o out/report-7.txt mutex
diff report-7.txt out/report-7.txt
aprof run --quantum 10000 -o out/report.txt mutex
diff report.txt out/report.txt
aprof show out/report.txt | diff show.txt -
