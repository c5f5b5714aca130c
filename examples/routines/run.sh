#!/usr/bin/env bash
# Profiles the guest, and compares the report with report.txt, and what `show` makes of it.
set -eu
. "$(dirname "$0")/../begin.sh"
aprof run -o out/report.txt routines
diff report.txt out/report.txt
aprof show out/report.txt | diff show.txt -
