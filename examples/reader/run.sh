#!/usr/bin/env bash
# Profiles the guest on two files and standard input, and compares the report with report.txt, and what `show` makes of it.
set -eu
. "$(dirname "$0")/../begin.sh"
aprof run --stdin stdin.txt -o out/report.txt reader short.txt long.txt
diff report.txt out/report.txt
aprof show out/report.txt | diff show.txt -
