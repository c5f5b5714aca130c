#!/usr/bin/env bash
# Profiles the guest on five files, each twice as long as the one before, and compares its output, its report, and what
# `show` makes of it.
set -eu
. "$(dirname "$0")/../begin.sh"
aprof run -o out/report.txt words text-60.txt text-120.txt text-240.txt text-480.txt text-960.txt > out/output.txt
diff output.txt out/output.txt
diff report.txt out/report.txt
aprof show out/report.txt | diff show.txt -
