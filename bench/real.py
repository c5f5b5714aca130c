#!/usr/bin/env python3
"""Builds C programs that no one here wrote from Debian's source packages, profiles them and prints a table: see --help."""
from __future__ import annotations

import sys

from real.command import main

if __name__ == "__main__":
    sys.exit(main(sys.argv[1:]))
