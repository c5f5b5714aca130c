"""Tests of the parts that measure nothing: `python3 -m unittest discover -s tests -t .` in bench/."""
