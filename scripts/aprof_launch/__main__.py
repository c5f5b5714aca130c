"""The launcher's part in Python: `aprof` calls it by its folder."""
import sys
from pathlib import Path

sys.path[0] = str(Path(__file__).resolve().parent.parent)

from aprof_launch.steps import main

sys.exit(main(sys.argv[1:]))
