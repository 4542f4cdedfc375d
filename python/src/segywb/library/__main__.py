"""``python3 -m segywb.library`` is ``segywb-library``."""

import sys

from .cli import main

if __name__ == "__main__":
    sys.exit(main())
