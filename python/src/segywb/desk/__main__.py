"""``python -m segywb.desk``."""

from .cli import main

raise SystemExit(main())
