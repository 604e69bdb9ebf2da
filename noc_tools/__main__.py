"""python3 -m noc_tools COMMAND WORD..: a command of this package."""
import sys

from .cli import main

sys.exit(main())
