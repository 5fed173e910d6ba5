"""`python -m garterfossil`: see `python -m garterfossil --help`."""

import sys

from .command import main

sys.exit(main(sys.argv[1:]))
