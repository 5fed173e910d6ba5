"""Where the driver says what it does."""

import logging

log = logging.getLogger("garterfossil")
