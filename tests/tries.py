"""What a program of tests has tried, and how much of it failed."""

#: So much is shown of each line of what failed.
SHOWN = 2000


class Tries:
    def __init__(self):
        self.tried = self.failed = 0

    def sees(self, what, got, want):
        """This was tried: what came of it is what was to come."""
        self.tried += 1
        if got != want:
            self.failed += 1
            print(*(it[:SHOWN] for it in (f"failed: {what}", f"< {want!r}", f"> {got!r}")), sep="\n", flush=True)
