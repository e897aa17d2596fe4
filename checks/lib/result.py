"""How a check ends: its last line is its result, and its status is 0 where it is shown, 1 where it is not so, and 77 where
something that it needs is missing."""

import sys

MISSING = 77


def shown(text):
    """Ends the check: all that it is to show is so."""
    print(f"result: {text}", flush=True)
    sys.exit(0)


def not_so(message):
    """Ends the check: something is not as it has to be."""
    print(f"not so: {message}", flush=True)
    print("result: not so", flush=True)
    sys.exit(1)


def skipped(message):
    """Ends the check: something is missing, so it shows nothing."""
    print(message, flush=True)
    print("result: skipped", flush=True)
    sys.exit(MISSING)


class Parts:
    """The parts of a check: what each shows, and those that are left out since something is missing."""

    def __init__(self):
        self.told, self.missing = [], []

    def show(self, part, text):
        """A part shows this."""
        self.told.append(f"part {part}: {text}")
        print(self.told[-1], flush=True)

    def leave_out(self, part, missing):
        """A part is left out, since this is missing."""
        self.missing.append(f"part {part} is left out: {missing}")
        print(self.missing[-1], flush=True)

    def end(self):
        """Ends the check with what its parts show; where none does, something is missing."""
        if not self.told:
            skipped("; ".join(self.missing) or "no part of this number is there")
        shown("; ".join([*self.told, *self.missing]))
