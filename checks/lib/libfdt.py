"""Other programs' checks of flattened device trees: dtc, and libfdt's fdt_check_full."""

import shutil, subprocess

from lib.found import compiled, lacking
from lib.result import not_so


class Checkers:
    """Those that there are; the program around libfdt's checker is made in a folder."""

    def __init__(self, folder):
        self.dtc = shutil.which("dtc")
        self.libfdt = None if lacking("libfdt") else compiled("libfdt-takes.c", folder, libraries=["-lfdt"])

    def names(self):
        """The names of those that there are."""
        return " and ".join(name for name, there in [("dtc", self.dtc), ("libfdt", self.libfdt)] if there)

    def take(self, data, name):
        """Ends the check unless all of them take a tree."""
        if wrong := self.refusal(data):
            not_so(f"{name}: {wrong}")

    def refusal(self, data):
        """The first refusal of a tree, or None."""
        if self.dtc:
            done = subprocess.run([self.dtc, "-q", "-I", "dtb", "-O", "dts"], input=data, capture_output=True)
            if done.returncode:
                return f"dtc refuses it: {done.stderr!r}"
        if self.libfdt:
            done = subprocess.run([self.libfdt], input=data, capture_output=True)
            if done.returncode:
                return f"libfdt refuses it: {done.stdout!r}"
        return None
