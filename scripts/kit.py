"""The Rattle kit, as found by the `rt` on the path."""

import importlib.machinery
import importlib.util
import pathlib
import shutil
import sys
import threading


def find_kit():
    """The kit's folder; the process ends with status 2 if there is none."""
    rt = shutil.which("rt")
    if rt is None:
        print("no Rattle kit: its program `rt` is not on the path (CONTRIBUTING.md tells what the kit is)", file=sys.stderr)
        sys.exit(2)
    return pathlib.Path(rt).resolve().parent.parent


def sum_once(crate_class):
    """Lets the sum of a crate's sources ask each crate below once, and not once for each way to it: from bendrika there are 170,000."""
    own, known = crate_class.stamp, threading.local()

    def stamp(crate):
        if hasattr(known, "sums"):
            if crate.folder not in known.sums:
                known.sums[crate.folder] = own(crate)
            return known.sums[crate.folder]
        known.sums = {}
        try:
            return own(crate)
        finally:
            del known.sums

    crate_class.stamp = stamp


def load_rt():
    """The kit's `rt` as a module, whose `rtlib` has the words that build a crate."""
    loader = importlib.machinery.SourceFileLoader("rt", str(find_kit() / "bin/rt"))
    module = importlib.util.module_from_spec(importlib.util.spec_from_loader("rt", loader))
    loader.exec_module(module)
    sum_once(module.rtlib.Crate)
    return module
