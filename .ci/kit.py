"""The kit's command `rt`, as `.ci/rt`, `.ci/prove`, `.ci/check` and `.ci/unproved` use it.

Two things are done otherwise. The kit lists the libraries below a crate anew for each way that leads to one, 70,000 below the program, and reads all their
files for each sum: here a list is made once, and a file is read again only where it has changed. The sums are the same. And the kit tries the edits of a
crate over a check that keeps its work, which is a second check of the whole crate: here they are tried first on the functions that they change, in one
check where they can (`narrow.py`), and that check is left out where at most one edit of the crate changes something else.

What is proved doesn't depend on this: `rt ci` proves each crate from nothing, and an edit that its functions don't refuse is tried on the whole crate.
"""
import hashlib
import operator
import os
import shutil
import subprocess
import sys
import threading

from narrow import REFUSED, refused_by_functions, wide

TOP = os.path.realpath(os.path.join(os.path.dirname(os.path.abspath(__file__)), ".."))
# The status of a tool that finds the kit in another form than it knows.
OTHER_KIT = 3
# What this changes of the kit, beside what a tool asks for.
CHANGED = ("checked", "seeded", "read_edit", "edits_of", "main", "rtlib.files_of", "rtlib.KIT", "rtlib.Crate.below", "rtlib.Crate.stamp", "Crate")


class OtherKit(Exception):
    """The kit has another form."""


def read(file):
    with open(file, "rb") as it:
        return it.read()


def place():
    """Returns the path of the kit's command `rt`."""
    return os.path.realpath(shutil.which("rt") or sys.exit("rt: not found"))


def load(*wanted):
    """Returns the names of the kit's command `rt`, or raises `OtherKit` where it lacks one of these, written as `Crate.below`."""
    names = {"__name__": "rt", "__file__": place()}
    try:
        exec(compile(read(place()), place(), "exec"), names)
        for name in (*CHANGED, *wanted):
            first, _, rest = name.partition(".")
            if rest:
                operator.attrgetter(rest)(names[first])
            elif first not in names:
                raise KeyError(first)
    except (AttributeError, KeyError, SyntaxError):
        raise OtherKit from None
    list_once(names["rtlib"])
    try_narrowly(names)
    return names


def load_or_end(*wanted):
    """Returns the same, or ends with status 3."""
    try:
        return load(*wanted)
    except OtherKit:
        sys.exit(OTHER_KIT)


def list_once(rtlib):
    """Makes each list of the libraries below a crate once, and reads each file once for the sums, as long as it is the same."""
    texts = {}

    def texts_of(folder):
        files = list(rtlib.files_of(folder))
        seen = [(file, os.stat(file).st_mtime_ns, os.stat(file).st_size) for file in files]
        if folder not in texts or texts[folder][0] != seen:
            texts[folder] = seen, [repr((file.replace(folder, ""), read(file))).encode() for file in files]
        return texts[folder][1]

    def sum_of(crate, found):
        if crate.folder not in found:
            whole = hashlib.sha256(repr((crate.said, crate.has_c)).encode())
            whole.update(read(f"{rtlib.KIT}/WHAT"))
            for text in texts_of(crate.folder):
                whole.update(text)
            whole.update(repr([sum_of(it, found) for it in crate.deps]).encode())
            found[crate.folder] = whole.hexdigest()
        return found[crate.folder]

    def below_once(crate):
        if not hasattr(crate, "found_below"):
            crate.found_below = list({it.folder: it for dep in crate.deps for it in [*dep.below(), dep]}.values())
        return list(crate.found_below)

    rtlib.Crate.stamp = lambda crate: sum_of(crate, {})
    rtlib.Crate.below = below_once


def try_narrowly(names):
    """Has the edits of a crate tried on the functions that they change, before one is tried on its crate. `whole` is the kit's own `checked`."""
    checked, seeded, read_edit, edits_of = names["checked"], names["seeded"], names["read_edit"], names["edits_of"]
    found, guard = {}, threading.Lock()

    def batch(crate, flags):
        """Returns what is said of the edits that their functions refuse, by the edits' texts. The first that asks tries them, and others wait for it."""
        with guard:
            lock, refused = found.setdefault(crate.folder, (threading.Lock(), {}))
        with lock:
            if "tried" not in refused:
                said = refused_by_functions(checked, read_edit, crate, edits_of(crate)[0], flags)
                refused.update({repr(read_edit(edit, crate.folder)[0]): text for edit, text in said.items()}, tried="")
        return refused

    def checked_narrowly(crate, texts, flags, kept):
        said = batch(crate, flags).get(repr(texts)) if texts and not kept else None
        return subprocess.CompletedProcess([], 1, f"{said}\n{REFUSED}") if said else checked(crate, texts, flags, kept)

    def seeded_if_wide(crate, flags, start=None):
        # (no folder and no failure: each edit is tried by itself)
        return seeded(crate, flags, start) if start or wide(read_edit, crate, edits_of(crate)[0]) > 1 else ""

    names["whole"], names["checked"], names["seeded"] = checked, checked_narrowly, seeded_if_wide
