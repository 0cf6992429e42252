"""What the checks of documents and of logs share: finding files, reading them, and reporting faults."""
import glob
import os
import re

TOP = os.path.dirname(os.path.dirname(os.path.abspath(__file__)))
EDIT = re.compile(r"^edit: (\S+)$", re.MULTILINE)


def files(*pattern):
    """The paths below the top, or below the folder that the pattern begins with, that fit it, always in the same order."""
    return sorted(glob.glob(os.path.join(TOP, *pattern), recursive=True))


def must_fail_edits():
    return files("crates", "*", "must-fail", "*.edit")


def edits_of(label, text):
    """(name, text) of each edit of a file; a file with no line 'edit: NAME' is one edit."""
    pieces = EDIT.split(text)
    if len(pieces) == 1:
        return [(label, text)]
    return [(label + "/" + name, piece) for name, piece in zip(pieces[1::2], pieces[2::2])]


def crates_of(top):
    """The crates of a checkout in the order of its crates.txt, each with those that it stands on."""
    return {name: below.split() for name, below in re.findall(r"^(\w+)(?: [^:#\n]*)?:([^#\n]*)", read(os.path.join(top, "crates.txt")), re.MULTILINE)}


def has_promises(path):
    """Whether a file of specs/ states promises: its first line says which one it is, or it is all of the crate's."""
    return os.path.basename(path) == "Promises.antt" or read(path).startswith(("-- Promise ", "-- Promise:"))


def read(path):
    with open(path, encoding="utf-8") as file:
        try:
            return file.read()
        except UnicodeDecodeError as fault:
            fault.reason += " in " + path  # it says the byte alone
            raise


def report(checked):
    """Takes a label and a list of faults of each thing that was checked, and gives the exit status.

    To have checked nothing is a failure too: then the things are not where they are looked for.
    """
    passed = failed = 0
    for label, faults in checked:
        passed, failed = passed + (not faults), failed + bool(faults)
        for fault in faults:
            print("FAILED %s: %s" % (label, fault))
    print("%d passed, %d failed" % (passed, failed))
    return 1 if failed or not passed else 0
