"""Tries files of must-fail edits and gives what `rt check` says of each.

Each is tried in a room of its own: a small repository with the edited crate and those that it stands on, where the check begins with what the crate's
own check kept. As many are tried side by side as there are processors, and memory for. The rooms stand among git's files, where `rt ci` looks for
no sources and what is kept can be linked, and are removed at the end.
"""
import os
import re
import shutil
import subprocess
import sys
import tempfile
import threading
from concurrent.futures import ThreadPoolExecutor

from reporting import TOP, crates_of, read

PARTS = ("src", "specs", "proofs")
OF_A_CHECK = 4 << 20  # the most memory that a check takes, as a rule, in kB
LINE = re.compile(r"^(file|old|new):(?: (.*))?$", re.MULTILINE)


class BadEdit(Exception):
    """Why an edit cannot be applied."""


def below(crates, crate):
    """The crates of the repository that a crate stands on."""
    found = set()
    for name in crates[crate]:
        if name in crates:
            found |= {name} | below(crates, name)
    return found


def linked(folder, to):
    """Copies what a check kept. The files that were proved get a second name, since a check replaces them and writes into none."""

    def copy(old, new):
        try:
            if new.endswith(".oantt") or "/out/rlib/" in new:
                return os.link(old, new)
        except OSError:
            pass  # another disk
        return shutil.copy2(old, new)

    if os.path.isdir(folder):
        shutil.copytree(folder, to, copy_function=copy)


def edited(text, folder):
    """Applies the edits of a file to the sources in the folder: each old text stands there once, and becomes the new one."""
    path, old, pairs = None, None, 0
    for word, rest in LINE.findall(text):
        if word == "file":
            path = os.path.join(folder, rest)
        elif word == "old":
            old = rest
        elif path and old and os.path.isfile(path):
            code = read(path)
            if code.count(old) != 1:
                raise BadEdit("its text stands %d times in %s, and not once: %s" % (code.count(old), os.path.relpath(path, folder), old))
            with open(path, "w", encoding="utf-8") as file:
                file.write(code.replace(old, rest))
            old, pairs = None, pairs + 1
        else:
            raise BadEdit("a line 'new:' without a file and an old text")
    if not pairs:
        raise BadEdit("it edits nothing")


def made(room, crate, edit):
    """Makes the room of an edit and gives the folder of its crate there."""
    shutil.rmtree(room, ignore_errors=True)
    crates = crates_of(TOP)
    needed = {crate} | below(crates, crate)
    for name in needed:
        for part in PARTS:
            if os.path.isdir(os.path.join(TOP, "crates", name, part)):
                shutil.copytree(os.path.join(TOP, "crates", name, part), os.path.join(room, "crates", name, part))
        kept = "incremental" if name == crate else "rlib"
        linked(os.path.join(TOP, "crates", name, "out", kept), os.path.join(room, "crates", name, "out", kept))
    lines = read(os.path.join(TOP, "crates.txt")).splitlines(keepends=True)
    with open(os.path.join(room, "crates.txt"), "w", encoding="utf-8") as file:
        file.writelines(line for line in lines if re.split(r"[ :]", line)[0] in needed)
    folder = os.path.join(room, "crates", crate)
    edited(read(edit), folder)
    return folder


def rt(folder, *words):
    done = subprocess.run(["rt", *words], cwd=folder, stdin=subprocess.DEVNULL, stdout=subprocess.PIPE, stderr=subprocess.STDOUT, errors="replace", check=False)
    return done.returncode, done.stdout


def tried(room, edit):
    """(what the check said, or '', why that counts for nothing, or '') of a file of edits."""
    try:
        status, said = rt(made(room, edit.split(os.sep)[-3], edit), "check", "--jobs", "1")
    except BadEdit as fault:
        return "", str(fault)
    if status == 0:
        return "", "it was not refused"
    if status != 1 or not re.search(r"^logic=not-proved", said, re.MULTILINE):
        return "", "its check came to no verdict, and ended with status %d:\n%s" % (status, said[-2000:])
    return said, ""


def lanes():
    """How many checks to run side by side."""
    memory = int(re.search(r"MemAvailable: +(\d+)", read("/proc/meminfo")).group(1))
    return max(1, min(len(os.sched_getaffinity(0)), memory // OF_A_CHECK))


def logs_of(edits):
    """What `tried` gives of each file of edits, in their order. First their crates are proved as they stand."""
    git = os.path.join(TOP, ".git")
    rooms = os.path.join(git, "rooms") if os.path.isdir(git) else tempfile.mkdtemp()
    shutil.rmtree(rooms, ignore_errors=True)  # what a run that was killed left, which the check of all would take for crates
    for crate in sorted({edit.split(os.sep)[-3] for edit in edits}):
        status, said = rt(os.path.join(TOP, "crates", crate), "check")
        if status:
            print(said, file=sys.stderr)
            return [("", "%s is not proved as it stands" % crate)] * len(edits)
    of_thread, begun = threading.local(), iter(range(len(edits)))

    def one(edit):
        if not hasattr(of_thread, "room"):
            of_thread.room = os.path.join(rooms, str(next(begun)))
        return tried(of_thread.room, edit)

    try:
        with ThreadPoolExecutor(lanes()) as pool:
            return list(pool.map(one, edits))
    finally:
        shutil.rmtree(rooms, ignore_errors=True)
