#!/usr/bin/env python3
"""moved.py OLD NEW: what moved from one checkout to another and what did not, as Markdown, for docs/landings.

OLD and NEW are folders with a crates.txt. What is compared, and what counts as a move, stands at the top of what is printed (LEGEND, below);
how a thing is found again that was carried to another file or crate, in checkouts.py. Nothing in either folder is written to.
A bad argument, or a file that cannot be read: a word on standard error, and status 2.
"""
import collections
import difflib
import os
import sys

from checkouts import FAMILY, KINDS, UNREADABLE, crates_of, paired, things_of

LEGEND = """## What moved

`tools/moved.py OLD NEW` made this from two checkouts. It compares texts; comments and white space do not count. Not looked at: files
of other folders than these, `mod` lines, and what a `pub use` hands on.

- A *definition* is a declaration of `specs/`, with the heads of the modules that it stands in, or a type or constant of `src/`; a *promise* is a
  declaration of a file of promises (docs/ARCHITECTURE.md, "Where things stand in a crate").
- A *contract* is a function's attributes, signature, `requires` and `ensures`, *public* if it is marked `pub`; *code* is the body of a function that
  both have.
- A *proof* is a file of `proofs/`, by the name of its function or its own, with the lines added and removed that are neither blank nor only a comment
  or an import. An *edit* is one of `must-fail/`.
- *Arrived* is what has the same text in another file or crate, *left* what now stands in another crate. What did not move may cite what did; *with
  other imports* is what has the same text and takes a name from elsewhere, which for proofs is no move.
"""
COLUMNS = KINDS[:4] + ("code",) + KINDS[4:]
OTHER_IMPORTS = "with other imports"
NO_LONGER = {kind: "no longer " + kind for kind in FAMILY}
STATES = ("changed", *NO_LONGER.values(), "new", "gone", "arrived", "left", OTHER_IMPORTS, "same")
MOST_ARRIVED = 12  # names of one file: their texts did not change, so that more of them say nothing


def lines_of(before, after):
    """How many lines of a proof were added and removed."""
    old, new = before.lines if before else (), after.lines if after else ()
    added = removed = 0
    for what, i, j, k, m in difflib.SequenceMatcher(None, old, new, autojunk=False).get_opcodes():
        if what != "equal":
            added, removed = added + m - k, removed + j - i
    return " ".join(sign + str(count) for sign, count in (("+", added), ("−", removed)) if count)


def state_of(before, after):
    if not before or not after:
        return "gone" if before else "new"
    if before.text != after.text:
        return "changed"
    if before.kind != after.kind:
        return NO_LONGER[before.kind]
    if before.place != after.place:
        return "arrived"
    return OTHER_IMPORTS if other_imports(before, after) else "same"


def other_imports(before, after):
    """Whether a thing takes a name from elsewhere. Proofs often do, and it says little: only their number is told."""
    return before.imports != after.imports and after.kind != "proofs"


def state_of_code(before, after):
    if before.body != after.body:
        return "changed"
    return "same" if before.imports_of_body == after.imports_of_body else OTHER_IMPORTS


def told_of(before, after):
    """(crate, column, state, before, after) of all that is told of a thing. The code of a function is told where both have the function."""
    here = after or before
    yield here.crate, here.kind, state_of(before, after), before, after
    if before and after:
        if before.crate != after.crate:
            yield before.crate, before.kind, "left", before, after
        if here.family == "functions":
            yield here.crate, "code", state_of_code(before, after), before, after


class Told:
    """All that is told of two checkouts: for each crate and column, the things in each state."""

    def __init__(self, old, new):
        self.before, self.after = crates_of(old), crates_of(new)
        self.crates = list(dict.fromkeys([*self.after, *self.before]))
        self.found = collections.defaultdict(list)
        for pair in paired(things_of(old), things_of(new)):
            for crate, column, state, before, after in told_of(*pair):
                self.found[crate, column, state].append((before, after))

    def counts(self, crate, column):
        return {state: len(self.found[crate, column, state]) for state in STATES if self.found[crate, column, state]}

    def moved(self, crate, columns=COLUMNS):
        return any(set(self.counts(crate, column)) - {"same"} for column in columns)

    def imports(self, crate):
        """How many proofs that did not move take a name from elsewhere."""
        return sum(1 for before, after in self.found[crate, "proofs", "same"] if before.imports != after.imports)


def crates_that_moved(old, new):
    """The crates of NEW in which something moved that a check reads, as it does the imports of a proof too, and those that stand on one."""
    told = Told(old, new)
    checked = [column for column in COLUMNS if column != "edits"]
    met = []
    for crate, below in told.after.items():  # crates.txt has each behind what it stands on
        if told.moved(crate, checked) or told.imports(crate) or told.before.get(crate) != below or set(met).intersection(below):
            met.append(crate)
    return met


def cell(counts):
    return ", ".join("%d %s" % (count, state) for state, count in counts.items()) or "–"


def table(told):
    moved = [crate for crate in told.crates if told.moved(crate)]
    still = [crate for crate in told.crates if crate not in moved]
    if moved:
        yield "| Crate | %s |" % " | ".join(COLUMNS)
        yield "|---" * (len(COLUMNS) + 1) + "|"
        for crate in moved:
            yield "| %s | %s |" % (crate, " | ".join(cell(told.counts(crate, column)) for column in COLUMNS))
        yield ""
    imports = [crate for crate in still if told.imports(crate)]
    if still:
        yield "Nothing moved in: %s.%s" % (", ".join(still), " Of these, proofs with other imports in: %s." % ", ".join(imports) if imports else "")
        yield ""


def crates_told(told):
    """What crates.txt has otherwise than before."""
    stood = []
    for crate in told.crates:
        before, after = (" ".join(crates[crate]) or "nothing" if crate in crates else None for crates in (told.before, told.after))
        if after is None:
            stood.append("%s is gone" % crate)
        elif before != after:
            stood.append("%s stands on %s (%s)" % (crate, after, "before: " + before if before else "new"))
    if stood:
        yield "Crates: %s." % "; ".join(stood)
        yield ""


def whence(before, after):
    return before.file if before.crate == after.crate else before.place


def name_of(column, state, before, after):
    """A thing's name, with the lines of a proof, and what else moved of it: its kind, where it stands, its imports."""
    notes = [lines_of(before, after)] if column == "proofs" and state != "arrived" else []
    if before and after and state != "arrived":
        notes += ["before: " + before.kind] if state == "changed" and column == after.kind != before.kind else []
        notes += ["from " + whence(before, after)] if before.place != after.place else []
        notes += [OTHER_IMPORTS] if state == NO_LONGER.get(before.kind) and other_imports(before, after) else []
    return "`%s`%s" % ((after or before).name, " (%s)" % ", ".join(notes) if notes else "")


def group_of(column, state, before, after):
    """What stands before the names of the things that are told together."""
    if state != "arrived":
        return "" if column == "proofs" else "in %s " % (after or before).file
    if column in ("proofs", "edits") and before.crate != after.crate:
        return "from %s/%s: " % (before.crate, before.file.split("/")[0])
    return "from %s to %s%s: " % (whence(before, after), after.file, ", " + OTHER_IMPORTS if other_imports(before, after) else "")


def names_told(told, crate, column, state):
    pairs = told.found[crate, column, state]
    if state == "left":
        return "for " + ", ".join(sorted({after.crate for _, after in pairs}))
    groups = collections.defaultdict(list)
    for before, after in pairs:
        groups[group_of(column, state, before, after)].append(name_of(column, state, before, after))
    words = []
    for place, names in sorted(groups.items()):
        names.sort()
        few = state != "arrived" or len(names) <= MOST_ARRIVED or OTHER_IMPORTS in place
        words.append(place + (", ".join(names) if few else str(len(names))))
    return "; ".join(words)


def same_told(told, crate, column):
    """How many did not move, whether that is all of them, and how many proofs of them take a name from elsewhere."""
    counts, imports = told.counts(crate, column), told.imports(crate) if column == "proofs" else 0
    if "same" not in counts:
        return ""
    notes = ["all"] if set(counts) == {"same"} else []
    notes += ["%d with other imports" % imports] if imports else []
    return "%d %s%s" % (counts["same"], column, " (%s)" % ", ".join(notes) if notes else "")


def section(told, crate):
    yield "### " + crate
    yield ""
    for column in COLUMNS:
        for state, count in told.counts(crate, column).items():
            if state != "same":
                how = ", text unchanged" if state == "arrived" else ""
                yield "- %s, %d %s%s: %s" % (column, count, state, how, names_told(told, crate, column, state))
    same = [same_told(told, crate, column) for column in COLUMNS]
    if any(same):
        yield "- not moved: " + ", ".join(filter(None, same))
    yield ""


def page(old, new):
    told = Told(old, new)
    lines = [LEGEND, *table(told), *crates_told(told)]
    for crate in told.crates:
        if told.moved(crate):
            lines += section(told, crate)
    return "\n".join(lines).rstrip("\n")


def main(words):
    if len(words) != 2:
        print("moved.py: usage: moved.py OLD NEW", file=sys.stderr)
        return 2
    for word in words:
        if not os.path.isfile(os.path.join(word, "crates.txt")):
            print("moved.py: %s is no checkout: it has no crates.txt" % word, file=sys.stderr)
            return 2
    try:
        print(page(*map(os.path.abspath, words)))
    except UNREADABLE as fault:
        print("moved.py: %s" % fault, file=sys.stderr)
        return 2
    return 0


if __name__ == "__main__":
    sys.exit(main(sys.argv[1:]))
