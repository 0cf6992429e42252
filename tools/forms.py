#!/usr/bin/env python3
"""Lists the places in crates/*/src that are written by hand where Rattle has a form for it.

    python3 tools/forms.py [CHECKOUT] [--list]

prints, for each kind of place, how many there are; with --list also where they are. docs/DESIGN-PASS.md has the counts of before and after, and why a
place that is still counted stays. A kind is found by how it looks, so a count takes in places that are as they should be.
"""
import glob
import os
import re
import sys
from collections import defaultdict

WORD = re.compile(r"[A-Za-z_]\w*|\d+|b?\"[^\"]*\"|b?'[^']*'|\S")
KEPT_WORDS = set("let mut if else match return while for in loop fn pub crate struct enum impl const self break continue as true false usize u8 u32 u64 bool".split())


def sources(top):
    for path in sorted(glob.glob(os.path.join(top, "crates", "*", "src", "*.rt"))):
        with open(path, encoding="utf-8") as file:
            yield os.path.relpath(path, top), file.read()


def lines_that(pattern, found):
    """Each line of the code, comments apart, in which the pattern is found."""
    for path, text in found:
        for number, line in enumerate(text.splitlines(), 1):
            code = line.split("//")[0]
            for _ in re.finditer(pattern, code):
                yield "%s:%d %s" % (path, number, code.strip())


def blocks(text, opening):
    """(name, line, text) of the braces behind each match of the opening."""
    for match in re.finditer(opening, text, re.MULTILINE):
        begin = text.index("{", match.end() - 1)
        depth, end = 0, begin
        for end in range(begin, len(text)):
            depth += {"{": 1, "}": -1}.get(text[end], 0)
            if depth == 0:
                break
        yield match.group(1), text.count("\n", 0, match.start()) + 1, text[begin + 1 : end]


def functions(found):
    """(path, line, name, signature with clauses, body) of each function."""
    for path, text in found:
        for match in re.finditer(r"^( *)(?:pub(?:\(crate\))? )?(?:extern \"C\" )?fn (\w+)", text, re.MULTILINE):
            lines = text[match.start() :].split("\n")
            indent = match.group(1)
            end = next((i for i, line in enumerate(lines) if i and line == indent + "}"), 0)
            opened = next((i for i, line in enumerate(lines[: end + 1]) if line == indent + "{" or line.endswith(" {") and "ensures" not in line and "requires" not in line), 0)
            yield path, text.count("\n", 0, match.start()) + 1, match.group(2), "\n".join(lines[: opened + 1]), "\n".join(lines[opened + 1 : end])


def option_like(found):
    """An enum of two cases: one with a value, and one with none or with the number and the place of a refusal."""
    for path, text in found:
        for name, line, body in blocks(text, r"^ *(?:pub(?:\(crate\))? )?enum (\w+)[^{]*\{"):
            cases = [case.strip() for case in re.sub(r"//.*", "", body).strip().rstrip(",").split(",\n")]
            if len(cases) == 2 and sum("(" in case for case in cases) >= 1 and any(case.startswith("Refused(") or "(" not in case for case in cases):
                yield "%s:%d enum %s" % (path, line, name)


def counting_loops(found):
    """A while or a loop that counts a place up or down by a step of its own."""
    for path, text in found:
        lines = text.split("\n")
        for number, line in enumerate(lines):
            head = re.match(r"( *)(?:while|loop)\b", line)
            if head:
                end = next(i for i in range(number + 1, len(lines)) if lines[i] == head.group(1) + "}")
                if any(re.match(r" *\w+ [+-]= \d+;", inner) for inner in lines[number + 1 : end]):
                    yield "%s:%d %s" % (path, number + 1, line.strip())


def numbers(found):
    """A function that answers a refusal or a kind by its number, or the number of an event."""
    yield from lines_that(r"fn (?:number|flag|named|refusal|refusal_of)\(.*-> u32", found)
    yield from lines_that(r"^pub const [A-Z_]+: u32 = \d+;", [(path, text) for path, text in found if path.endswith("codes.rt")])


def skeletons(found):
    """Functions whose bodies are alike but for names, texts and numbers."""
    alike = defaultdict(list)
    for path, line, name, _, body in functions(found):
        words = [word if word in KEPT_WORDS or not re.match(r"[\w\"']", word) else "_" for word in WORD.findall(re.sub(r"//.*", "", body))]
        if len(words) >= 18:
            alike[" ".join(words)].append("%s:%d fn %s" % (path, line, name))
    for places in alike.values():
        if len(places) > 1:
            yield from places


def every_case(found):
    """A function that only says of each case true or false, or which number it has."""
    for path, line, name, _, body in functions(found):
        arms = re.findall(r"=> ([^,\n]+),", body)
        if "match" in body and len(arms) >= 2 and all(arm in ("true", "false") or arm.isdigit() for arm in arms):
            yield "%s:%d fn %s" % (path, line, name)


def repeated_demands(found):
    """A demand on a value that stands in three functions or more."""
    where = defaultdict(list)
    for path, line, name, head, _ in functions(found):
        for demand in re.findall(r"requires (?:\w+ )?\{ (.*) \}", head):
            where[demand].append("%s:%d fn %s: %s" % (path, line, name, demand))
    for places in where.values():
        if len(places) >= 3:
            yield from places


def counted_buffers(found):
    """A struct that holds an array and how much of it counts, or a function that is lent a buffer and a place in it, or parallel arrays."""
    for path, text in found:
        for name, line, body in blocks(text, r"^ *(?:pub(?:\(crate\))? )?struct (\w+)[^{;]*\{"):
            if re.search(r": \[", body) and re.search(r"\b(count|length|len): usize", body):
                yield "%s:%d struct %s" % (path, line, name)
    for path, line, name, head, _ in functions(found):
        head = re.sub(r"\s+", " ", head.split("requires")[0].split("ensures")[0])
        if re.search(r"&mut \[[^\]]*\], (at|count): usize|&\[usize; \d+\], \w+: &\[usize; \d+\]", head):
            yield "%s:%d fn %s" % (path, line, name)


KINDS = (
    ("1 an enum shaped like Option or Result", option_like),
    ("1 a flag or a refusal's number with values beside it", lambda found: lines_that(r"^\s+(?:pub(?:\(crate\))? )?(?:there|ended|empty|failed|more): bool,|^\s+(?:pub(?:\(crate\))? )?refusal: u32,", found)),
    ("1 a refusal or nothing handed on by hand", lambda found: lines_that(r"Refused\(\w+, \w+\) =>|let \w+::Whole\(.*\) = \w+ else|\.flag\(\) == 1|!= 0 \{$", found)),
    ("1 a kind or a refusal as a number", numbers),
    ("2 functions alike but for names, texts and numbers", skeletons),
    ("3 a loop that counts a place by hand", counting_loops),
    ("3 any other while or loop", lambda found: set(lines_that(r"^\s*(?:while|loop)\b", found)) - set(counting_loops(found))),
    ("4 each case told to be true, false or a number", every_case),
    ("4 comparing or copying by hand", lambda found: lines_that(r"fn (?:lesser|is_blank|copy|lay|write|give|begins|called|is_among|span)\(", found)),
    ("5 a demand in three functions or more", repeated_demands),
    ("5 the message, its table and a place", lambda found: lines_that(r"s: &\[u8\], table: &\[u8; 256\]", found)),
    ("6 a buffer with a count or a place beside it", counted_buffers),
    ("7 a table, or a switch on a step", lambda found: lines_that(r": \[\[|\bfn\(", found)),
)


def main():
    words = [word for word in sys.argv[1:] if word != "--list"]
    found = list(sources(words[0] if words else os.path.join(os.path.dirname(__file__), "..")))
    for kind, places in KINDS:
        places = sorted(places(found))
        print("%4d  %s" % (len(places), kind))
        if "--list" in sys.argv:
            for place in places:
                print("        " + place)


if __name__ == "__main__":
    main()
