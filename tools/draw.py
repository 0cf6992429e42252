#!/usr/bin/env python3
"""Draws the two pictures of docs/ARCHITECTURE.md: the crates with the way of a byte, and the session's states.

    tools/draw.py [FOLDER]

writes crates.svg and session.svg to FOLDER, docs/pictures where none is given; the same bytes every time. What the crates stand on is read from
crates.txt, and a crate or a line that has no place in crates_picture.py is an error. The session's moves are data in session_moves.py, each with the
scripts that try it on the program `replay`; tests/check_pictures.py runs them.
"""
import os
import sys

from crates_picture import TOP, crates_picture
from session_picture import session_picture

PICTURES = {"crates.svg": crates_picture, "session.svg": session_picture}


def main(words):
    folder = words[0] if words else os.path.join(TOP, "docs", "pictures")
    made = {name: make() for name, make in PICTURES.items()}  # all of them before a file is touched
    for name, text in made.items():
        with open(os.path.join(folder, name), "w", encoding="utf-8", newline="\n") as file:
            file.write(text)


if __name__ == "__main__":
    try:
        main(sys.argv[1:])
    except ValueError as fault:
        sys.exit("draw.py: %s" % fault)
