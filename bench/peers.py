#!/usr/bin/env python3
"""peers.py: prints the words with which bench/read.cc is compiled and linked for the parsers that are installed.

The others are named on standard error. Without a C++ compiler (CXX, else c++) there is nothing to print, and the status is 1.
"""
import os
import shlex
import shutil
import subprocess
import sys
import tempfile

CXX = shlex.split(os.environ.get("CXX", "c++"))
# by the name behind WITH_: the package of Debian, the header, and what else the compiler is told
PEERS = {
    "EXPAT": ("libexpat1-dev", "expat.h", ["-lexpat"]),
    "LIBXML2": ("libxml2-dev", "libxml/parser.h", ["-I/usr/include/libxml2", "-lxml2"]),
    "PUGIXML": ("libpugixml-dev", "pugixml.hpp", ["-lpugixml"]),
    "RAPIDXML": ("librapidxml-dev", "rapidxml/rapidxml.hpp", []),
}


def compiles(line, words):
    """Whether the C++ compiler takes the line and links it with the words."""
    with tempfile.TemporaryDirectory() as folder:
        command = [*CXX, "-std=c++17", "-o", os.path.join(folder, "probe"), "-x", "c++", "-", *words]
        return subprocess.run(command, input=line + "\nint main() {}\n", text=True, stderr=subprocess.DEVNULL).returncode == 0


def words_for(names):
    """The words for those of the named parsers whose header is found and links."""
    if not shutil.which(CXX[0]) or not compiles("", []):
        sys.exit("peers.py: no C++ compiler (%s)" % shlex.join(CXX))
    found = []
    for name in names:
        package, header, words = PEERS[name]
        if compiles("#include <%s>" % header, words):
            found += ["-DWITH_" + name, *words]
        else:
            print("peers.py: no <%s> that links, so this peer is left out (on Debian: %s)" % (header, package), file=sys.stderr)
    return found


if __name__ == "__main__":
    print(*words_for(PEERS))
