#!/usr/bin/env python3
"""summary.py TABLES ..: from the tables that bench/run made, two with all medians side by side: ours and each peer by its fastest setting, and the readers by
each setting. A run of bench/run leaves its tables in target/bench/tables; with those of several runs a cell has the median of each, in their order."""
import sys

PEERS = ["memmem + memcpy", "expat", "libxml2", "pugixml", "rapidxml"]


def rows(text):
    for line in text.splitlines():
        if line.startswith("| "):
            yield [cell.strip() for cell in line.strip("| ").split("|")]


def cutting(cells):
    """stream, record, boundary, piece, ours best, ours median, the peer's best, the peer's median, ratio"""
    what = "cutting: %s, records of %s bytes, boundary %s, pieces of %s, MB/s" % tuple(cells[:4])
    return what, {"ours": cells[5], "memmem + memcpy": cells[7]}


def calling(cells):
    """call, best, median"""
    return "session: one %s, 32 pushes open, ns" % cells[0], {"ours": cells[2]}


def readings(text):
    """Of reader, messages, ns a message, MB/s and ratio, for all messages the MB/s by reader."""
    found = {}
    for cells in rows(text):
        if len(cells) == 5 and cells[3].isdigit():
            found.setdefault(cells[1], {})[cells[0]] = cells[3]
    return found


def fastest(speeds):
    """Of each peer the setting that reads most."""
    best = {}
    for reader, speed in speeds.items():
        name = "ours" if reader == "ali_read" else reader.split(":")[0]
        if name != "none":
            best[name] = max(best.get(name, "0"), speed, key=int)
    return best


def summary(text):
    figures = {}
    for cells in rows(text):
        if len(cells) == 9 and cells[1].isdigit():
            figures.update([cutting(cells)])
        elif len(cells) == 3 and cells[0] in ("tick", "ok"):
            figures.update([calling(cells)])
    for messages, speeds in readings(text).items():
        figures["reading: %s bytes, MB/s" % messages] = fastest(speeds)
    return figures


def show(head, columns, runs):
    """A table; each run has, by what a row is about, the cells by the columns' names."""
    print("| %s |" % " | ".join([head, *columns]))
    print("|---" * (len(columns) + 1) + "|")
    for what in dict.fromkeys(what for run in runs for what in run):
        medians = [[run.get(what, {}).get(name, "none") for run in runs] for name in columns.values()]
        print("| %s |" % " | ".join([what, *("" if set(each) == {"none"} else ", ".join(each) for each in medians)]))


def by_reader(text):
    found = {}
    for messages, speeds in readings(text).items():
        for reader, speed in speeds.items():
            found.setdefault(reader, {})[messages] = speed
    return found


def main():
    if len(sys.argv) < 2:
        sys.exit("usage: python3 bench/summary.py TABLES ..")
    texts = []
    for path in sys.argv[1:]:
        with open(path, encoding="utf-8") as file:
            texts.append(file.read())
    show("what, medians", {"this box": "ours", **{peer: peer for peer in PEERS}}, [summary(text) for text in texts])
    sets = dict.fromkeys(messages for text in texts for messages in readings(text))
    if sets:
        print()
        show("reader, MB/s by messages, mean bytes", {messages: messages for messages in sets}, [by_reader(text) for text in texts])


if __name__ == "__main__":
    main()
