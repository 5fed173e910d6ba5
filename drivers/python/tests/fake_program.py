"""A stand-in for the program `xatm`: `serve` is `fake_coordinator.py`, and `log` prints the names and the rows of its log, or makes one
of such lines."""

import json
import os
import stat
import sys

FOLDER = os.path.dirname(os.path.abspath(__file__))


def made_in(folder):
    """Makes a program of this in a folder: its path."""
    path = os.path.join(folder, "xatm")
    with open(path, "w") as it:
        it.write(f'#!/bin/sh\nexec "{sys.executable}" "{os.path.abspath(__file__)}" "$@"\n')
    os.chmod(path, os.stat(path).st_mode | stat.S_IXUSR)
    return path


def main(words):
    if words[0] == "serve":
        serve(words)
    elif "--make" in words:
        make(words[-1], sys.stdin.read().splitlines())
    else:
        show(words[-1], "--explain" in words)


def serve(words):
    """The names of a new log are kept, as are those that come at the end, and others refused."""
    log = words[words.index("--log") + 1]
    name = words[words.index("--name") + 1] if "--name" in words else ""
    names = [name, *(words[at + 1] for at, word in enumerate(words) if word == "--rm")]
    if not os.path.exists(log):
        with open(log, "w") as it:
            json.dump({"incarnation": 0, "rows": {}, "requests": [], "names": names}, it)
    with open(log) as it:
        found = json.load(it)
    kept = found.get("names", [""])
    if kept[0] != names[0] or any(old != new for old, new in zip(kept, names)) or (len(kept) == 1) != (len(names) == 1):
        print(f"xatm: log: {log}: it is that of {kept}, not of {names}", file=sys.stderr)
        sys.exit(6)
    if len(names) > len(kept):
        with open(log, "w") as it:
            json.dump({**found, "names": names}, it)
    if names != [""]:
        print("protocol 1", *(["name", name] if name else []), *(["rms", *names[1:]] if names[1:] else []), flush=True)
    os.execv(sys.executable, [sys.executable, os.path.join(FOLDER, "fake_coordinator.py"), log])


def show(log, is_explained):
    with open(log) as it:
        found = json.load(it)
    manager, *rms = found.get("names", [""])
    if manager:
        print("name", manager)
    for number, rm in enumerate(rms):
        print("rm", number, rm)
    print("incarnation", found["incarnation"])
    for gtrid, xids in sorted(found["rows"].items()):
        print(f"{gtrid} is decided to commit, and its row waits for {len(xids)} branches:" if is_explained else f"{gtrid} {len(xids)}")
        for xid in xids if is_explained else []:
            print(f"    {xid} at resource manager {int(xid[-8:], 16)}\n        PostgreSQL: COMMIT PREPARED '{xid}';")


def make(log, lines):
    """Makes a log, and keeps the lines that it was made of."""
    if os.path.exists(log) or lines[-1] != "end":
        sys.exit("xatm: log: it is there, or the lines are cut off")
    names, found = [""], {"incarnation": 0, "rows": {}, "requests": [], "made": lines}
    for line in lines[:-1]:
        word, *words = line.split(" ")
        if word == "name":
            names[0] = words[0]
        elif word == "rm":
            names.append(words[1])
        elif word == "incarnation":
            found["incarnation"] = int(words[0])
        else:
            found["rows"][word] = words[1:]
    with open(log, "w") as it:
        json.dump({**found, "names": names}, it)


if __name__ == "__main__":
    main(sys.argv[1:])
