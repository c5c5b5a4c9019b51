"""What a program of the repository is made from, and how it is kept in build/out/.

A program stands there as a file, and beside it its stamp: a file that is as old as the beginning of its build, and lists, a path on a line, the sources that
decide what it does and what is proved of it. The program is up to date where none of these is newer than the stamp or gone. The script ygg asks that by
itself.
"""
import fcntl
import os
import shutil
import sys

TOP = os.path.dirname(os.path.dirname(os.path.realpath(__file__)))
ROOM = os.path.join(TOP, "build", "out")
# what a build ends with: made or up to date, the toolchain has no such way, a source is refused, there is no toolchain, interrupted
DONE, NO_WAY, REFUSED, NO_TOOLCHAIN, INTERRUPTED = 0, 1, 126, 127, 130


def say(text):
    print(f"ygg: {text}", file=sys.stderr, flush=True)


def uses():
    """The libraries that crates.txt names for each crate."""
    found = {}
    with open(os.path.join(TOP, "crates.txt"), encoding="utf-8") as file:
        for line in file:
            head, _, tail = line.partition("#")[0].partition(":")
            if head.strip():
                found[head.split()[0]] = tail.split()
    return found


def below(name):
    """The crates of the repository that the named one stands on, and itself."""
    graph = uses()
    found, left = set(), [name]
    while left:
        crate = left.pop()
        if crate in graph and crate not in found:
            found.add(crate)
            left += graph[crate]
    return sorted(found)


def sources(crates, parts):
    """The paths of crates.txt, and of the sources in these parts (src, specs, proofs) of the crates, from the top of the repository."""
    found = ["crates.txt"]
    for crate in crates:
        for part in parts:
            for folder, _, files in os.walk(os.path.join(TOP, "crates", crate, part)):
                found += (os.path.relpath(os.path.join(folder, it), TOP) for it in files if it.endswith((".rt", ".antt")))
    return sorted(found)


def newest(paths):
    """When the newest of these sources was changed."""
    return max(os.path.getmtime(os.path.join(TOP, it)) for it in paths)


def kept(name):
    return os.path.join(ROOM, name)


def stamp(name, paths, begun=None):
    """Writes a stamp for a program that is about to be made, or that was begun at that time. It counts once `keep` has put it beside the program."""
    part = f"{kept(name)}.stamp.{os.getpid()}"
    with open(part, "w", encoding="utf-8") as file:
        file.writelines(f"{it}\n" for it in paths)
    if begun is not None:
        os.utime(part, (begun, begun))
    return part


def keep(made, name, its_stamp):
    """Puts a program that was made in its place, in one step, and its stamp beside it."""
    part = f"{kept(name)}.{os.getpid()}"
    shutil.copyfile(made, part)
    os.chmod(part, 0o755)
    os.replace(part, kept(name))
    os.replace(its_stamp, f"{kept(name)}.stamp")


def is_current(name, paths):
    """Whether the program that is kept was made from these sources as they are."""
    its_stamp = f"{kept(name)}.stamp"
    if not (os.path.isfile(kept(name)) and os.path.isfile(its_stamp)):
        return False
    with open(its_stamp, encoding="utf-8") as file:
        are_there = set(file.read().splitlines()) <= set(paths)
    return are_there and os.path.getmtime(its_stamp) > newest(paths)


def only_one(name, waits=True):
    """Holds the lock of this name while the file that it answers is open, so that only one of several calls builds. Where it is held, it waits or answers None."""
    os.makedirs(ROOM, exist_ok=True)
    file = open(os.path.join(ROOM, name), "w", encoding="utf-8")
    try:
        fcntl.flock(file, fcntl.LOCK_EX if waits else fcntl.LOCK_EX | fcntl.LOCK_NB)
    except BlockingIOError:
        file.close()
        return None
    return file
