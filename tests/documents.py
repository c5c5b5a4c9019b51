#!/usr/bin/env python3
"""What documents show, checked: commands with their output, parts of files, and fragments of the language with their refusals.

Run as a program it says what is wrong that can be seen without ./ygg, and ends with 1 where something is: links that lead nowhere, parts that
aren't in a file that the next command names, and a gallery that doesn't say what tests/gallery.txt says. tests/run takes `commands` and
`fragments` from here, and runs them. With --renew and names of pages it runs their commands itself, by ./ygg or what YGG names, and puts what they print in the place of what stands there.

A block is a run of indented lines. A block whose first line is `$ ./ygg WORD ..` is a command, and the lines below are its output; with `> NAME` at its end
the output goes to a file that later commands of the page may name, also behind `| COMMAND`, of which the status isn't looked at. In the pages
of SHOWING every other block is a part of a file that the next command names. A fragment stands in a frame of tests/frames.txt: a block below a line that
ends in ``In `NAME`:`` is typed in that frame, each line by itself where the frame is `relate`; below a line that ends in ``Refused in `NAME`:`` each
fragment ends with a line that has a mark `^ N` under the token at which N is the refusal. Lines between three backquotes are pictures.
"""
import os
import pathlib
import re
import subprocess
import sys
import tempfile

TOP = pathlib.Path(__file__).resolve().parent.parent
PAGES = ["README.md", "INSTALL.md", "examples/README.md", *sorted(f"docs/{path.name}" for path in (TOP / "docs").glob("*.md"))]
SHOWING = ["README.md", "docs/TUTORIAL.md", "docs/RELATIONS.md", "docs/HOW_DO_I_SAY.md"]
STATUSES = {"holds": 0, "verified": 0, "refuted": 1, "end": 1, "shows": 1, "refused": 2, "hypothesis": 2, "undecided": 3}


def blocks(page):
    """The blocks of a page, each as the number of its first line, the last plain line above it, and its lines."""
    above, inside, first, is_picture, was_blank = "", [], 0, False, True
    for number, line in enumerate([*(TOP / page).read_text().splitlines(), ""], 1):
        if line.startswith("```"):
            is_picture = not is_picture
        elif not is_picture and line.startswith("    ") and line.strip() and (inside or was_blank):
            first = first if inside else number
            inside.append(line[4:])
            continue
        elif line.strip() and not is_picture:
            above = line
        if inside:
            yield first, above, inside
            inside = []
        was_blank = not line.strip()


def commands(page):
    """The commands of a page: the line's number, the words, the file that the output goes to or None, the output, and the status that its last line tells."""
    for number, _, lines in blocks(page):
        if lines[0].startswith("$ ./ygg "):
            words, _, target = lines[0].removeprefix("$ ./ygg ").partition(" > ")
            output = "".join(line + "\n" for line in lines[1:])
            yield number, words.split(), target or None, output, STATUSES.get(lines[-1].split()[0], 0)


def fragments(page):
    """The fragments of a page: the line's number, the text of a whole file, and its refusal, or None where it is typed."""
    framed = (TOP / "tests" / "frames.txt").read_text().splitlines()
    frames = {line.split(" ", 2)[1]: line.split(" ", 2)[2].split("HERE") for line in framed if line.startswith("= ")}
    for number, above, lines in blocks(page):
        found = re.search(r"(?:^|\W)(In|Refused in) `(\w+)`:$", above)
        if not found or lines[0].startswith("$"):
            continue
        head, tail = frames[found[2]]
        head, tail, part = head and head + "\n", tail and "\n" + tail, []
        for offset, line in enumerate(lines):
            mark = re.fullmatch(r" *\^ (\d+)", line)
            if mark:
                place = f"{head.count(chr(10)) + len(part)}:{line.index('^') + 1}"
                yield number + offset, head + "\n".join(part) + tail, f"refused {mark[1]} {place}\n"
                part = []
                continue
            part.append(line)
            if found[1] == "In" and found[2] == "relate":
                yield number + offset, head + line + tail, None
                part = []
        if part and found[1] == "In":
            yield number, head + "\n".join(part) + tail, None
        elif part:
            yield number, head + "\n".join(part) + tail, "no mark stands below this"


def misplaced(page):
    """Parts of files in a page that no file of the next command has."""
    waiting = []
    for number, _, lines in blocks(page):
        if not lines[0].startswith("$ "):
            waiting.append((number, "\n".join(lines) + "\n"))
        elif lines[0].startswith("$ ./ygg "):
            names = [name for name in lines[0].split()[3:] if (TOP / name).is_file()]
            texts = ["\n" + (TOP / name).read_text() for name in names]
            yield from (f"{page}:{place}: no part of {' or '.join(names)}" for place, part in waiting if not any("\n" + part in text for text in texts))
            waiting = []


def astray(page):
    """Links of a page that lead nowhere."""
    text = (TOP / page).read_text()
    for target in re.findall(r"\]\(([^)\s]+)\)", text):
        name, _, heading = target.partition("#")
        path = (TOP / page).parent / name if name else TOP / page
        if not path.exists():
            yield f"{page}: no file {target}"
        elif heading:
            headings = re.findall(r"(?m)^#+ (.*)$", path.read_text())
            if heading not in [re.sub(r"[^\w\- ]", "", one.lower()).replace(" ", "-") for one in headings]:
                yield f"{page}: no heading {target}"


def untold():
    """What examples/README.md says of a file's failing obligations, where tests/gallery.txt says otherwise."""
    told = {}
    for item in re.split(r"(?m)^ *- (?=\[`)", (TOP / "examples" / "README.md").read_text())[1:]:
        name = re.match(r"\[`([^`]*)`\]", item)[1]
        head = item.partition(": ")[0]
        told[name] = re.findall(r"`(\w+\.\w+(?:\.\w+)?)`", head.partition(" fails ")[2])
    for part in (TOP / "tests" / "gallery.txt").read_text().split("\n= ")[1:]:
        name, _, lines = part.partition("\n")
        fails = [line[6:] for line in lines.splitlines() if line.startswith("fails ")]
        if told.pop(name, None) != fails:
            yield f"examples/README.md: {name} fails {fails}"
    yield from (f"examples/README.md: {name} isn't in tests/gallery.txt" for name in told)


def faults():
    """All that is wrong and can be seen without ./ygg."""
    for page in PAGES:
        yield from astray(page)
    for page in SHOWING:
        yield from misplaced(page)
    yield from untold()


def ran(folder, ygg, words, target):
    """The status and the output of a command that a page shows, run in a folder; with a target the output goes there."""
    shell = ["bash", "-c", 'ygg=$1; shift; eval "\"\$ygg\" $*"', "bash", ygg, *words] if "|" in words else [ygg, *words]
    done = subprocess.run(shell, cwd=folder, stdin=subprocess.DEVNULL, capture_output=True, text=True, timeout=600)
    if target:
        (folder / target).write_text(done.stdout)
    return done.returncode, "" if target else done.stdout


def prepare(folder):
    """Puts what commands of pages name into a folder."""
    for name in ("examples", "tools"):
        (folder / name).symlink_to(TOP / name)


def renew(page):
    """Puts what the commands of a page print below them."""
    lines = (TOP / page).read_text().splitlines()
    with tempfile.TemporaryDirectory() as name:
        folder, moved = pathlib.Path(name), 0
        prepare(folder)
        for number, words, target, output, _ in list(commands(page)):
            new = ran(folder, os.environ.get("YGG") or str(TOP / "ygg"), words, target)[1].splitlines()
            lines[number + moved : number + moved + output.count("\n")] = ["    " + line for line in new]
            moved += len(new) - output.count("\n")
    (TOP / page).write_text("".join(line + "\n" for line in lines))


def main():
    if sys.argv[1:2] == ["--renew"]:
        for page in sys.argv[2:]:
            renew(page)
        return 0
    found = list(faults())
    for line in found:
        print(line)
    return 1 if found else 0


if __name__ == "__main__":
    sys.exit(main())
