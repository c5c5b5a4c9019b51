"""A second hand for `run`: says what a run on an image prints and leaves, as docs/FORMATS.md says, and compares ./ygg on real files with it. Layers are read
and run by tests/playing.py, and tests/images.py says what an image holds.

Besides runs that go well there are images that are damaged, cut short or of other disks, files that can't be written, a limit on the size of files in the
place of a full file system, an output that takes nothing, and runs that are killed at moments drawn at random, each of which another run goes on from."""
import random
import time

import images
import playing
from images import FAULT, different, image_of

KILLS = 50
# how long a run takes that is to be killed, in seconds, where its commands aren't too many by then
LONG = 0.4
MOST = 3000


class Failed(Exception):
    """The device has failed."""


class OnImage(playing.Stack):
    """The layers of a file on an image, whose writes fail where they end behind so many bytes of it. What the image holds after each write is kept."""

    held = None

    def __init__(self, text, image, room=None):
        super().__init__(text)
        self.first = image[: images.sizes_of(self.disk)[1]]
        self.room = room
        self.view = self.stable = images.rows_of(self.disk, image)
        self.held = [image]

    def disk_call(self, name, args):
        if self.held is None or name != "write" or args[0][1] >= len(self.view):
            return super().disk_call(name, args)
        if self.room is not None and (args[0][1] + 2) * len(self.first) > self.room:
            raise Failed
        super().disk_call(name, args)
        self.held.append(self.first + image_of(self.disk, self.view)[len(self.first) :])


def traced(text, image, commands, room=None):
    """The lines of a run on an accepted image; how many images were held by the time of each of them, the first one too; and these images."""
    stack = OnImage(text, image, room)
    lines, counts = [], []
    try:
        stack.wake()
        lines.append("up")
        for command in commands:
            counts.append(len(stack.held))
            lines.append(playing.told(stack.obey(command.split(" "))))
        counts.append(len(stack.held))
        lines.append(f"ran {len(commands)}")
    except Failed:
        lines.append(FAULT.strip())
    return lines, [*counts, len(stack.held)], stack.held


def ran(text, image, commands, room=None):
    """The status of `run` on an image, what it prints, and the image that it leaves."""
    number = images.refusal_of(playing.Reader(text).file()[0], image)
    if number:
        return 2, f"refused {number} 0:3\n", image
    lines, _, held = traced(text, image, commands, room)
    return 4 if lines[-1] + "\n" == FAULT else 0, "".join(line + "\n" for line in lines), held[-1]


class Folder(images.Folder):
    """A folder in which ./ygg is run on a layer file, its certificate, the image `image` and scripts."""

    def __init__(self, ygg, path, text):
        super().__init__(ygg, path, text)
        self.is_verified = self.asked("certify", "file", target="cert")[0] == 0

    def scripted(self, commands):
        (self.path / "script").write_text(playing.script_of(commands))
        return "run", "file", "cert", "image", "script"

    def run(self, commands, **others):
        """The status of a run of these commands, what it prints, and the image that it leaves."""
        return *self.asked(*self.scripted(commands), **others), self.image.read_bytes()

    def wrong(self, commands, room=None):
        """What is wrong of a run on the image that is there, or None."""
        wanted = ran(self.text, self.image.read_bytes(), commands, room)
        return different(self.run(commands, room=room), wanted)

    def wrong_on(self, image, commands):
        """The same on this image."""
        self.image.write_bytes(image)
        return self.wrong(commands)


# damaged images


def damaged(disk, image):
    """Images that are damaged in many ways, by what was done."""
    word, block = images.sizes_of(disk)
    _, rows, words, width = disk
    for size in range(len(image)):
        yield f"cut after {size} bytes", image[:size]
    yield "a byte longer", image + b"\0"
    yield "a block longer", image + bytes(block)
    for place in range(block):
        for bit in range(8):
            yield f"bit {bit} of byte {place} turned", turned(image, place, bit)
    for row in range(rows):
        start = (row + 1) * block
        for place in range(words * word, block):
            yield f"byte {place} of the block of row {row} set", turned(image, start + place, row % 8)
        for bit in range(width % 8, 8) if width % 8 else ():
            yield f"bit {bit} of the first word of row {row} set", turned(image, start, bit)
    yield "not sealed", images.header(disk, 0) + image[block:]
    yield "another row", image[:block] + turned(image[block:], word - 1, 0)
    for other in ((disk[0], rows + 1, words, width), (disk[0], rows, words + 1, width), (disk[0], rows, words, width % 64 + 1)):
        yield f"the image of a disk of {other}", image_of(other, playing.zero(("table", *other[1:])))


def turned(image, place, bit):
    return image[:place] + bytes([image[place] ^ 1 << bit]) + image[place + 1 :]


# runs that fail


def astray(folder, before, commands, printed, queries):
    """What is wrong after a run that was stopped, or None: what was printed and left isn't what a front of its disk calls prints and leaves; or another run
    doesn't accept what it left, or answers otherwise than if all or nothing was done of the command at which it was stopped."""
    left, whole = folder.image.read_bytes(), printed.count("\n")
    lines, counts, held = traced(folder.text, before, commands)
    if printed != "".join(line + "\n" for line in lines[:whole]):
        return f"{printed!r} is no front of {lines!r}"
    counts = [1, *counts, counts[-1]]
    if left not in held[counts[whole] - 1 : counts[whole + 1]]:
        return f"{left} isn't what the disk calls behind line {whole} leave"
    found = folder.run(queries)
    ends = [ran(folder.text, held[counts[end] - 1], queries) for end in (whole, whole + 1)]
    return None if found[:2] in [end[:2] for end in ends] else f"{found}, wanted one of {ends}"


def failing_runs(folder, commands, queries):
    """Runs whose device or output fails, and what is wrong of each, or None."""
    whole = images.formatted(folder.text)
    for room in range(len(whole) // 16 + 1):
        folder.image.write_bytes(whole)
        yield f"run with {room * 16} bytes that may be written", folder.wrong(commands, room=room * 16)
        yield f"and another one after it, from {room * 16}", folder.wrong(queries)
    folder.image.write_bytes(whole)
    yield "run, and no room for its lines", different(folder.asked(*folder.scripted(commands), target="/dev/full"), (4, ""))
    yield "and another one after it", astray(folder, whole, commands, "", queries)
    folder.image.write_bytes(whole)
    yield from images.unwritable(folder, *folder.scripted(commands))
    folder.image.unlink()
    yield "run on an absent image", different((folder.asked(*folder.scripted(commands)), folder.image.exists()), ((2, "refused 73 0:3\n"), False))
    folder.image.mkdir()
    yield "run on a folder", different(folder.asked(*folder.scripted(commands)), (4, FAULT))
    folder.image.rmdir()


def refused_runs(folder, commands):
    """Runs that are refused before their image is looked at, and what is wrong of each, or None."""
    whole = images.formatted(folder.text)
    folder.image.write_bytes(whole)
    words = list(folder.scripted(commands))
    texts = [("lost",), ("call put 01 02", "fail before 0"), ("keep 1",), ("call nop",), ("call put 01",)]
    wanted = ["41 2:1", "41 3:1", "41 2:1", "42 2:1", "43 2:1"]
    for lines, place in zip(texts, wanted):
        yield f"a script of {lines}", different(folder.run(lines), (2, f"refused {place}\n", whole))
    folder.scripted(commands)
    for absent in ((1, 2, 3, 4), (2, 3, 4), (4, 3), (3,)):
        asked = [f"absent_{word}" if place in absent else word for place, word in enumerate(words)]
        found = folder.asked(*asked), folder.image.read_bytes(), (folder.path / "absent_image").exists()
        yield f"run without the words {absent}", different(found, ((2, f"refused 73 0:{absent[0]}\n"), whole, False))
    certificate = (folder.path / "cert").read_text().splitlines(keepends=True)
    for changed, status, line in (
        ("".join(certificate[:-1]), 2, f"refused 24 {len(certificate)}:1\n"),
        ("ygg-cert 9\n" + "".join(certificate[1:]), 2, "refused 21 1:1\n"),
        ("".join([*certificate[:2], "e\n", *certificate[2:]]), 1, f"bad {certificate[1].split()[1]} 0\n"),
    ):
        (folder.path / "cert").write_text(changed)
        yield f"a certificate that is answered by {line.strip()}", different(folder.run(commands), (status, line, whole))
    (folder.path / "cert").write_text("".join(certificate))


# runs that are killed


def timed(folder, commands):
    """How many seconds a run takes."""
    folder.image.write_bytes(images.formatted(folder.text))
    begun = time.monotonic()
    folder.run(commands)
    return time.monotonic() - begun


def long_run(folder, commands):
    """So many of these commands, again and again, that a run of them takes long; and how long it takes."""
    seconds = timed(folder, commands)
    count = min(MOST, max(len(commands), int(len(commands) * LONG / seconds)))
    many = [commands[place % len(commands)] for place in range(count)]
    return many, timed(folder, many)


def kills(folder, commands, queries):
    """Runs that are killed, and what is wrong of each, or of the one after it, or None."""
    whole = images.formatted(folder.text)
    many, seconds = long_run(folder, commands)
    draws = random.Random(29)
    for _ in range(KILLS):
        moment = draws.random() * seconds
        folder.image.write_bytes(whole)
        with open(folder.path / "printed", "wb") as file:
            child = folder.started(folder.scripted(many), stdout=file)
            time.sleep(moment)
            child.kill()
            child.wait()
        printed = (folder.path / "printed").read_text()
        yield f"run killed after {moment:.3f} of {seconds:.3f} seconds", astray(folder, whole, many, printed, queries)


PUTS = [f"call put {number:02x} {number * 7 % 256:02x}" for number in range(1, 20)]
GETS = ["call get 0", "call get 1"]


def runs(ygg, examples):
    """Cases of `run`, each by its name, and what is wrong of it, or None."""
    for name, folder in images.folders(ygg, examples, Folder):
        if not folder.is_verified:
            continue
        commands = playing.commands_of(folder.text)
        yield f"run nothing on {name}", folder.wrong_on(images.formatted(folder.text), [])
        yield f"run {name}", folder.wrong(commands)
        yield f"run {name} again", folder.wrong(commands[::-1])
        if name in ("pair.ygg", "flag.ygg"):
            disk = playing.Reader(folder.text).file()[0]
            for title, image in damaged(disk, images.formatted(folder.text)):
                yield f"run {name} on its image, {title}", folder.wrong_on(image, commands)
        if name == "pair.ygg":
            committed = image_of(disk, [[(8, n)] for n in (1, 7, 9, 7, 0)])
            yield "run pair.ygg on an image that was left behind a commit", folder.wrong_on(committed, GETS)
            for cases in (refused_runs(folder, PUTS[:1] + GETS), failing_runs(folder, PUTS[:2] + GETS[:1], GETS), kills(folder, PUTS, GETS)):
                for title, difference in cases:
                    yield f"pair.ygg: {title}", difference
