"""A second hand for `format`: says what an image holds, as docs/FORMATS.md says, and compares ./ygg on real files with it. Layers are read and run by
tests/playing.py.

Besides formats that go well there are files that can't be written, a limit on the size of files in the place of a full file system, and an output that takes
nothing."""
import os
import pathlib
import resource
import signal
import subprocess
import tempfile

import playing

MARK = b"YGGIMG1\n"
FAULT = "fault device\n"


def sizes_of(disk):
    """The bytes of a word and of a block in images of a disk."""
    _, _, words, width = disk
    word = (width + 7) // 8
    return word, max(16, words * word)


def header(disk, seal):
    """The first block of an image of a disk."""
    _, rows, words, width = disk
    head = MARK + rows.to_bytes(2, "big") + words.to_bytes(2, "big") + bytes([width, seal])
    return head.ljust(sizes_of(disk)[1], b"\0")


def block_of(disk, row):
    word, block = sizes_of(disk)
    return b"".join(number.to_bytes(word, "big") for _, number in row).ljust(block, b"\0")


def image_of(disk, table, seal=1):
    """The image of a disk's rows."""
    return header(disk, seal) + b"".join(block_of(disk, row) for row in table)


def blocks_of(disk, image):
    """The blocks of an image behind the first one."""
    _, block = sizes_of(disk)
    return [image[start : start + block] for start in range(block, len(image), block)]


def rows_of(disk, image):
    """The rows that an image holds, of each word the digits that it has."""
    _, _, words, width = disk
    word, _ = sizes_of(disk)
    return [[(width, int.from_bytes(b[n * word : n * word + word], "big") % 2**width) for n in range(words)] for b in blocks_of(disk, image)]


def refusal_of(disk, image):
    """The number of the refusal of an image, or None."""
    word, block = sizes_of(disk)
    if len(image) < block or image[:8] != MARK or image[13] != 1:
        return 51
    if image[8:13] != header(disk, 1)[8:13] or len(image) != (disk[1] + 1) * block:
        return 52
    return None if b"".join(block_of(disk, row) for row in rows_of(disk, image)) == image[block:] else 53


def formatted(text):
    """The image that `format` makes of a file."""
    stack = playing.Stack(text)
    return image_of(stack.disk, stack.view)


class Folder:
    """A folder in which ./ygg is run on a layer file and the image `image`."""

    def __init__(self, ygg, path, text):
        self.ygg, self.path, self.text = ygg, pathlib.Path(path), text
        self.image = self.path / "image"
        (self.path / "file").write_text(text)

    def started(self, words, room=None, user=None, **others):
        def before():
            signal.signal(signal.SIGXFSZ, signal.SIG_IGN)
            if room is not None:
                resource.setrlimit(resource.RLIMIT_FSIZE, (room, room))
            if user is not None:
                os.setuid(user)

        return subprocess.Popen([self.ygg, *words], cwd=self.path, stdin=subprocess.DEVNULL, stderr=subprocess.DEVNULL, preexec_fn=before, **others)

    def asked(self, *words, target=None, **others):
        """The status and the standard output of a command, which goes to a file of the folder where one is named, or of the system."""
        if target is not None:
            with open(self.path / target, "wb") as file:
                return self.started(words, stdout=file, **others).wait(60), ""
        with self.started(words, stdout=subprocess.PIPE, text=True, **others) as child:
            return child.wait(60), child.stdout.read()


def different(found, wanted):
    return None if found == wanted else f"{found}, wanted {wanted}"


def folders(ygg, paths, kind=Folder):
    """A folder for each of these layer files, with the file's name."""
    for path in paths:
        with tempfile.TemporaryDirectory() as folder:
            os.chmod(folder, 0o755)
            yield path.name, kind(ygg, folder, path.read_text())


def unformatted(folder):
    """What is wrong of `format`, or None: it makes the image, also in the place of another one, and of what is left of one."""
    for before in (None, MARK + b"another image that is longer" * 1000, bytes(20)):
        if before is not None:
            folder.image.write_bytes(before)
        found = *folder.asked("format", "file", "image"), folder.image.read_bytes()
        wanted = 0, "formatted\n", formatted(folder.text)
        if found != wanted:
            return different(found, wanted)
    return None


def failing_formats(folder):
    """Formats that fail or are refused, and what is wrong of each, or None."""
    whole = formatted(folder.text)
    for room in range(0, len(whole), 16):
        folder.image.unlink(missing_ok=True)
        yield f"format with room for {room} bytes", different(folder.asked("format", "file", "image", room=room), (4, FAULT))
        left = folder.image.read_bytes() if folder.image.exists() else b""
        yield f"the image after it, with room for {room} bytes", different(refusal_of(playing.Reader(folder.text).file()[0], left), 51)
    found = *folder.asked("format", "file", "image", room=len(whole)), folder.image.read_bytes()
    yield "format with room for the image", different(found, (0, "formatted\n", whole))
    (folder.path / "inner").mkdir()
    for name in ("inner", "nowhere/image", "/dev/null"):
        yield f"format to {name}", different(folder.asked("format", "file", name), (4, FAULT))
    (folder.path / "none").write_text("")
    for file, wanted in (("absent", "refused 73 0:1\n"), ("none", "refused 3 1:1\n")):
        folder.image.unlink(missing_ok=True)
        yield f"format of a file that is {file}", different((*folder.asked("format", file, "image"), folder.image.exists()), (2, wanted, False))
    found = folder.asked("format", "file", "image", target="/dev/full"), folder.image.read_bytes()
    yield "format, and no room for the line", different(found, ((4, ""), whole))
    yield from unwritable(folder, "format", "file", "image")


def unwritable(folder, *words):
    """What is wrong of a command on an image that its user may not write, or None."""
    before = folder.image.read_bytes()
    folder.image.chmod(0o444)
    user = 65534 if os.geteuid() == 0 else None
    yield f"{words[0]} of an image that may not be written", different((*folder.asked(*words, user=user), folder.image.read_bytes()), (4, FAULT, before))
    folder.image.chmod(0o644)


def formats(ygg, examples):
    """Cases of `format`, each by its name, and what is wrong of it, or None."""
    for name, folder in folders(ygg, examples):
        yield f"format {name}", unformatted(folder)
        if name in ("pair.ygg", "flag.ygg"):
            for case, difference in failing_formats(folder):
                yield f"{case}, {name}", difference
