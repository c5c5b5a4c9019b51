"""Stacks of one, two, three and eight layers for `run`, on images whose writes fail at a chosen disk call: what is printed and what the image holds then, worked by
hand.

Each layer writes a row of its own when it recovers, two around the `step` of the layer below, and two in its background step, all with other numbers and in the
order of these. Before each of them the first row counts it, from 1 for the recovery of the lowest layer. Only the rows up to a chosen one can be written. So what the
image holds shows that the calls before the first of the others were made, in order, and its first row that none came after that, since it could still be written."""
import tempfile

import images
import playing
import running

LAYER = """layer l{number} {{
  op mark(k : word 8, a : word 8) spec {{ }} impl {{ {mark} }}
  op step(a : word 8) spec {{ }} impl {{ {step} }}
  tick sweep {{ {sweep} }}
  recover {{ {recover} }}
  relate 1:1;
  {settled}
}}
"""
# the recovery of the lowest layer, which comes to the same from wherever it was cut
FIRST = "call write(0:8, row(1:8)); call flush(); call write(1:8, row(1:8)); call flush();"
# what `step` is called with, and what a background step writes
STEPPED, SWEPT = 165, 90


def recovered(number):
    """The row that a layer writes when it recovers. Layers count from 1."""
    return number


def stepped(count, number):
    """The rows that a layer of so many writes before and after the step of the layer below."""
    return 2 * count - number + 1, 2 * count + number


def swept(count, number):
    """The rows that its background step writes."""
    return 3 * count + 2 * number - 1, 3 * count + 2 * number


def written(number, row, value):
    """How a layer writes a row, and that the first row counts it."""
    if number > 1:
        return f"call mark({row}, {value});"
    name = f"c{row.split(':')[0]}"
    return f"let {name} = call read(0:8); call write(0:8, row(({name}[0:1] + 1:8))); call flush(); call write({row}, row({value}));"


def layer(kind, count, number):
    before, after = stepped(count, number)
    under = "call step(a);" if number > 1 else ""
    return LAYER.format(
        number=number,
        mark="call mark(k, a);" if number > 1 else written(number, "k", "a"),
        step=f"{written(number, f'{before}:8', 'a')} {under} {written(number, f'{after}:8', 'a')}",
        sweep=" ".join(written(number, f"{row}:8", f"{SWEPT}:8") for row in swept(count, number)),
        recover=written(number, f"{recovered(number)}:8", f"{number}:8") if number > 1 else FIRST,
        settled="settled (low.view == low.stable);" if number == 1 and kind == "async" else "",
    )


def file(kind, count):
    """So many layers over a disk of the kind."""
    return "\n".join(["yggdrasil 1;", f"disk {kind} {5 * count + 1} of 1 of 8;", *(layer(kind, count, number) for number in range(1, count + 1))])


def script(count):
    return [f"call step {STEPPED:02x}", *(f"tick l{number}.sweep" for number in range(1, count + 1))]


def waking(count):
    """The rows that are written when the layers wake, the lowest first, and what is written."""
    return [(recovered(number), number) for number in range(1, count + 1)]


def calls(count):
    """The rows that each command of the script writes, and what: in a `step` first those of the topmost layer, then those of the layers below it, and then its second."""
    down = [(stepped(count, number)[0], STEPPED) for number in range(count, 0, -1)]
    up = [(stepped(count, number)[1], STEPPED) for number in range(1, count + 1)]
    return [down + up, *([(row, SWEPT) for row in swept(count, number)] for number in range(1, count + 1))]


def left(rows, commands, last):
    """What the image holds after these commands, whose rows up to the last one can be written, and how many of the commands were whole."""
    rows = list(rows)
    for whole, writes in enumerate(commands):
        for row, value in writes:
            rows[0] = 1 if row == recovered(1) else (rows[0] + 1) % 256
            if row > last:
                return rows, whole
            rows[row] = value
    return rows, len(commands)


def ran(count, rows, commands, last):
    """The same of a run of these commands, behind the waking, with its status and what it prints."""
    rows, whole = left(rows, [waking(count), *commands], last)
    lines = ["up", *(["done"] * len(commands)), f"ran {len(commands)}"]
    lines = lines if whole == len(commands) + 1 else [*lines[:whole], images.FAULT.strip()]
    return rows, (0 if whole == len(commands) + 1 else 4, "".join(f"{line}\n" for line in lines))


def image_of(disk, rows):
    return images.image_of(disk, [[(8, number)] for number in rows])


def differs(found, told, disk, rows):
    """What differs from what is told and left, or None."""
    return images.different(found, (*told, image_of(disk, rows)))


def chosen(kind, count):
    """The last rows that can be written, each in a run of its own: all; or, of eight layers on an asynchronous disk, whose certificate takes long to check, one in
    the waking, one on each side of `step`, and one in a background step of a low and of a high layer."""
    return (3, 12, 20, 26, 39) if (kind, count) == ("async", 8) else range(5 * count + 1)


def runs(ygg):
    """Runs whose device fails at one of their writes, each by its name, and what is wrong of it, or None; and, on a synchronous disk, of a run that goes on from
    there."""
    for kind in ("sync", "async"):
        for count in (1, 2, 3, 8):
            text = file(kind, count)
            disk = playing.Reader(text).file()[0]
            with tempfile.TemporaryDirectory() as path:
                folder = running.Folder(ygg, path, text)
                for last in chosen(kind, count):
                    rows, told = ran(count, [0] * (5 * count + 1), calls(count), last)
                    folder.image.write_bytes(image_of(disk, [0] * (5 * count + 1)))
                    found = folder.run(script(count), room=(last + 2) * images.sizes_of(disk)[1])
                    yield f"{count} layers on {kind} rows, of which row {last} is the last that can be written", differs(found, told, disk, rows)
                    if kind == "sync":
                        rows, told = ran(count, rows, [], 5 * count)
                        yield "and a run on what it left", differs(folder.run([]), told, disk, rows)
