"""Stacks of equal layers for `play`: files of one to eight layers over a disk of each kind, a script, and what is printed of it, worked by hand.

Each layer hands its operations down, counts `put` in its memory, and writes its number to the second row where it is formatted and where it recovers. So what is
printed shows the order in which layers are woken, that all disk calls of a waking are counted by one count, that a background step of a lower layer leaves the
memories above it, and that each memory is zeros after power failed: `seen` answers ff where the counts of two layers differ."""

BOTTOM = {
    "put": "call write(0:8, row(a)); call flush();",
    "note": "call write(1:8, row(a));",
    "get": "let r = call read(0:8); return r[0:1];",
    "last": "let r = call read(1:8); return r[0:1];",
    "seen": "return m;",
    "tidy": "call flush();",
}
UPPER = {
    "put": "call put(a);",
    "note": "call note(a);",
    "get": "let x = call get(); return x;",
    "last": "let x = call last(); return x;",
    "seen": "let c = call seen(); return pick((c == m), c, 255:8);",
    "tidy": "call tidy();",
}
LAYER = """layer l{number} {{
  state v : word 8;
  state w : word 8;
  state n : word 8;
  memory m : word 8;
  format {{ {noted} }}
  op put(a : word 8) spec {{ v = a; n = (n + 1:8); }} impl {{ {put} m = (m + 1:8); }}
  op note(a : word 8) spec {{ w = a; }} impl {{ {note} }}
  op get() -> word 8 spec {{ return v; }} impl {{ {get} }}
  op last() -> word 8 spec {{ return w; }} impl {{ {last} }}
  op seen() -> word 8 spec {{ return n; }} impl {{ {seen} }}
  op tidy() spec {{ }} impl {{ {tidy} }}
  crash {{ n = 0:8; }}
  tick sweep {{ {tidy} }}
  recover {{ {noted} }}
  relate 1:1;
}}
"""


def file(kind, count):
    """So many layers over a disk of the kind."""
    layers = []
    for number in range(1, count + 1):
        noted = f"call write(1:8, row({number}:8));" if number == 1 else f"call note({number}:8);"
        layers.append(LAYER.format(number=number, noted=noted, **(BOTTOM if number == 1 else UPPER)))
    return "\n".join(["yggdrasil 1;", f"disk {kind} 2 of 1 of 8;", *layers])


def script(count):
    """What is done with them: the second row is read, which formatting left; then `put` twice around a background step of each layer; then power fails in the
    third `put`, and in the waking after it before the topmost layer recovers; and then between two commands."""
    lines = [
        "keep 1111",
        "call last",
        "call put 05",
        *(f"tick l{number}.sweep" for number in range(1, count + 1)),
        "call put 06",
        "call seen",
        "call put 07",
        "fail within 0",
        f"fail before {count - 1}",
        "call seen",
        "call get",
        "lost",
        "call last",
    ]
    return "".join(f"{line}\n" for line in ["ygg-script 1", *lines, "end"])


def printed(kind, count):
    """What is printed of that. The third `put` takes the third pick of an asynchronous disk and the first of a synchronous one."""
    noted = [f"write 1 {number:02x} kept" for number in range(1, count + 1)]
    lines = [
        *("read 1", f"answer {count:02x}"),
        *("write 0 05 kept", "flush", "done"),
        *(["flush", "done"] * count),
        *("write 0 06 kept", "flush", "done"),
        "answer 02",
        *("write 0 07 cut kept", "down"),
        *(*noted[:-1], "down"),
        *(*noted, "up"),
        "answer 00",
        *("read 0", "answer 07"),
        *("down", *noted, "up"),
        *("read 1", f"answer {count:02x}"),
        f"played {9 + count}",
    ]
    return "".join(f"{line}\n" for line in lines)


def cases():
    """Files of one, two, three and eight layers over a disk of each kind, with a script of each and what is printed of it."""
    for kind in ("sync", "async"):
        for count in (1, 2, 3, 8):
            yield file(kind, count), script(count), printed(kind, count)
