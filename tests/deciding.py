"""What `decide` prints of each obligation beside what `verify` prints, and tools/verify-all beside `verify`, also where a job is killed or is no verdict."""
import os
import subprocess
import tempfile
import pathlib

STAND_IN = """#!/bin/sh
case "$1 $3" in
"decide {name}") {does} ;;
esac
exec '{ygg}' "$@"
"""


def asked(ygg, *words):
    """The status and the standard output of a command."""
    done = subprocess.run([ygg, *words], stdin=subprocess.DEVNULL, capture_output=True, timeout=600)
    return done.returncode, done.stdout


def all_of(top, ygg, *words):
    """The status, the standard output and the standard error of tools/verify-all over a program."""
    environment = {**os.environ, "YGG": str(ygg)}
    command = [str(top / "tools" / "verify-all"), *words]
    done = subprocess.run(command, stdin=subprocess.DEVNULL, capture_output=True, timeout=600, env=environment)
    return done.returncode, done.stdout, done.stderr.decode("latin-1")


def undecided(ygg, file, budget):
    """What is wrong of what `decide` prints of the obligations of a file within a budget, or None."""
    _, whole = asked(ygg, "verify", str(file), *budget)
    lines, last, schedule = whole.partition(b"refuted ")
    for line in lines.splitlines(keepends=True):
        verdict, *name = line.decode().split()
        if verdict not in ("holds", "fails", "spent"):
            continue
        status, printed = asked(ygg, "decide", str(file), name[0], *budget)
        first, rest = printed[: len(line)], printed[len(line):]
        if (status, first) != ({"holds": 0, "fails": 1, "spent": 3}[verdict], line):
            return f"{name[0]}: {status}, {printed[:200]!r}, wanted {line!r}"
        if verdict != "fails" and rest != b"":
            return f"{name[0]}: {rest[:200]!r} stands behind its line"
        if verdict == "fails" and unshown(ygg, file, name[0], rest):
            return f"{name[0]}: {unshown(ygg, file, name[0], rest)}"
        if last + schedule and (last + schedule).startswith(b"refuted " + name[0].encode() + b"\n") and rest != last + schedule:
            return f"{name[0]}: {rest[:200]!r}, wanted {(last + schedule)[:200]!r}"
    return None


def unshown(ygg, file, name, rest):
    """What is wrong of what stands behind the line of an obligation that fails, or None: a schedule of it that `replay` shows."""
    head, _, schedule = rest.partition(b"\n")
    if head != b"refuted " + name.encode():
        return f"{head!r} stands behind its line"
    with tempfile.NamedTemporaryFile() as held:
        held.write(schedule)
        held.flush()
        found = asked(ygg, "replay", str(file), held.name)
    return None if found == (1, b"shows " + name.encode() + b"\n") else f"{found}"


def apart(top, ygg, file, budget):
    """What is wrong of what tools/verify-all prints of a file within a budget, or None."""
    found, wanted = all_of(top, ygg, "-j", "3", str(file), *budget)[:2], asked(ygg, "verify", str(file), *budget)
    return None if found == wanted else f"{found}, wanted {wanted}"


def ended(top, ygg, does, status, words):
    """What is wrong where the job of one obligation of examples/pair.ygg does this instead, or None."""
    with tempfile.TemporaryDirectory() as name:
        stand_in = pathlib.Path(name) / "ygg"
        stand_in.write_text(STAND_IN.format(name="pair.call.put", does=does, ygg=ygg))
        stand_in.chmod(0o755)
        found = all_of(top, stand_in, "-j", "2", str(top / "examples" / "pair.ygg"))
    is_right = found[0] == status and "pair.call.put: ygg decide " + words in found[2] and b"pair.call.put" not in found[1]
    return None if is_right else f"{found}, wanted {status} and {words!r}"


def cases(top, ygg):
    """All cases, each by its name, and what is wrong of it, or None."""
    files = sorted((top / "examples").glob("*.ygg"))
    for file in files:
        yield f"decide the obligations of {file.name}", undecided(ygg, file, [])
        yield f"tools/verify-all {file.name}", apart(top, ygg, file, [])
    pair = top / "examples" / "pair.ygg"
    for budget in ("1", "2", "10000000"):
        yield f"decide the obligations of pair.ygg within {budget}", undecided(ygg, pair, [budget])
        yield f"tools/verify-all pair.ygg {budget}", apart(top, ygg, pair, [budget])
    for words, refused in (
        (["decide", pair, "pair.nop"], b"74 0:2"),
        (["decide", pair, "pair.nop", "7"], b"74 0:2"),
        (["decide", pair, "pair.init", "0"], b"72 0:3"),
        (["decide", pair, "pair.init", "10000001"], b"72 0:3"),
        (["decide", pair, "pair.nop", "07"], b"72 0:3"),
        (["decide", "absent", "pair.init", "+7"], b"72 0:3"),
        (["decide", "absent", "pair.init"], b"73 0:1"),
        (["decide", pair], b"71 0:0"),
        (["decide", pair, "pair.init", "7", "7"], b"71 0:0"),
    ):
        found = asked(ygg, *map(str, words))
        yield f"the words {words[2:]} of decide", None if found == (2, b"refused " + refused + b"\n") else f"{found}, wanted {refused!r}"
    yield "tools/verify-all of an absent file", apart(top, ygg, top / "absent", [])
    yield "tools/verify-all within no budget", apart(top, ygg, pair, ["x"])
    yield "tools/verify-all, a job that is killed", ended(top, ygg, "kill -9 $$", 137, "was killed by signal 9")
    yield "tools/verify-all, a job without memory", ended(top, ygg, "exit 5", 5, "ended with 5")
    yield "tools/verify-all, a job without a verdict", ended(top, ygg, "exit 0", 1, "ended with 0")
