"""What build/release makes: the same bytes twice, and an archive that is unpacked, installed and used from an empty folder.

Where the tests run as root, a user who isn't root does that.

It is made of a stand-in for the proved program, which prints a version and a help, and else its words. Nothing is proved.
"""
import os
import pathlib
import re
import shutil
import subprocess
import tarfile
import tempfile

import programs

NOBODY = 65534
PROGRAM = """#!/bin/sh
case $* in
--version) echo ygg 0.1.0 ;;
--help) printf 'ygg verifies.\\n\\n  ygg verify FILE   decides\\n\\nverify prints a line\\n\\nHow commands end\\n\\nWhy something is refused\\n' ;;
*) echo program "$@" ;;
esac
"""


def made(place, top):
    """The archive that is made in a small repository with the examples of this one."""
    for name in ("completions", "examples"):
        shutil.copytree(top / name, place.top / name, dirs_exist_ok=True)
    shutil.copy(top / "INSTALL.md", place.top)
    for name in ("picture", "verify-all"):
        shutil.copy(top / "tools" / name, place.top / "tools")
    place.stand_in("ygg")
    place.write("build/out/ygg", PROGRAM, -30, 0o755)
    place.write("build/program", "#!/bin/sh\nexit 0\n", 0, 0o755)
    archive = place.top / "build" / "out" / "ygg-0.1.0-x86_64.tar.gz"
    archive.unlink(missing_ok=True)
    done = subprocess.run([place.top / "build" / "release"], stdin=subprocess.DEVNULL, capture_output=True, text=True, timeout=60)
    return archive if done.returncode == 0 else done.stderr


def as_nobody(words, folder):
    """Runs a command in the folder, as nobody where this is root, and answers status, standard output and standard error."""
    how = {"user": NOBODY, "group": NOBODY, "extra_groups": []} if os.geteuid() == 0 else {}
    done = subprocess.run(words, cwd=folder, env={"PATH": "/usr/bin:/bin"}, stdin=subprocess.DEVNULL, capture_output=True, text=True, timeout=60, **how)
    return done.returncode, done.stdout, done.stderr


def used(archive, folder, top):
    """The archive unpacked, installed and used in an empty folder."""
    if os.geteuid() == 0:
        os.chown(folder, NOBODY, NOBODY)
    yield "is unpacked", as_nobody(["tar", "-xzf", str(archive)], folder), (0, "", "")
    unpacked = folder / "ygg-0.1.0-x86_64"
    yield "runs where it is", as_nobody([unpacked / "bin" / "ygg", "verify", "a b"], folder), (0, "program verify a b\n", "")
    prefix = folder / "pre fix"
    yield "is installed", as_nobody([unpacked / "install", prefix], folder), (0, f"installed: {prefix}/bin/ygg\n", "")
    shutil.rmtree(unpacked / "libexec")
    (folder / "ygg").symlink_to(prefix / "bin" / "ygg")
    yield "runs where it was installed, by a link", as_nobody([folder / "ygg", "print", "x"], folder), (0, "program print x\n", "")
    script = prefix / "bin" / "ygg-verify-all"
    yield "has ygg-verify-all, which finds the program", as_nobody([script, "x"], folder), (0, "verified 0\n", "\n")
    yield "has ygg-picture", as_nobody([prefix / "bin" / "ygg-picture", "-"], folder)[::2], (2, "picture: usage: tools/picture [--svg] [--source FILE] < TEXT\n")
    told = "ygg: this program is proved: its proofs were run where the release was made\n"
    yield "says which it is", as_nobody([folder / "ygg", "--version"], folder), (0, "ygg 0.1.0\n", told)
    examples = prefix / "share" / "ygg" / "examples"
    names = sorted(str(path.relative_to(top / "examples")) for path in (top / "examples").rglob("*") if path.is_file())
    yield "has the examples", sorted(str(path.relative_to(examples)) for path in examples.rglob("*") if path.is_file()), names
    page = (prefix / "share" / "man" / "man1" / "ygg.1").read_text()
    headings = ["NAME", "SYNOPSIS", "DESCRIPTION", "EXIT STATUS", "DIAGNOSTICS", "SEE ALSO"]
    yield "has a man page", re.findall(r"(?m)^\.SH (.*)$", page), headings
    yield "refuses a file that was changed", as_nobody([unpacked / "install", prefix], folder)[0] != 0, True


def complete(top):
    """The commands that the completions know, and what bash makes of words."""
    text = (top / "README.md").read_text()
    commands = set(re.findall(r"(?m)^    \./ygg ([a-z]+)", text))
    bash, zsh = ((top / "completions" / name).read_text() for name in ("ygg.bash", "_ygg"))
    yield "bash knows the commands", set(re.search(r"commands='([^']*)'", bash)[1].split()), commands | {"--help", "--version"}
    yield "zsh knows the commands", set(re.findall(r"(?m)^    '([\w-]+):", zsh)), commands | {"--help", "--version"}
    script = 'cd "$1"; source completions/ygg.bash; shift; COMP_WORDS=("$@"); COMP_CWORD=$(($# - 1)); _ygg; printf "%s\\n" "${COMPREPLY[@]}" | sort'
    for words, wanted in [
        (["ygg", "ce"], ["certify"]),
        (["ygg", "verify", "examples/flag"], ["examples/flag.ygg", "examples/flag_two_writes.ygg"]),
        (["ygg", "run", "a", "b", "c", "examples/pair.s"], ["examples/pair.script"]),
        (["ygg", "print", "a", "examples/"], [""]),
    ]:
        done = subprocess.run(["bash", "-c", script, "bash", str(top), *words], stdin=subprocess.DEVNULL, capture_output=True, text=True, timeout=60)
        yield f"completion of {' '.join(words)}", done.stdout.splitlines(), wanted


def cases(top):
    """Each case's name, and what is wrong of it, or None."""
    with tempfile.TemporaryDirectory() as first, tempfile.TemporaryDirectory() as second, tempfile.TemporaryDirectory() as empty:
        os.chmod(first, 0o755)
        one, two = (made(programs.Place(folder, top), top) for folder in (first, second))
        if isinstance(one, str) or isinstance(two, str):
            yield "the release", f"{one}, {two}"
            return
        yield "the release, twice", None if one.read_bytes() == two.read_bytes() else "the bytes differ"
        with tarfile.open(one) as archive:
            modes = {(entry.mode, entry.uname, entry.mtime) for entry in archive}
        yield "owners and times", None if modes == {(mode, "root", 315532800) for mode in (0o755, 0o644)} else f"{modes}"
        for name, found, wanted in used(one, pathlib.Path(empty), top):
            yield f"the release {name}", None if found == wanted else f"{found}, wanted {wanted}"
    for name, found, wanted in complete(top):
        yield name, None if found == wanted else f"{found}, wanted {wanted}"


def main():
    failed = 0
    for name, difference in cases(pathlib.Path(__file__).resolve().parent.parent):
        if difference:
            failed += 1
            print(f"FAIL {name}: {difference}")
    return 1 if failed else 0


if __name__ == "__main__":
    raise SystemExit(main())
