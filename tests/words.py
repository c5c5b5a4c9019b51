"""What stands on standard error, and what `format` and `run` leave alone.

Each number of a refusal has a case here, by which words it is made and what a person is told; so have habits from other languages, words that are no command,
files that can't be read or written, and budgets that are spent. The numbers of the table in the code, of `ygg --help` and of these cases are the same."""
import fcntl
import os
import pathlib
import re
import resource
import signal
import subprocess
import tempfile

TOP = pathlib.Path(__file__).resolve().parent.parent
PAIR = (TOP / "examples" / "pair.ygg").read_text()
FAULT = (4, "fault device\n")


def line(number, text, of=None):
    """A text with another line in the place of one."""
    lines = (of or PAIR).split("\n")
    lines[number - 1] = text
    return "\n".join(lines)


def refused_files():
    """Texts of layer files, each with its refusal and what is told."""
    yield "\ufeff" + PAIR, "1 1:1", ["file:1:1: a byte that isn't ASCII [1]", "byte order mark"]
    yield line(1, "# naïve"), "1 1:5", ["comments too are plain ASCII"]
    yield line(8, "  State x : word 8;"), "2 8:3", ["no token begins so [2]", "small letters"]
    yield line(11, "    x = a; // note"), "2 11:12", ["a comment begins with #"]
    yield line(11, "    x = 08:8;"), "2 11:9", ["no leading zeros"]
    yield line(6, "disk async 5 of 1 of 8"), "3 7:1", ["no valid file goes on with this [3]", "expected `;` after line 6", "7 | layer pair {", "| ^^^^^\n"]
    yield line(33, "    if c[0:1] == 1:8 {"), "3 33:15", ["each operator has brackets of its own: (a == b)"]
    yield line(33, "    if (c[0:1] = 1:8) {"), "3 33:16", ["`==` compares"]
    yield line(33, "    if ((c[0:1] == 1:8) && (c[0:1] == 1:8)) {"), "3 33:26", ["`&` is and"]
    yield line(41, "    } else if (c[0:1] == 1:8) {\n    }"), "3 41:12", ["there is no `else if`"]
    yield line(11, "    x = 1;"), "3 11:10", ["a number has a width: 1:8"]
    yield line(11, "    x = 0x10;"), "3 11:10", ["numbers are decimal"]
    yield line(9, "  memory m : word 8;\n  start {\n  }"), "3 10:3", ["a layer's parts stand in this order: state, start, memory"]
    yield PAIR.rstrip("}\n") + "\n", "3 45:1", ["the file ends too early"]
    yield line(26, "    return pick(i, y, z);"), "4 26:23", ["a name that means nothing here [4]", "state is seen in spec"]
    yield line(9, "  state x : word 8;"), "5 9:9", ["this name is taken already [5]"]
    yield line(14, "    call write(1:4, row(a));"), "6 14:16", ["widths differ", "write wants word 8 (a disk address) here, and this is word 4"]
    yield line(11, "    x = 300:8;"), "6 11:9", ["300 doesn't fit in 8 bits"]
    yield line(11, "    x = (a + 1:4);"), "6 11:12", ["on the left is word 8, on the right word 4"]
    yield line(14, "    call write(1:8, a);"), "7 14:21", ["types differ", "write wants row 1 of 8 here, and this is word 8", "row(v) a row of a word"]
    yield line(11, "    x = row(a);"), "7 11:9", ["x is word 8, and this is row 1 of 8"]
    yield line(29, "    return r;"), "7 29:12", ["the answer is word 8, and this is row 1 of 8", "r[0:1] is a word of a row"]
    yield line(14, "    call write(1:8);"), "7 14:10", ["write takes word 8 (a disk address) and row 1 of 8"]
    yield line(6, "disk async 500 of 1 of 8;"), "8 6:12", ["a number out of its range [8]", "a disk has 1 to 256 rows"]


STACK = """yggdrasil 1;
disk async 4 of 2 of 8;
def next(n : word 8) -> word 8 = (n + 1:8);
layer base {
  state x : word 8;
  state t : table 4 of 2 of 8;
  op get() -> word 8 spec {
    return x;
  } impl {
    let r = call read(0:8);
    return r[0:1];
  }
  op put(v : word 8, w : row 2 of 8) spec {
    x = v;
  } impl {
  }
  relate 1:1;
}
layer top {
  state b : word 1;
  state r : row 2 of 8;
  memory m : word 8;
  op go(a : word 8) spec {
  } impl {
IMPL
  }
RELATE
}
"""


def mistyped():
    """Statements of an implementation and lines of a relation whose types don't fit, each with its refusal and both types: they follow from declarations."""
    stated = (("let v = call get(); m = row(v);", "7 25:25", "m is word 8, and this is row 1 of 8"),
              ("let v = call get(); if v { }", "6 25:24", "a condition is a bit (word 1), and this is word 8"),
              ("let k = call get(); let v = k; m = fill(3, v);", "7 25:36", "m is word 8, and this is row 3 of 8"),
              ("call put(m, row(m));", "7 25:13", "put wants row 2 of 8 here, and this is row 1 of 8"),
              ("let v = call put(m, row(m, m));", "7 25:14", "put has no answer"),
              ("call put(m);", "7 25:6", "put takes word 8 and row 2 of 8"),
              ("let v = call get(m);", "7 25:14", "get takes no arguments"),
              ("m = next(1:4);", "6 25:10", "next wants word 8 here, and this is word 4"),
              ("m = next(m, m);", "7 25:5", "next takes word 8"),
              ("m = (next(m) == m);", "6 25:5", "m is word 8, and this is word 1"),
              ("let q = row(m, a); m = q;", "7 25:24", "m is word 8, and this is row 2 of 8"),
              ("let q = row(m, a); q[0:1] = (a < m);", "6 25:29", "that part of q is word 8, and this is word 1"),
              ("for i:4 below 9 { m = i; }", "6 25:23", "m is word 8, and this is word 4"),
              ("m[0:1] = m;", "7 25:2", "what stands before the index is word 8, which has no parts"),
              ("m = resize(row(m), 8);", "7 25:12", "resize takes a word, and this is row 1 of 8"),
              ("m = call get() + m;", "3 25:16", "expected `;`"))
    related = (("(low.t == b)", "7 27:15", "on the left is table 4 of 2 of 8, on the right word 1"),
               ("low.x", "6 27:8", "what is to hold is a bit (word 1), and this is word 8"),
               ("(low.t[0:8] == r[0:1])", "7 27:20", "on the left is row 2 of 8, on the right word 8"),
               ("(pick(b, low.x, r) == r)", "7 27:24", "both values of pick have one type: here word 8, and this is row 2 of 8"),
               ("(pick(m, low.x, m) == m)", "6 27:14", "what pick tests is a bit (word 1), and this is word 8"),
               ("(row(low.x, b) == r)", "6 27:20", "a row's words have one width: here word 8, and this is word 1"),
               ("(low.x => b)", "6 27:15", "on the left is word 8, on the right word 1"),
               ("((low.x + m) == row(m, m))", "7 27:21", "on the left is word 8, on the right row 2 of 8"),
               ("all(i:2 below 4, low.t[i])", "7 27:25", "what is said of each number is a bit (word 1), and this is row 2 of 8"),
               ("(~r == r)", "7 27:10", "`~` takes a word, and this is row 2 of 8"),
               ("(r[r] == low.x)", "7 27:11", "an index is a word, and this is row 2 of 8"),
               ("(low.x[0:1] == m)", "7 27:14", "what stands before the index is word 8, which has no parts"),
               ("(0:65 == low.x)", "6 27:11", "a word has 1 to 64 bits"))
    for text, refusal, told in stated:
        yield STACK.replace("IMPL", text).replace("RELATE", "relate 1:1;"), refusal, [told]
    for text, refusal, told in related:
        yield STACK.replace("IMPL", "").replace("RELATE", f"relate {text};"), refusal, [told]


def unexpected():
    """Texts with a token with which no file goes on, each with its refusal and what may stand there."""
    yield line(6, "disk async of 1 of 8;"), "3 6:12", ["expected a number\n"]
    yield line(6, "disk ram 5 of 1 of 8;"), "3 6:6", ["expected `sync` or `async`\n"]
    yield line(8, "  state x : byte 8;"), "3 8:13", ["expected a type\n"]
    yield line(11, "    let = a;"), "3 11:9", ["expected a name"]
    yield line(26, "    return ;"), "3 26:12", ["expected an expression\n"]
    yield line(33, "    if c[0:1] == 1:8 {"), "3 33:15", ["expected `{` or `[`; each operator has brackets of its own"]
    yield line(11, "    x = (a b);"), "3 11:12", ["expected an operator, `(` or `[`"]
    yield PAIR.rstrip("}\n") + "\n", "3 45:1", ["expected `settled`, `maybe` or `}`; the file ends too early"]
    yield "", "3 1:1", ["expected `yggdrasil`"]
    yield line(33, "    if (c) {"), "3 33:10", ["expected an operator, `(` or `[`; brackets hold two operands and their operator: (a == b)"]
    yield line(15, "    flush();"), "3 15:10", ["expected `[` or `=`; an operation is called with `call`: call write(0:8, r);"]
    yield line(25, "  op get(i : word 1) -> word 8 {"), "3 25:32", ["expected `spec`\n"]
    yield line(26, "    return pick(i, x, y) + 1;"), "3 26:26", ["expected `[` or `;`; each operator has brackets"]


def unknown():
    """Names that mean nothing where they stand, each with its refusal and what may help."""
    yield STACK.replace("IMPL", "let first = call get(); m = fisrt;").replace("RELATE", "relate 1:1;"), "4 25:29", ["did you mean first? state is seen in spec"]
    yield STACK.replace("IMPL", "m = get();").replace("RELATE", "relate 1:1;"), "4 25:5", ["an operation is called with `call`: let r = call read(0:8);"]
    yield STACK.replace("IMPL", "call write(m, row(m, m));").replace("RELATE", "relate 1:1;"), "4 25:6", ["`call` takes an operation of the layer below"]
    yield line(26, "    return true;"), "4 26:12", ["1:1 is true, and 0:1 is false"]


def refused_layers():
    """The same of limits, in small files."""
    head = "yggdrasil 1;\ndisk sync 1 of 1 of 1;\nlayer c {\nstate s : word 1;\n"
    yield head + "relate all(i:12 below 4096, all(j:4 below 7, 1:1));\n}\n", "9 5:8", ["too long with calls and loops written out"]
    yield head + "op go() spec { for i:4 below 9 { let b = choose; s = b; } } on crash { } impl { }\nrelate 1:1;\n}\n", "10 5:4", ["more than 8 choices [10]"]


def texts():
    """Cases of texts that are refused: the words, the files, the refusal, and what is told."""
    for text, refusal, told in (*refused_files(), *mistyped(), *unexpected(), *unknown(), *refused_layers()):
        yield ["verify", "file"], {"file": text}, refusal, told
    script = lambda text: {"file": PAIR, "script": text}
    play = ["play", "file", "script"]
    yield play, script("ygg-script 1\r\nend\r\n"), "41 1:1", ["script:1:1:", "a carriage return"]
    yield play, script("ygg-script 1\nend"), "41 2:1", ["the last line too ends with a line feed"]
    yield play, script("ygg-script 1\ncall  get 0\nend\n"), "41 2:1", ["one blank stands between words"]
    yield play, script("ygg-script 1\n# why\nend\n"), "41 2:1", ["there are no comments here"]
    yield play, script("ygg-script 1\ncall took 0\nend\n"), "42 2:1", ["the topmost layer has no such operation"]
    yield play, script("ygg-script 1\ncall put FF 01\nend\n"), "43 2:1", ["small letters: ff and not FF"]
    yield play, script("ygg-script 1\ncall put 0x01 01\nend\n"), "43 2:1", ["no 0x"]
    yield play, script("ygg-schedule 1\nend\n"), "41 1:1", ["this is a schedule, which replay takes"]
    yield play, script(PAIR), "41 1:1", ["a script begins with the line ygg-script 1"]
    yield play, script("ygg-script 1\nget 0\nend\n"), "41 2:1", ["lines are: call OPERATION VALUES, tick LAYER.NAME"]
    yield play, script("ygg-script 1\nlost\nfail 3\nend\n"), "41 3:1", ["fail before N, fail within N"]
    yield play, script("ygg-script 1\ncall get 0\nfail before 7\nend\n"), "44 3:1", ["fewer disk calls", "the line above does makes 1 disk call: read\n"]
    again = "ygg-script 1\ncall put 01 02\nfail before 5\nfail before 9\nend\n"
    yield play, script(again), "44 4:1", ["does makes 8 disk calls: read, read, read, write, write, flush, write, flush\n"]
    many = "ygg-script 1\ncall get 0\ncall put 01 02\nlost\nfail before 7\nend\n"
    yield play, script(many), "44 5:1", ["does makes 1 disk call: read\n"]
    replay = ["replay", "file", "schedule"]
    found = lambda text: {"file": PAIR, "schedule": text}
    first = "ygg-schedule 1\nobligation pair.init\n"
    yield replay, found("holds pair.init\n" + first + "end\n"), "31 1:1", ["schedule:1:1:", "sed -n '/^ygg-schedule/,$p'"]
    yield replay, found("ygg-script 1\nend\n"), "31 1:1", ["this is a script, which play and run take"]
    yield replay, found("ygg-schedule 1\r\n"), "31 1:1", ["a carriage return"]
    yield replay, found("ygg-schedule 1\nobligation pair.get\n"), "32 2:1", ["a schedule of this file"]
    yield replay, found("ygg-schedule 1\nobligation pair.call.get\nstate x 0\u007a\n"), "33 3:1", ["hasn't the shape"]
    yield replay, found(first), "34 3:1", ["the schedule ends too early"]
    check = ["check", "file", "cert"]
    held = lambda text: {"file": PAIR, "cert": text}
    yield check, held(PAIR), "21 1:1", ["cert:1:1: this is no certificate", "ygg certify FILE > CERT"]
    yield check, held("ygg-cert 1\no other.init 4\n"), "22 2:1", ["isn't one of this file", "was the layer file changed"]
    yield check, held("ygg-cert 1\n"), "24 2:1", ["ends too early"]
    yield ["solve", "cnf"], {"cnf": "1 0\n"}, "61 1:1", ["cnf:1:1: no header of clauses"]
    yield ["solve", "cnf"], {"cnf": "p cnf 1 1\n2 0\n"}, "62 2:1", ["no such number"]
    yield ["solve", "cnf"], {"cnf": "p cnf 1 1\n1 0 1 0\n"}, "63 2:5", ["more clauses than the header says"]


def misnamed():
    """Words that name no obligation of a file: the nearest name is told, and of how many."""
    for name, word, count, near in (("pair", "cut.put", 7, "pair.cut.put"), ("pair", "pair.cal.gte", 7, "pair.call.get"), ("pair", "pear.idel", 7, "pair.idle"),
                                    ("flag", "again", 5, "flag.again"), ("collector", "store.cuttic.collect", 9, "store.cuttick.collect"),
                                    ("ledger", "ledger.int", 21, "ledger.init"), ("accounts", "a" * 300, 0, None)):
        text = (TOP / "examples" / f"{name}.ygg").read_text()
        hint = f'of its {count} the nearest is "{near}"; ' if near else ""
        yield ["decide", "file", word], {"file": text}, "74 0:2", [f"no obligation of this name; {hint}ygg verify FILE 1 lists the names"]


def words():
    """Cases of words that are refused."""
    files = {"file": PAIR, "other": PAIR}
    for help in ([], ["help"], ["-h"]):
        yield help, files, "71 0:0", ["usage:\n", "ygg verify FILE [BUDGET]", "ygg run FILE CERT IMAGE SCRIPT", "ygg --help"]
    yield ["-V"], files, "71 0:0", ["did you mean --version?"]
    yield ["verfy", "file"], files, "71 0:0", ['"verfy" is no command; did you mean verify?']
    yield ["nonsense"], files, "71 0:0", ['"nonsense" is no command', "usage:\n"]
    yield ["replay", "file"], files, "71 0:0", ["replay takes other words", "ygg replay FILE SCHEDULE"]
    yield ["verify", "--help"], files, "73 0:1", ["usage: ygg verify FILE [BUDGET]"]
    yield ["verify", "nope.ygg"], files, "73 0:1", ['ygg: "nope.ygg": no such file']
    yield ["verify", "file", "other"], files, "72 0:2", ["the second word is a budget, a number from 1 to 10000000", '"other" is none']
    yield ["demo", "65"], files, "72 0:1", ["from 1 to 64"]
    yield ["cnf", "file", "cut.put"], files, "74 0:2", ['no obligation of this name; of its 7 the nearest is "pair.cut.put"; ygg verify FILE 1 lists the names']
    yield from misnamed()
    yield ["decide", "file"], files, "71 0:0", ["decide takes other words", "ygg decide FILE OBLIGATION [BUDGET]"]
    yield ["verify", "file"], {"file": " " * 1048577}, "11 0:1", ['"file": the file is too large', "1048576"]


class Folder:
    """A folder with files, in which ./ygg is run."""

    def __init__(self, ygg, path, files):
        self.ygg, self.path = ygg, pathlib.Path(path)
        for name, text in files.items():
            (self.path / name).write_bytes(text.encode("utf-8") if isinstance(text, str) else text)

    def start(self, *words, before=None):
        return subprocess.Popen([self.ygg, *words], cwd=self.path, stdin=subprocess.DEVNULL, stdout=subprocess.PIPE, stderr=subprocess.PIPE, preexec_fn=before)

    def asked(self, *words, before=None):
        """The status, standard output, and standard error of a command."""
        with self.start(*words, before=before) as child:
            out, error = child.communicate(timeout=60)
            return child.returncode, out.decode(), error.decode()


def differs(found, status, printed, told):
    """What differs, or None: what is printed begins so, and all these are told."""
    if found[0] != status or not found[1].startswith(printed):
        return f"{found[:2]}, wanted {status}, {printed!r}"
    missing = [text for text in told if text not in found[2]]
    return f"standard error is {found[2]!r}, without {missing}" if missing or bool(found[2]) != bool(told) else None


def numbers_of(text, pattern):
    return sorted(int(number) for number in re.findall(pattern, text))


def tables(ygg, tried):
    """What differs between the numbers of the table in the code, of `--help` and of the cases here."""
    code = (TOP / "crates" / "ygg_messages" / "src" / "meanings.rt").read_text()
    meant = numbers_of(code, r"\(\s*(\d+),\s*\"")
    told = subprocess.run([ygg, "--help"], capture_output=True, text=True, timeout=60).stdout.split("columns from 1:\n")[1]
    helped = numbers_of(told, r"(?:^|\n| {2})\s*(\d+)  (?=\w)")
    yield "the numbers of --help", None if helped == meant else f"{helped}, wanted {meant}"
    yield "the numbers tried", None if sorted(tried) == meant else f"{sorted(tried)}, wanted {meant}"


def refusals(ygg):
    """Cases of refusals, each by its words, and what is wrong of it, or None."""
    tried = {51, 52, 53}
    for command, files, refusal, told in (*texts(), *words()):
        tried.add(int(refusal.split()[0]))
        with tempfile.TemporaryDirectory() as path:
            found = Folder(ygg, path, files).asked(*command)
        yield f"{' '.join(command)}: {refusal}, {told[0]}", differs(found, 2, f"refused {refusal}\n", told)
    yield from tables(ygg, tried)


def unmade(folder, name):
    """What is told of `format` to a name under which something stands that isn't an image."""
    path = folder.path / name
    before = path.read_bytes() if path.is_file() else None
    return folder.asked("format", "file", name), before, path.read_bytes() if path.is_file() else None


def formats(folder):
    """`format` over what isn't an image leaves it as it is; over an image it makes another one."""
    (folder.path / "folder").mkdir()
    (folder.path / "loose").symlink_to("nowhere")
    (folder.path / "to_file").symlink_to("other")
    (folder.path / "disk").write_bytes(bytes(100000))
    for name, text in (("file", "exists and is no image"), ("other", "ygg -f format"), ("to_file", "is no image"), ("disk", "is no image"),
                       ("folder", "cannot be opened: Is a directory"), ("loose", "a link that leads to nothing"), ("/dev/null", "no regular file")):
        found, before, after = unmade(folder, name)
        yield f"format over {name}", differs(found, *FAULT, [text]) or (None if before == after else "it was changed")
    yield "the link to nothing", None if (folder.path / "loose").is_symlink() and not (folder.path / "nowhere").exists() else "it was followed"
    (folder.path / "empty").write_bytes(b"")
    (folder.path / "zeros").write_bytes(bytes(40))
    (folder.path / "to_image").symlink_to("image")
    for name in ("image", "image", "empty", "zeros", "to_image"):
        yield f"format to {name}", differs(folder.asked("format", "file", name), 0, "formatted\n", [])

    def small():
        signal.signal(signal.SIGXFSZ, signal.SIG_IGN)
        resource.setrlimit(resource.RLIMIT_FSIZE, (64, 64))

    yield "format without room", differs(folder.asked("format", "file", "small", before=small), *FAULT, ['"small" cannot be written: File too large'])


def in_use(folder):
    """Two programs on one image: the second one says so, and writes nothing."""
    whole = (folder.path / "image").read_bytes()
    with open(folder.path / "image", "rb") as held:
        fcntl.flock(held, fcntl.LOCK_EX)
        for words in (["format", "file", "image"], ["run", "file", "cert", "image", "script"]):
            found = folder.asked(*words)
            same = (folder.path / "image").read_bytes() == whole
            yield f"{words[0]} of an image in use", differs(found, *FAULT, ['ygg: "image" is in use\n']) or (None if same else "it was changed")
    (folder.path / "long").write_text("ygg-script 1\n" + "call put 01 02\n" * 30000 + "end\n")
    children = [folder.start("run", "file", "cert", "image", "long") for _ in range(2)]
    ends = sorted((child.communicate()[0].decode().splitlines()[-1], child.returncode) for child in children)
    yield "two runs at once", None if ends == [("fault device", 4), ("ran 30000", 0)] else f"{ends}"


def images(folder):
    """Refusals and faults of `run` on images."""
    run = ["run", "file", "cert", "image", "script"]
    whole = (folder.path / "image").read_bytes()
    spare = whole[:-1] + b"\1"
    kinds = (b"", 51, "isn't formatted to its end"), (whole + whole, 52, "of a disk of another size"), (spare, 53, "a bit set that no row has")
    for image, number, text in kinds:
        (folder.path / "image").write_bytes(image)
        yield f"run on an image: {number}", differs(folder.asked(*run), 2, f"refused {number} 0:3\n", ['ygg: "image": ', text])
    (folder.path / "image").write_bytes(whole)
    swapped = folder.asked("run", "file", "image", "cert", "script")
    yield "run with its words swapped", differs(swapped, 2, "refused 21 1:1\n", ["image:1:1: this is no certificate"])
    absent = folder.asked("run", "file", "cert", "none", "script")
    yield "run without an image", differs(absent, 2, "refused 73 0:3\n", ['"none": no such file; ygg format FILE IMAGE makes one'])
    (folder.path / "failing").write_text("ygg-script 1\ncall put 01 02\nfail before 2\nend\n")
    failing = folder.asked("run", "file", "cert", "image", "failing")
    text = "run takes none of these, since on a real disk power fails by itself"
    yield "run of a script that names a failure", differs(failing, 2, "refused 41 3:1\n", [text])
    (folder.path / "image").chmod(0o444)
    (folder.path / "file").chmod(0o644)
    user = (lambda: os.setuid(65534)) if os.geteuid() == 0 else None
    yield "run on an image that may not be written", differs(folder.asked(*run, before=user), *FAULT, ['"image" cannot be opened: Permission denied'])
    (folder.path / "image").chmod(0o644)
    yield "verify of a folder", differs(folder.asked("verify", "folder"), 4, "fault library\n", ['"folder" is no regular file'])


def spends(folder):
    """Budgets that are spent."""
    found = folder.asked("verify", "file", "1")
    yield "verify within 1", differs(found, 3, "", ["ygg: gave up on pair.", "after 1 learned clauses", "ygg verify file 10000000"])
    found = folder.asked("verify", "file")
    yield "verify within the usual budget", differs(found, 0, "holds pair.init\n", [])
    (folder.path / "swapped").write_text(line(26, "    return pick(i, x, y);"))
    found = folder.asked("verify", "swapped", "1")
    what = ["ygg: gave up on pair.again (and 1 more) after 1 learned clauses; nothing is known about it", "ygg verify swapped 10000000"]
    yield "verify within 1 of what fails too", differs(found, 1, "holds pair.init\n", what)
    found = folder.asked("verify", "swapped")
    yield "verify of what fails, within the usual budget", differs(found, 1, "holds pair.init\n", [])
    found = folder.asked("certify", "file", "1")
    what = ["gave up on pair.again (and 1 more) after 1 learned", "Try: ygg certify file 10000000, smaller"]
    yield "certify within 1", differs(found, 3, "holds pair.init\n", what)
    found = folder.asked("decide", "file", "pair.again", "1")
    what = ["gave up on pair.again after 1 learned", "Try: ygg decide file pair.again 10000000, smaller"]
    yield "decide within 1", differs(found, 3, "spent pair.again 1\n", what)
    (folder.path / "cnf").write_text("p cnf 2 4\n1 2 0\n-1 2 0\n1 -2 0\n-1 -2 0\n")
    found = folder.asked("solve", "cnf", "1")
    yield "solve within 1", differs(found, 3, "undecided\n", ["ygg: gave up after 1 learned clauses", "ygg solve cnf 10000000"])


def told(ygg):
    """All cases, each by its name, and what is wrong of it, or None."""
    yield from refusals(ygg)
    with tempfile.TemporaryDirectory() as path:
        os.chmod(path, 0o755)
        folder = Folder(ygg, path, {"file": PAIR, "other": "a file of another kind\n", "script": "ygg-script 1\ncall put 01 02\nend\n"})
        (folder.path / "cert").write_text(folder.asked("certify", "file")[1])
        yield from formats(folder)
        yield from in_use(folder)
        yield from images(folder)
        yield from spends(folder)
