"""tools/picture: the pages and drawings of the texts of tests/pictures/, and of what `explain` prints of each refuted file of examples/ and its folders; texts
that it doesn't take; and pages in chromium, where that is installed.

A page is whole HTML, a drawing whole XML. Neither names anything that would be loaded, neither is too long, and a page has every value of its text. In chromium
a page asks for nothing but itself and no message comes. What it looks like is kept in build/out/pictures/.
"""
import base64
import html.parser
import importlib.machinery
import importlib.util
import json
import os
import pathlib
import re
import shutil
import subprocess
import sys
import tempfile
import xml.etree.ElementTree

MOST = 200_000
# what loads something, in a page or in a style
LOADED = re.compile(r"(?i)https?:|\b(?:src|href|srcset|action|data)\s*=|url\s*\(|@import|<\s*(?:script|link|iframe|object|embed|base|img)\b")
EMPTY = {"meta"}


def asked(top, text, *words, target=subprocess.PIPE):
    """The status, the output and the messages of tools/picture for a text."""
    done = subprocess.run([str(top / "tools" / "picture"), *words], input=text.encode(), stdout=target, stderr=subprocess.PIPE, timeout=60)
    return done.returncode, (done.stdout or b"").decode(), done.stderr.decode()


class Tags(html.parser.HTMLParser):
    """Which tags of a page are open, and what is wrong of those that are closed."""

    def __init__(self):
        super().__init__()
        self.open, self.wrong = [], ""

    def handle_starttag(self, tag, attrs):
        if tag not in EMPTY:
            self.open.append(tag)

    def handle_startendtag(self, tag, attrs):
        pass

    def handle_endtag(self, tag):
        if self.open.pop(-1) != tag:
            self.wrong = self.wrong or f"</{tag}> at {self.getpos()}"


def values_in(text):
    """The values of a text, without the picks of the specification, which are told from one to another."""
    lines = [line for line in text.splitlines() if not line.startswith("picks ")]
    return {value for line in lines for value in re.findall(r"(?<= )[0-9a-f]+(?:[,;][0-9a-f]+)*(?= |$)", line)}


def unlike_page(page, text):
    """What is wrong of a page, or None."""
    tags = Tags()
    tags.feed(page)
    if tags.wrong or tags.open:
        return f"the page isn't whole: {tags.wrong or tags.open}"
    drawings = re.findall(r"<svg .*?</svg>", page, re.S)
    for drawing in drawings:
        xml.etree.ElementTree.fromstring(drawing)
    missing = [value for value in values_in(text) if value not in page]
    return unlike_both(page) or (f"{missing} isn't in the page" if missing else None)


def unlike_drawing(drawing):
    """What is wrong of a drawing alone, or None."""
    root = xml.etree.ElementTree.fromstring(drawing)
    names = [child.tag.rpartition("}")[2] for child in root]
    if root.tag != "{http://www.w3.org/2000/svg}svg" or names[:2] != ["title", "desc"]:
        return f"it begins with {root.tag} {names[:2]}"
    return unlike_both(drawing.replace(' xmlns="http://www.w3.org/2000/svg"', "", 1))


def unlike_both(made):
    found = LOADED.search(made)
    if found:
        return f"it names something that is loaded: {made[found.start() - 20:found.end() + 40]!r}"
    return f"it has {len(made.encode())} bytes" if len(made.encode()) > MOST else None


def undrawn(top, text, *source):
    """What is wrong of the page and the drawing of a text, or None."""
    for words, unlike in (([*source], lambda made: unlike_page(made, text)), (["--svg", *source], unlike_drawing)):
        status, made, told = asked(top, text, *words)
        if (status, told) != (0, ""):
            return f"{words}: {status}, {told!r}"
        if (wrong := unlike(made)) is not None:
            return f"{words}: {wrong}"
    return None


def refused(top, text, *words):
    """What tools/picture says of a text that it doesn't take; else what is wrong."""
    status, made, told = asked(top, text, *words)
    return told if (status, made) == (2, "") and told.count("\n") == 1 else f"{status}, {made[:80]!r}, {told!r}"


def edits(text):
    """Texts that aren't taken, each with the number of the line that is said."""
    lines = text.splitlines()
    words = ("obligation", "low", "run", "call", "power", "left", "picks", "false")
    place = {word: next(at for at, line in enumerate(lines) if line.startswith(word + " ")) for word in words}

    def with_line(at, *new, gone=0):
        return "".join(line + "\n" for line in [*lines[:at], *new, *lines[at + gone:]])

    for word, new in [
        ("call", "jump 0 write"), ("call", "call"), ("call", "call x write 0 00"), ("call", "call 0 write 0 0g kept"), ("call", "call 0 write 0 00 kept twice"),
        ("low", "low view"), ("low", "low  view 00"), ("low", "low view 00 "), ("low", "Low view 00"), ("low", ""), ("power", "power after 3"),
        ("false", "false relate 43:98 02"), ("false", "false relate"), ("false", "false maybe 1:1"), ("false", "false relate 43:98 at 1 02 00"),
        ("picks", "picks 2"),
        ("obligation", "obligation pair"), ("left", "left view"),
    ]:
        yield new, with_line(place[word], new, gone=1), place[word] + 1
    for before, new in [
        ("run", "change view 0 00 01"), ("run", "call 0 flush"), ("low", "left view 00"), ("low", "settled"), ("run", "allowed x 00"), ("left", "call 0 flush"),
        ("picks", "change view 0 00 01"), ("picks", "run recover"), ("picks", "power between"), ("call", "state x 00"), ("obligation", "state x 00"),
    ]:
        yield f"{new} before {before}", with_line(place[before], new), place[before] + 1
    yield "two ends", text + lines[-1] + "\n", len(lines) + 1
    yield "another version", with_line(0, "ygg-explain 2", gone=1), 1
    yield "no text", "", 1


def fronts(top, text):
    """Where a front of a text is taken, or None: it is asked within this process, which is quicker."""
    loader = importlib.machinery.SourceFileLoader("picture", str(top / "tools" / "picture"))
    module = importlib.util.module_from_spec(importlib.util.spec_from_loader("picture", loader))
    sys.modules["picture"] = module
    loader.exec_module(module)
    lines = text.splitlines()
    for end in range(len(lines)):
        try:
            module.Story(lines[:end])
            return f"the first {end} lines are taken"
        except module.Bad as why:
            if not str(why).startswith(f"line {max(1, end + 1)}: "):
                return f"of the first {end} lines it says {why}"
    return None


def texts(top):
    """The texts of tests/pictures/, each with the words that name its file where it is one of examples/."""
    for path in sorted((top / "tests" / "pictures").glob("*.explain")):
        file = top / "examples" / f"{path.stem}.ygg"
        yield path.stem, path.read_text(), ["--source", str(file)] if file.exists() else []


def taken(top):
    """What becomes of texts that are taken and of such as aren't."""
    for name, text, source in texts(top):
        yield f"the picture of {name}", undrawn(top, text, *source)
        yield f"the picture of {name} without its file", undrawn(top, text)
        yield f"fronts of {name}", fronts(top, text)
    name, text, source = next(one for one in texts(top) if one[0] == "pair_broken")
    for title, edited, line in edits(text):
        found = refused(top, edited)
        yield f"a text with {title!r}", None if found.startswith(f"picture: line {line}: ") else f"{found!r}, wanted line {line}"
    line = text[: text.index("false relate")].count("\n") + 1
    found = refused(top, text, "--source", str(top / "examples" / "flag.ygg"))
    yield "another file's text", None if found == f"picture: line {line}: flag.ygg has nothing at {text.splitlines()[line - 1].split()[2]}\n" else repr(found)
    drawing = (top / "examples" / "pair_broken.svg").read_text()
    is_right = asked(top, (top / "tests" / "pictures" / "pair_without_runs.explain").read_text(), "--svg", *source) == (0, drawing, "")
    yield "examples/pair_broken.svg", None if is_right else "it isn't the drawing of tests/pictures/pair_without_runs.explain"
    found = refused(top, text, "--source", "/nowhere")
    yield "an absent file", None if found == "picture: /nowhere: No such file or directory\n" else repr(found)
    for words in (["--png"], ["--svg", "--svg"], ["--source"], ["--source", "a", "--source", "b"], ["x"]):
        found = refused(top, text, *words)
        yield f"the words {words}", None if found.startswith("picture: usage: ") else repr(found)
    with open("/dev/full", "wb") as full:
        found = asked(top, text, target=full)
    yield "a picture where no room is left", None if found == (1, "", "picture: No space left on device\n") else f"{found}"


class Chromium:
    """A chromium without a window, asked by its DevTools protocol over two pipes."""

    def __init__(self, program, folder):
        (child_reads, self.out), (self.into, child_writes) = os.pipe(), os.pipe()
        words = ["--headless=new", "--no-sandbox", "--disable-gpu", "--hide-scrollbars", "--no-first-run", "--remote-debugging-pipe"]
        shell = ["bash", "-c", f'exec "$@" 3<&{child_reads} 4>&{child_writes}', "bash", program, *words, f"--user-data-dir={folder}"]
        nowhere = dict.fromkeys(("stdin", "stdout", "stderr"), subprocess.DEVNULL)
        self.child = subprocess.Popen(shell, **nowhere, pass_fds=(child_reads, child_writes), env={**os.environ, "HOME": folder})
        os.close(child_reads)
        os.close(child_writes)
        self.number, self.events, self.rest = 0, [], b""
        target = self.ask("Target.createTarget", url="about:blank")["targetId"]
        self.session = self.ask("Target.attachToTarget", targetId=target, flatten=True)["sessionId"]
        for domain in ("Page", "Runtime", "Log", "Network"):
            self.ask(f"{domain}.enable")

    def message(self):
        while b"\0" not in self.rest:
            more = os.read(self.into, 1 << 16)
            if not more:
                raise EOFError("chromium has ended")
            self.rest += more
        line, _, self.rest = self.rest.partition(b"\0")
        return json.loads(line)

    def ask(self, method, **params):
        self.number += 1
        asked = {"id": self.number, "method": method, "params": params}
        if hasattr(self, "session"):
            asked["sessionId"] = self.session
        os.write(self.out, json.dumps(asked).encode() + b"\0")
        while (found := self.message()).get("id") != self.number:
            self.events.append(found)
        if "error" in found:
            raise ValueError(f"{method}: {found['error']}")
        return found["result"]

    def shown(self, page, picture, dark=False):
        """Loads a page and keeps what it looks like; says what came besides."""
        self.events = []
        self.ask("Emulation.setEmulatedMedia", features=[{"name": "prefers-color-scheme", "value": "dark" if dark else "light"}])
        self.ask("Emulation.setDeviceMetricsOverride", width=1280, height=900, deviceScaleFactor=1, mobile=False)
        url = page.as_uri()
        failed = self.ask("Page.navigate", url=url).get("errorText")
        while not failed and not any(event.get("method") == "Page.loadEventFired" for event in self.events):
            self.events.append(self.message())
        size = self.ask("Page.getLayoutMetrics")["cssContentSize"]
        clip = {"x": 0, "y": 0, "width": size["width"], "height": size["height"], "scale": 1}
        picture.write_bytes(base64.b64decode(self.ask("Page.captureScreenshot", captureBeyondViewport=True, clip=clip)["data"]))
        asked = [event["params"]["request"]["url"] for event in self.events if event.get("method") == "Network.requestWillBeSent"]
        told = [event["params"] for event in self.events if event.get("method") in ("Runtime.exceptionThrown", "Runtime.consoleAPICalled", "Log.entryAdded")]
        if failed or asked != [url] or told:
            return f"{failed or ''} asked for {asked}, told {told}"
        return None if size["width"] > 300 and size["height"] > 300 else f"it is {size} large"

    def end(self):
        try:
            self.ask("Browser.close")
        except (EOFError, OSError):
            pass
        os.close(self.out)
        os.close(self.into)
        self.child.wait(30)


def looked_at(top, all_texts, both):
    """What is wrong of each page in chromium, where it is installed, and of the drawings alone of some names."""
    program = shutil.which("chromium") or shutil.which("chromium-browser")
    if program is None:
        print("tests: chromium isn't installed, so the pages of tools/picture aren't looked at", file=sys.stderr)
        return
    kept = top / "build" / "out" / "pictures"
    kept.mkdir(parents=True, exist_ok=True)
    with tempfile.TemporaryDirectory() as folder:
        chromium = Chromium(program, folder)
        try:
            for name, text, source in all_texts:
                for ending, words in ((".html", source), (".svg", ["--svg", *source]))[: 2 if name in both else 1]:
                    page = kept / (name + ending)
                    page.write_text(asked(top, text, *words)[1])
                    yield f"{page.name} in chromium", chromium.shown(page, kept / f"{page.name}.png")
                if name == "pair_broken":
                    yield "a dark page in chromium", chromium.shown(kept / f"{name}.html", kept / f"{name}.dark.png", dark=True)
        finally:
            chromium.end()


def explained(top, ygg):
    """What `explain` prints of the schedule of each refuted file of examples/ and its folders: the file's name, the text, and the words that name the file."""
    for file in sorted((top / "examples").rglob("*.ygg")):
        _, _, rest = printed(ygg, "verify", file).partition("ygg-schedule ")
        if rest:
            with tempfile.NamedTemporaryFile("w") as schedule:
                schedule.write("ygg-schedule " + rest)
                schedule.flush()
                yield file.stem, printed(ygg, "explain", file, schedule.name), ["--source", str(file)]


def printed(ygg, *words):
    return subprocess.run([ygg, *map(str, words)], stdin=subprocess.DEVNULL, capture_output=True, text=True, timeout=600).stdout


def cases(top, ygg):
    """All cases, each by its name, and what is wrong of it, or None."""
    yield from taken(top)
    found = list(explained(top, ygg))
    for name, text, source in found:
        yield f"the picture of what explain prints of {name}", undrawn(top, text, *source)
    names = {name for name, _, _ in found}
    yield from looked_at(top, found + [one for one in texts(top) if one[0] not in names], {name for name, _, _ in texts(top)})


def main():
    failed = 0
    top = pathlib.Path(__file__).resolve().parent.parent
    for name, difference in cases(top, os.environ.get("YGG") or str(top / "ygg")):
        if difference:
            failed += 1
            print(f"FAIL {name}: {difference}")
    return 1 if failed else 0


if __name__ == "__main__":
    raise SystemExit(main())
