"""A second hand for `play`: runs the layers of a file by a script as docs/LANGUAGE.md and docs/FORMATS.md say, and makes scripts in which power fails in operations
and twice in the recovery after each. It takes files without a fault and scripts of them, and knows nothing of the program.

A word is a pair of its width and its number, a row a list of words, a table a list of rows."""
import re

TOKEN = re.compile(r"\s+|#[^\n]*|[a-z][a-z0-9_]*|[0-9]+|->|=>|==|!=|<=|>=|<<|>>|.", re.S)
KINDS = ("state", "memory")


class Down(Exception):
    """Power has failed."""


class Missed(Exception):
    """A stop isn't reached."""


def tokens_of(text):
    return [t for t in TOKEN.findall(text) if not t.isspace() and not t.startswith("#")]


class Reader:
    """Reads a layer file."""

    def __init__(self, text):
        self.tokens, self.at = tokens_of(text) + [""], 0

    def next(self, *wanted):
        """The next token, which is taken; where some are wanted only if it is one of them."""
        token = self.tokens[self.at]
        if wanted and token not in wanted:
            return None
        self.at += 1
        return token

    def several(self, read, close, between=","):
        found = []
        while not self.next(close):
            found.append(read())
            self.next(between)
        return found

    def shape(self):
        kind = self.next()
        sizes = [int(self.next())]
        while self.next("of"):
            sizes.append(int(self.next()))
        return kind, *sizes

    def declared(self):
        name = self.next()
        self.next(":")
        return name, self.shape()

    def expression(self):
        if self.next("~"):
            return "~", self.expression()
        e = self.atom()
        while self.next("["):
            e = "[", e, self.expression()
            self.next("]")
        return e

    def atom(self):
        token = self.next()
        if token.isdigit():
            self.next(":")
            return "word", int(self.next()), int(token)
        if token == "(":
            a = self.expression()
            op = self.next()
            b = self.expression()
            self.next(")")
            return op, a, b
        if token == "low":
            self.next(".")
            return "low", self.next()
        if not self.next("("):
            return "name", token
        if token == "resize":
            e = self.expression()
            self.next(",")
            width = int(self.next())
            self.next(")")
            return token, e, width
        if token == "fill":
            count = int(self.next())
            self.next(",")
            e = self.expression()
            self.next(")")
            return token, count, e
        if token in ("all", "any"):
            name = self.next()
            self.next(":")
            width = int(self.next())
            self.next("below")
            bound = int(self.next())
            self.next(",")
            e = self.expression()
            self.next(")")
            return token, name, width, bound, e
        return "apply", token, self.several(self.expression, ")")

    def block(self):
        self.next("{")
        return self.several(self.statement, "}", ";")

    def source(self):
        if self.next("choose"):
            return ("choose",)
        if self.next("call"):
            name = self.next()
            self.next("(")
            return "call", name, self.several(self.expression, ")")
        return "value", self.expression()

    def statement(self):
        if self.next("return"):
            return "return", self.expression()
        if self.next("let"):
            name = self.next()
            self.next("=")
            return "let", name, self.source()
        if self.next("if"):
            test, first = self.expression(), self.block()
            return "if", test, first, self.block() if self.next("else") else []
        if self.next("for"):
            name = self.next()
            self.next(":")
            width = int(self.next())
            self.next("below")
            return "for", name, width, int(self.next()), self.block()
        if self.tokens[self.at] == "call":
            return "do", self.source()
        name, places = self.next(), []
        while self.next("["):
            places.append(self.expression())
            self.next("]")
        self.next("=")
        return "assign", name, places, self.source()

    def operation(self):
        name = self.next()
        self.next("(")
        args = self.several(self.declared, ")")
        self.next("->") and self.shape()
        self.next("spec")
        self.block()
        if self.next("on"):
            self.next("crash")
            self.block()
        self.next("impl")
        return name, (args, self.block())

    def layer(self):
        layer = {"name": self.next(), "state": [], "memory": [], "format": [], "recover": [], "ops": {}, "ticks": {}}
        self.next("{")
        while not self.next("}"):
            word = self.next()
            if word in KINDS:
                layer[word].append(self.declared())
                self.next(";")
            elif word == "op":
                name, op = self.operation()
                layer["ops"][name] = op
            elif word == "tick":
                name = self.next()
                layer["ticks"][name] = self.block()
            elif word in ("start", "format", "crash", "recover"):
                layer[word] = self.block()
            else:
                self.expression()
                self.next(";")
        return layer

    def file(self):
        for _ in ("yggdrasil", "1", ";", "disk"):
            self.next()
        kind, rows = self.next(), int(self.next())
        self.next("of")
        words = int(self.next())
        self.next("of")
        disk = kind, rows, words, int(self.next())
        self.next(";")
        defs, layers = {}, []
        while self.next("def"):
            name = self.next()
            self.next("(")
            params = [name for name, _ in self.several(self.declared, ")")]
            self.next("->")
            self.shape()
            self.next("=")
            defs[name] = params, self.expression()
            self.next(";")
        while self.next("layer"):
            layers.append(self.layer())
        return disk, defs, layers


def zero(shape):
    kind, *sizes = shape
    word = (sizes[-1], 0)
    if kind == "word":
        return word
    row = [word] * sizes[-2]
    return row if kind == "row" else [list(row) for _ in range(sizes[0])]


def zero_like(value):
    return (value[0], 0) if isinstance(value, tuple) else [zero_like(v) for v in value]


def read_at(value, place):
    return value[place] if place < len(value) else zero_like(value[0])


def written(value, places, new):
    if not places:
        return new
    place, *others = places
    return [written(v, others, new) if i == place else v for i, v in enumerate(value)]


def shown(value):
    if isinstance(value, tuple):
        return f"{value[1]:0{(value[0] + 3) // 4}x}"
    return (";" if isinstance(value[0], list) else ",").join(map(shown, value))


ARITHMETIC = {
    "+": lambda a, b, w: a + b,
    "-": lambda a, b, w: a - b,
    "*": lambda a, b, w: a * b,
    "&": lambda a, b, w: a & b,
    "|": lambda a, b, w: a | b,
    "^": lambda a, b, w: a ^ b,
    "<<": lambda a, b, w: a << b if b < w else 0,
    ">>": lambda a, b, w: a >> b if b < w else 0,
}
COMPARED = {
    "<": lambda a, b: a < b,
    "<=": lambda a, b: a <= b,
    ">": lambda a, b: a > b,
    ">=": lambda a, b: a >= b,
    "=>": lambda a, b: a <= b,
}


class Stack:
    """The layers of a file on its disk in memory, freshly formatted with all writes kept."""

    def __init__(self, text):
        self.disk, self.defs, self.layers = Reader(text).file()
        self.kind, rows, words, width = self.disk
        self.view = zero(("table", rows, words, width))
        self.stable = self.view
        self.memories = [{} for _ in self.layers]
        self.picks, self.lines = [], []
        self.begin(None)
        for number, layer in enumerate(self.layers):
            self.clear(number)
            self.run(number, layer["format"], {})
        self.lines = []

    def begin(self, stop):
        self.stop, self.calls = stop, 0

    def clear(self, number):
        self.memories[number] = {name: zero(shape) for name, shape in self.layers[number]["memory"]}

    def lose(self):
        if self.kind == "async":
            self.view = self.stable

    def wake(self):
        for number, layer in enumerate(self.layers):
            self.clear(number)
            self.run(number, layer["recover"], {})

    def pick(self):
        return self.picks.pop(0) if self.picks else 1

    # the disk

    def disk_call(self, name, args):
        if self.stop == ("before", self.calls):
            raise Down
        cut = self.stop == ("within", self.calls)
        mark = " cut" if cut else ""
        answer = None
        if name == "read":
            self.lines.append(f"read {args[0][1]}{mark}")
            answer = read_at(self.view, args[0][1])
        elif name == "write":
            place, row = args[0][1], args[1]
            kept = self.pick() if cut or self.kind == "async" else 1
            self.lines.append(f"write {place} {shown(row)}{mark}" + (" kept" if kept else " lost"))
            if kept:
                self.stable = written(self.stable, [place], row)
            if kept or not cut:
                self.view = written(self.view, [place], row)
        else:
            self.lines.append(f"flush{mark}")
            if not cut:
                self.stable = self.view
        if cut:
            raise Down
        self.calls += 1
        return answer

    # blocks

    def operate(self, number, name, args):
        if number < 0:
            return self.disk_call(name, args)
        declared, block = self.layers[number]["ops"][name]
        return self.run(number, block, {n: a for (n, _), a in zip(declared, args)})

    def run(self, number, block, env):
        return self.statements(number, block, [self.memories[number], env])

    def statements(self, number, block, scopes):
        scopes = scopes + [{}]
        for statement in block:
            kind = statement[0]
            if kind == "return":
                return self.value(statement[1], scopes)
            if kind == "let":
                scopes[-1][statement[1]] = self.source(number, statement[2], scopes)
            elif kind == "do":
                self.source(number, statement[1], scopes)
            elif kind == "if":
                test = self.value(statement[1], scopes)[1]
                self.statements(number, statement[2] if test else statement[3], scopes)
            elif kind == "for":
                for i in range(statement[3]):
                    self.statements(number, statement[4], scopes + [{statement[1]: (statement[2], i)}])
            else:
                _, name, places, source = statement
                new = self.source(number, source, scopes)
                places = [self.value(e, scopes)[1] for e in places]
                scope = next(s for s in reversed(scopes) if name in s)
                scope[name] = written(scope[name], places, new)
        return None

    def obey(self, words):
        """Does what the words of a line `call` or `tick` of a script say, and gives the answer."""
        if words[0] == "call":
            top = len(self.layers) - 1
            declared, _ = self.layers[top]["ops"][words[1]]
            return self.operate(top, words[1], [value_in(shape, w) for (_, shape), w in zip(declared, words[2:])])
        layer, name = words[1].split(".")
        number = next(n for n, l in enumerate(self.layers) if l["name"] == layer)
        return self.run(number, self.layers[number]["ticks"][name], {})

    def source(self, number, source, scopes):
        if source[0] == "value":
            return self.value(source[1], scopes)
        return self.operate(number - 1, source[1], [self.value(e, scopes) for e in source[2]])

    def value(self, e, scopes):
        kind = e[0]
        of = lambda e: self.value(e, scopes)
        if kind == "word":
            return e[1], e[2]
        if kind == "name":
            return next(s[e[1]] for s in reversed(scopes) if e[1] in s)
        if kind == "~":
            width, number = of(e[1])
            return width, number ^ (2**width - 1)
        if kind == "[":
            return read_at(of(e[1]), of(e[2])[1])
        if kind == "resize":
            return e[2], of(e[1])[1] % 2 ** e[2]
        if kind == "fill":
            return [of(e[2])] * e[1]
        if kind in ("all", "any"):
            judge = all if kind == "all" else any
            return 1, int(judge(self.value(e[4], scopes + [{e[1]: (e[2], i)}])[1] for i in range(e[3])))
        if kind == "apply":
            args = [of(a) for a in e[2]]
            if e[1] == "row":
                return args
            if e[1] == "pick":
                return args[1] if args[0][1] else args[2]
            params, body = self.defs[e[1]]
            return self.value(body, [dict(zip(params, args))])
        a, b = of(e[1]), of(e[2])
        if kind in ("==", "!="):
            return 1, int((a == b) == (kind == "=="))
        if kind in COMPARED:
            return 1, int(COMPARED[kind](a[1], b[1]))
        return a[0], ARITHMETIC[kind](a[1], b[1], a[0]) % 2 ** a[0]


def stopped(stack, stop, do):
    """Whether power failed in what is done, where the stop says; or its answer in a list, where there is none."""
    stack.begin(stop)
    try:
        answer = do()
    except Down:
        stack.lose()
        return None
    if stop is None:
        return [answer]
    if stop != ("before", stack.calls):
        raise Missed
    stack.lose()
    return None


def value_in(shape, text):
    words = [(shape[-1], int(t, 16)) for t in text.split(",")]
    return words[0] if shape[0] == "word" else words


def told(answer):
    """The line of a command that was whole."""
    return "done" if answer is None else f"answer {shown(answer)}"


def played(text, script):
    """What `play` prints of a file and a script of it, and its status."""
    stack = Stack(text)
    lines = script.splitlines()[1:-1]
    count = 0
    for place, line in enumerate(lines):
        words = line.split(" ")
        after = lines[place + 1].split(" ") if place + 1 < len(lines) else [""]
        stop = (after[1], int(after[2])) if after[0] == "fail" else None
        if words[0] == "keep":
            stack.picks = [] if words[1] == "-" else [int(b) for b in words[1]]
            continue
        count += words[0] != "fail"
        try:
            if words[0] in ("call", "tick"):
                done = stopped(stack, stop, lambda: stack.obey(words))
            else:
                if words[0] == "lost":
                    stack.lose()
                    stack.lines.append("down")
                done = stopped(stack, stop, stack.wake)
        except Missed:
            return 2, f"refused 44 {place + 3}:1\n"
        if done is None:
            stack.lines.append("down")
        elif words[0] in ("lost", "fail"):
            stack.lines.append("up")
        else:
            stack.lines.append(told(done[0]))
    return 0, "".join(f"{line}\n" for line in stack.lines + [f"played {count}"])


def script_of(lines):
    return "".join(f"{line}\n" for line in ["ygg-script 1", *lines, "end"])


def calls_of(text, lines):
    """How many disk calls the last of these lines makes, a waking where it is a line `fail`."""
    _, out = played(text, script_of(lines))
    parts = out.splitlines()[:-1]
    count = 0
    for line in reversed(parts[:-1]):
        if line in ("down", "up", "done") or line.startswith("answer"):
            break
        count += 1
    return count


def commands_of(text):
    """A line for each operation of a file's topmost layer, and for each background step."""
    stack = Stack(text)
    commands = []
    for name, (declared, _) in stack.layers[-1]["ops"].items():
        values = []
        for n, (_, shape) in enumerate(declared):
            number = (len(commands) + n + 1) % 2 ** min(shape[-1], 2)
            words = [(shape[-1], number)] * (1 if shape[0] == "word" else shape[1])
            values.append(shown(words[0] if shape[0] == "word" else words))
        commands.append(" ".join(["call", name, *values]))
    for layer in stack.layers:
        commands += [f"tick {layer['name']}.{name}" for name in layer["ticks"]]
    return commands


def scripts_for(text):
    """Scripts in which power fails in each operation and background step of a file, and twice in the recovery after it, with writes kept and lost in turn."""
    commands = commands_of(text)
    for place, command in enumerate(commands):
        for keep in ("keep 1", "keep 0110100101"):
            before = [keep, *commands]
            whole = calls_of(text, [*before, command])
            for call in sorted({0, whole // 2, whole}):
                lines = [*before, command, f"fail before {call}"]
                again = calls_of(text, lines)
                for stop in (f"fail within {again // 2}" if again else "fail before 0", f"fail before {again}"):
                    lines = [*lines, stop]
                yield script_of([*lines, *commands])
        yield script_of([*commands, command, f"fail within {calls_of(text, [*commands, command])}"])
