"""Reads layer files into trees of tuples, for bench/verify_peer. It has no types: the file is taken to be typed."""
import re
import sys

TOKEN = re.compile(r"\s+|#[^\n]*|([a-z][a-z0-9_]*|\d+|=>|->|<<|>>|<=|>=|==|!=|[{}()\[\];:,.=<>+\-*&|^~])")


class Reader:
    """Reads the tokens of a file into trees of tuples, by one method for each rule of the grammar."""

    def __init__(self, text):
        self.tokens, place = [], 0
        while place < len(text):
            found = TOKEN.match(text, place)
            if not found:
                sys.exit(f"no token: {text[place:place + 20]!r}")
            if found[1]:
                self.tokens.append(found[1])
            place = found.end()
        self.tokens.append("")
        self.place = 0

    def see(self):
        return self.tokens[self.place]

    def next(self):
        self.place += 1
        return self.tokens[self.place - 1]

    def take(self, token):
        """Whether this token stands here; it is passed then."""
        found = self.see() == token
        self.place += found
        return found

    def want(self, *tokens):
        for token in tokens:
            if self.next() != token:
                sys.exit(f"wanted {token!r}: {' '.join(self.tokens[max(0, self.place - 12):self.place])}")

    def number(self):
        return int(self.next())

    def numbers(self, count):
        """Numbers with `of` between them."""
        found = [self.number()]
        while len(found) < count:
            self.want("of")
            found.append(self.number())
        return found

    def listed(self, item):
        """Items with commas between them, after an open bracket and up to its closing one."""
        found = []
        while not self.take(")"):
            if found:
                self.want(",")
            found.append(item())
        return found

    def type(self):
        kind = self.next()
        return (kind, *self.numbers({"word": 1, "row": 2, "table": 3}[kind]))

    def typed(self):
        name = self.next()
        self.want(":")
        return name, self.type()

    def file(self):
        self.want("yggdrasil", "1", ";", "disk")
        disk = (self.next(), *self.numbers(3))
        self.want(";")
        defs, layers = {}, []
        while self.take("def"):
            name = self.next()
            self.want("(")
            params = self.listed(self.typed)
            self.want("->")
            self.type()
            self.want("=")
            defs[name] = ([param for param, _ in params], self.expr())
            self.want(";")
        while self.take("layer"):
            layers.append(self.layer(defs))
        self.want("")
        return disk, layers

    def declared(self, keyword):
        found = {}
        while self.take(keyword):
            name, shape = self.typed()
            found[name] = shape
            self.want(";")
        return found

    def layer(self, defs):
        layer = Layer(self.next(), defs)
        self.want("{")
        layer.state = self.declared("state")
        layer.start = self.block() if self.take("start") else []
        layer.memory = self.declared("memory")
        layer.format = self.block() if self.take("format") else []
        while self.take("op"):
            op = self.operation()
            layer.ops[op.name] = op
        layer.crash = self.block() if self.take("crash") else []
        while self.take("tick"):
            name = self.next()
            layer.ticks[name] = self.block()
        layer.recover = self.block() if self.take("recover") else []
        for keyword, into in (("relate", layer.related), ("always", layer.related), ("settled", layer.settled), ("maybe", [])):
            while self.take(keyword):
                into.append(self.expr())
                self.want(";")
        self.want("}")
        return layer

    def operation(self):
        op = Operation(self.next())
        self.want("(")
        op.args = dict(self.listed(self.typed))
        if self.take("->"):
            self.type()
        self.want("spec")
        op.spec = self.block()
        if self.take("on"):
            self.want("crash")
            op.crash = self.block()
        self.want("impl")
        op.impl = self.block()
        return op

    def block(self):
        self.want("{")
        found = []
        while not self.take("}"):
            found.append(self.statement())
        return found

    def statement(self):
        word = self.next()
        if word == "if":
            test, yes = self.expr(), self.block()
            return "if", test, yes, self.block() if self.take("else") else []
        if word == "for":
            name = self.next()
            self.want(":")
            width = self.number()
            self.want("below")
            bound = self.number()
            return "for", name, width, bound, self.block()
        if word == "return":
            found = ("return", self.expr())
        elif word == "call":
            self.place -= 1
            found = ("drop", self.source())
        elif word == "let":
            name = self.next()
            self.want("=")
            found = ("let", name, self.source())
        else:
            places = []
            while self.take("["):
                places.append(self.expr())
                self.want("]")
            self.want("=")
            found = ("set", word, places, self.source())
        self.want(";")
        return found

    def source(self):
        if self.take("choose"):
            return ("choose",)
        if self.take("call"):
            name = self.next()
            self.want("(")
            return "call", name, self.listed(self.expr)
        return self.expr()

    def expr(self):
        if self.take("~"):
            return "~", self.expr()
        found = self.atom()
        while self.take("["):
            found = ("at", found, self.expr())
            self.want("]")
        return found

    def atom(self):
        word = self.next()
        if word.isdigit():
            self.want(":")
            return "number", int(word), self.number()
        if word == "(":
            left, op, right = self.expr(), self.next(), self.expr()
            self.want(")")
            return "op", op, left, right
        if word == "low":
            self.want(".")
            return "low", self.next()
        if not self.take("("):
            return "name", word
        if word in ("all", "any"):
            name = self.next()
            self.want(":")
            width = self.number()
            self.want("below")
            bound = self.number()
            self.want(",")
            part = self.expr()
            self.want(")")
            return word, name, width, bound, part
        if word in ("resize", "fill"):
            one, two = (self.expr, self.number) if word == "resize" else (self.number, self.expr)
            first = one()
            self.want(",")
            second = two()
            self.want(")")
            return word, first, second
        return (word if word in ("pick", "row") else "use"), word, self.listed(self.expr)


class Operation:
    def __init__(self, name):
        self.name, self.args, self.spec, self.crash, self.impl = name, {}, [], None, []


class Layer:
    def __init__(self, name, defs):
        self.name, self.defs = name, defs
        self.state, self.memory, self.start, self.format = {}, {}, [], []
        self.ops, self.crash, self.ticks, self.recover = {}, [], {}, []
        self.related, self.settled = [], []
