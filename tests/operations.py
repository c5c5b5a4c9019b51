"""Layer files on which ./ygg computes, with the verdicts that they must have: each operation on words at the edges of a width and on all words of
few digits, what is made of words case by case, rows and tables word by word, tables at places that are terms, and the worked terms of two inputs. What an
operation gives comes from Python's integers.

tests/run takes `verified` and `replayed` from here, and runs them.
"""

ALL = {width: [(a, b) for a in range(2**width) for b in range(2**width)] for width in (1, 3)}
EDGES = {
    8: [(0, 0xFF), (0xFF, 1), (0x80, 0x7F), (0xA5, 7), (0xA5, 8)],
    33: [(2**33 - 1, 2**33 - 1), (2**32, 2**32 - 1), (0x123456789, 32), (0x123456789, 33)],
    64: [(2**64 - 1, 1), (2**64 - 1, 2**64 - 1), (2**63, 2**63 - 1), (0xFEDCBA9876543211, 63), (0xFEDCBA9876543211, 64)],
}


def results(width, a, b):
    """What each operation gives of two words of a width, as the operator, the number and its width."""
    words = {"+": a + b, "-": a - b, "*": a * b, "&": a & b, "|": a | b, "^": a ^ b, "<<": a << b if b < width else 0, ">>": a >> b}
    bits = {"==": a == b, "!=": a != b, "<": a < b, "<=": a <= b, ">": a > b, ">=": a >= b}
    found = [(op, number % 2**width, width) for op, number in words.items()] + [(op, int(bit), 1) for op, bit in bits.items()]
    return found + [("=>", int(not a or b), 1)] * (width == 1)


def all_of(tests):
    """The expression that says all of these."""
    first, *rest = tests
    return f"({first} & {all_of(rest)})" if rest else first


def compared(a, b, found):
    """The expression that says that operations on two expressions give these."""
    return all_of([f"(({a} {op} {b}) == {number}:{width})" for op, number, width in found])


def turned(found, place):
    """The same with the lowest digit of one result turned."""
    return [(op, number ^ (at == place % len(found)), width) for at, (op, number, width) in enumerate(found)]


def answering(name, params, expression):
    """An operation that is to answer 1."""
    return f"  op {name}({params}) -> word 1 spec {{\n    return 1:1;\n  }} impl {{\n    return {expression};\n  }}\n"


def verdicts(layer, names, failing):
    """The lines of `verify` for a layer with these operations, of which these obligations fail."""
    all_names = [f"{layer}.init", *[f"{layer}.{kind}.{name}" for name in names for kind in ("call", "cut")], f"{layer}.idle", f"{layer}.again"]
    lines = [f"{'fails' if name in failing else 'holds'} {name}\n" for name in all_names]
    failed = [name for name in all_names if name in failing]
    return "".join(lines) + (f"refuted {failed[0]}\n" if failed else f"verified {len(all_names)}\n")


def words(width, pairs, first=0):
    """A file that computes on pairs of words of a width, known and as inputs, with a wrong twin for each; and its verdicts. Pairs are numbered from `first`."""
    operations, failing = {}, set()
    for place, (a, b) in enumerate(pairs, first):
        found = results(width, a, b)
        # products of wide words that are inputs take long
        decided = [it for it in found if it[0] != "*" or width <= 8]
        given = f"((a == {a}:{width}) & (b == {b}:{width}))"
        for kind, said in (("right", lambda them: them), ("wrong", lambda them: turned(them, place))):
            known = compared(f"{a}:{width}", f"{b}:{width}", said(found))
            operations[f"known_{kind}_{place}"] = ("", known)
            operations[f"{kind}_{place}"] = (f"a : word {width}, b : word {width}", f"({given} => {compared('a', 'b', said(decided))})")
        failing |= {f"words.call.known_wrong_{place}", f"words.call.wrong_{place}"}
    text = "".join(answering(name, *operation) for name, operation in operations.items())
    return f"yggdrasil 1;\ndisk sync 1 of 1 of 1;\nlayer words {{\n{text}  relate 1:1;\n}}\n", verdicts("words", operations, failing)


def picked(rows, width, last):
    """The word at the place `i` among the words of the rows x0, x1 and so on, of which only so many are there; 0 past them."""
    found = f"0:{width}"
    for place in reversed(range(last)):
        found = f"pick((i == {place}:3), x{place}[0:1], {found})"
    return found


def tables(rows, width):
    """A file that reads and writes a table at places that are terms, in and past its end: in one go on the one side, place by place on the other; with
    wrong twins; and its verdicts."""
    reads = "".join(f"    let x{place} = call read({place}:8);\n" for place in range(rows))
    at = [f"  op {name}(i : word 3) -> word {width} spec {{\n    return t[i][0:1];\n  }} impl {{\n{reads}    return {picked(rows, width, last)};\n  }}\n"
          for name, last in (("at", rows), ("at_all_but_one", rows - 1))]
    put = [f"""  op {name}(c : word 1, i : word 3, v : word {width}) spec {{
    if c {{
      t[i][0:1] = v;
    }}
  }} impl {{
    for k:8 below {rows} {{
      if ({test} & (resize(i, 8) == k)) {{
        call write(k, row(v));
      }}
    }}
  }}
""" for name, test in (("put", "c"), ("put_always", "1:1"))]
    swap = [f"""  op {name}(i : word 3, v : word {width}) spec {{
    for k:3 below {rows} {{
      if (i == k) {{
        t[k] = row(v);
      }}
    }}
  }} impl {{
    call write(resize({place}, 8), row(v));
  }}
""" for name, place in (("set", "i"), ("set_one_higher", "(i + 1:3)"))]
    same = f"""  op same(i : word 3, v : word {width}) -> word 1 spec {{
    let before = t;
    t[i] = row(v);
    return (t == before);
  }} impl {{
    let r = call read(resize(i, 8));
    call write(resize(i, 8), row(v));
    return ((i >= {rows}:3) | (r[0:1] == v));
  }}
"""
    text = "".join([*at, *put, *swap, same])
    names = ["at", "at_all_but_one", "put", "put_always", "set", "set_one_higher", "same"]
    failing = {"places.call.at_all_but_one", *[f"places.{kind}.{name}" for kind in ("call", "cut") for name in ("put_always", "set_one_higher")]}
    head = f"yggdrasil 1;\ndisk sync {rows} of 1 of {width};\nlayer places {{\n  state t : table {rows} of 1 of {width};\n"
    return f"{head}{text}  relate (low.view == t);\n}}\n", verdicts("places", names, failing)


def by_cases(found, width, other=0):
    """The word of a width that the first of these tests which holds names, of pairs of a test and a number; another one past them."""
    text = f"{other}:{width}"
    for test, number in reversed(found):
        text = f"pick({test}, {number}:{width}, {text})"
    return text


def of_words(width):
    """A file that makes one word of others in every way, whose values are said case by case, with wrong twins; and its verdicts."""
    last = 2**width - 1
    made = {"complement": ("~a", width, lambda a: a ^ last), "narrowed": ("resize(a, 2)", 2, lambda a: a % 4),
            "widened": ("resize(a, 5)", 5, lambda a: a), "widened_and_narrowed": ("resize(resize(a, 5), 2)", 2, lambda a: a % 4)}
    operations, failing = {}, set()
    for name, (expression, to, value) in made.items():
        cases = [(f"(a == {a}:{width})", value(a)) for a in range(last + 1)]
        turned_cases = [*cases[:-1], (cases[-1][0], cases[-1][1] ^ 1)]
        for kind, is_wrong, them in (("", False, cases), ("_wrong", True, turned_cases)):
            said = f"({expression} == {by_cases(them, to)})"
            compared_too = f"(({expression} == {5 % 2**to}:{to}) == {by_cases([(test, int(number == 5 % 2**to)) for test, number in them], 1)})"
            operations[f"{name}{kind}"] = (f"a : word {width}", f"({said} & {compared_too})")
            failing |= {f"makers.call.{name}{kind}"} if is_wrong else set()
    for place, (op, _, to) in enumerate(results(width, 0, 0)):
        cases = [(f"((a == {a}:{width}) & (b == {b}:{width}))", int(results(width, a, b)[place][1] == 5 % 2**to)) for a, b in ALL[width]]
        for kind, them in (("", cases), ("_wrong", [*cases[:-1], (cases[-1][0], cases[-1][1] ^ 1)])):
            operations[f"compared_{place}{kind}"] = (f"a : word {width}, b : word {width}", f"(((a {op} b) == {5 % 2**to}:{to}) == {by_cases(them, 1)})")
        failing.add(f"makers.call.compared_{place}_wrong")
    picked_is = "((c & (pick(c, a, b) == a)) | (~c & (pick(c, a, b) == {})))"
    for kind, other in (("", "b"), ("_wrong", "a")):
        operations[f"picked{kind}"] = (f"c : word 1, a : word {width}, b : word {width}", picked_is.format(other))
    failing.add("makers.call.picked_wrong")
    text = "".join(answering(name, *operation) for name, operation in operations.items())
    return f"yggdrasil 1;\ndisk sync 1 of 1 of 1;\nlayer makers {{\n{text}  relate 1:1;\n}}\n", verdicts("makers", operations, failing)


def of_rows(words, width):
    """A file that reads, writes, compares and merges rows and tables, as is said word by word, with wrong twins; and its verdicts."""
    shape, each = f"row {words} of {width}", f"k:8 below {words}"
    operations = {}

    def computes(name, params, statements, said, wrong):
        for kind, answer in (("", said), ("_wrong", wrong)):
            body = f"  op {name}{kind}({params}) -> word 1 spec {{\n    return 1:1;\n  }} impl {{\n{statements}    return {answer};\n  }}\n"
            operations[f"{name}{kind}"] = body

    def read_at(last):
        text = f"0:{width}"
        for place in reversed(range(last)):
            text = f"pick((i == {place}:3), r[{place}:8], {text})"
        return text

    computes("read", f"i : word 3, r : {shape}", "", f"(r[i] == {read_at(words)})", f"(r[i] == {read_at(words - 1)})")
    computes("write", f"i : word 3, r : {shape}, v : word {width}", "    let q = r;\n    q[i] = v;\n",
             f"all({each}, (q[k] == pick((resize(i, 8) == k), v, r[k])))", f"all({each}, (q[k] == pick((resize(i, 8) <= k), v, r[k])))")
    for place in (0, 1, 5):
        computes(f"write_at_{place}", f"r : {shape}, v : word {width}", f"    let q = r;\n    q[{place}:8] = v;\n",
                 f"all({each}, (q[k] == pick((k == {place}:8), v, r[k])))", f"all({each}, ((q[k] == v) & (r[k] == v)))")
    computes("equal", f"r : {shape}, q : {shape}", "", f"((r == q) == all({each}, (r[k] == q[k])))", f"((r == q) == any({each}, (r[k] == q[k])))")
    computes("merged", f"c : word 1, r : {shape}, q : {shape}", "    let x = q;\n    let y = r;\n    if c {\n      x = r;\n      y = q;\n    }\n",
             f"(all({each}, ((x[k] == pick(c, r[k], q[k])) & (y[k] == pick(c, q[k], r[k])))) & ((x == q) == (~c | (r == q))))",
             f"all({each}, ((x[k] == pick(c, r[k], q[k])) & (y[k] == r[k])))")
    computes("zeros", f"r : {shape}", "", f"((r == fill({words}, 0:{width})) == all({each}, (r[k] == 0:{width})))", f"(r == fill({words}, 0:{width}))")
    rows = f"j:8 below 3, all({each}, "
    computes("merged_tables", "c : word 1", "    let x = u;\n    if c {\n      x = t;\n    }\n",
             f"(all({rows}(x[j][k] == pick(c, t[j][k], u[j][k])))) & ((x == u) == (~c | (t == u))))", f"all({rows}(x[j][k] == t[j][k])))")
    computes("written_tables", f"c : word 1, i : word 3, r : {shape}", "    let x = t;\n    if c {\n      x[i] = r;\n    }\n",
             f"all({rows}(x[j][k] == pick((c & (resize(i, 8) == j)), r[k], t[j][k]))))", f"all({rows}(x[j][k] == pick((resize(i, 8) == j), r[k], t[j][k]))))")
    computes("read_tables", "i : word 3", "    let x = t[i];\n",
             f"all({each}, (x[k] == pick((i == 0:3), t[0:8][k], pick((i == 1:3), t[1:8][k], pick((i == 2:3), t[2:8][k], 0:{width})))))",
             f"all({each}, (x[k] == pick((i == 0:3), t[0:8][k], pick((i == 1:3), t[1:8][k], t[2:8][k]))))")
    failing = {f"makers.call.{name}" for name in operations if name.endswith("_wrong")}
    head = f"yggdrasil 1;\ndisk sync 1 of 1 of 1;\nlayer makers {{\n  memory t : table 3 of {words} of {width};\n  memory u : table 3 of {words} of {width};\n"
    return f"{head}{''.join(operations.values())}  relate 1:1;\n}}\n", verdicts("makers", operations, failing)


def terms():
    """The worked terms of two inputs, of which the third fails; and their verdicts."""
    worked = {
        "sum_and_back": ("a : word 8, b : word 8", "(((a + b) - b) == a)"),
        "product": ("a : word 4, b : word 4", "((a * b) == (b * a))"),
        "part": ("a : word 8, b : word 8", "((a & b) == a)"),
        "shifted_out": ("a : word 64", "((a << 64:8) == 0:64)"),
    }
    text = "".join(answering(name, *operation) for name, operation in worked.items())
    return f"yggdrasil 1;\ndisk sync 1 of 1 of 1;\nlayer terms {{\n{text}  relate 1:1;\n}}\n", verdicts("terms", worked, {"terms.call.part"})


def verified():
    """Files that `verify` is given: the name of the case, the text, and the lines up to a schedule."""
    for width, pairs in {**ALL, **EDGES}.items():
        yield f"operations on words of {width} digits", *words(width, pairs)
    for rows in (2, 3, 4):
        for width in (1, 3):
            yield f"tables of {rows} rows of words of {width} digits", *tables(rows, width)
    for width in ALL:
        yield f"makers of words of {width} digits", *of_words(width)
    for count in (2, 3, 4):
        for width in (1, 3):
            yield f"makers of rows of {count} words of {width} digits", *of_rows(count, width)
    yield "worked terms", *terms()


def replayed():
    """Files that `replay` is given: the name of the case, the text, the schedule, and the line."""
    for width, pairs in {**ALL, **EDGES}.items():
        for place, pair in enumerate(pairs):
            text, _ = words(width, [pair], place)
            for kind, line in (("right", "holds -\n"), ("wrong", f"shows words.call.known_wrong_{place}\n")):
                schedule = f"ygg-schedule 1\nobligation words.call.known_{kind}_{place}\nlow view 0\npicks -\nend\n"
                yield f"operations on words of {width} digits, {kind} {place}", text, schedule, line
