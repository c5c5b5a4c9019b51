"""Layer files that are so small that every schedule of each of their obligations can be tried: `verify` has to say `fails` exactly where `replay` says
of one of them that it shows the obligation. So terms are compared with concrete runs in every environment: of blocks of each part, with each kind of
statement, on a disk of each kind and on the specification of another layer. Each file is also tried without any one of the lines that end in
`# may go`; most of what is left fails somewhere.

All words have one digit, so that states are few. Picks are tried in lists of the greatest length that a run takes (`-` where that is 0), which stands
beside each layer: a run reads 0 past the end, so shorter ones are among these.

tests/run runs `tried`.
"""
import itertools
import pathlib
import re
import subprocess
import tempfile

# Beside each layer's name: how many picks a run takes at most, one that recovers, and how many calls each of them makes at most.
FILES = {
    "one row, written at once": (
        {"cell": (1, 1, 1, 1)},
        """disk sync 1 of 1 of 1;
layer cell {
  state f : word 1;
  start {
    f = 1:1;
  }
  memory m : word 1;
  format {
    call write(0:8, row(1:1)); # may go
    m = 1:1; # may go
  }
  op set(v : word 1) spec {
    f = v;
  } impl {
    call write(0:8, row(v)); # may go
    m = v; # may go
  }
  op get() -> word 1 spec {
    return f;
  } impl {
    return m;
  }
  recover {
    let r = call read(0:8);
    m = r[0:1]; # may go
  }
  relate (low.view[0:8][0:1] == f);
  always (m == f);
}
""",
    ),
    "two rows with loops and branches": (
        {"both": (1, 1, 3, 3)},
        """disk sync 2 of 1 of 1;
layer both {
  state t : table 2 of 1 of 1;
  op fill_with(v : word 1) spec {
    for i : 8 below 2 {
      t[i][0:1] = v;
    }
  } on crash {
    let some = choose;
    if some {
      t[0:8][0:1] = v;
      let rest = choose;
      if rest { t[1:8][0:1] = v; } # may go
    }
  } impl {
    for i : 8 below 2 {
      call write(i, row(v));
    }
  }
  op turn(v : word 1) -> word 1 spec {
    let old = t[1:8][0:1];
    if v {
      t[1:8][0:1] = ~old;
    } else {
      t[1:8][0:1] = 0:1; # may go
    }
    return old;
  } impl {
    let r = call read(1:8);
    if v {
      call write(1:8, row(~r[0:1])); # may go
    } else {
      call write(1:8, row(0:1)); # may go
    }
    return r[0:1];
  }
  relate ((low.view[0:8][0:1] == t[0:8][0:1]) & (low.view[1:8][0:1] == t[1:8][0:1]));
}
""",
    ),
    "two copies with a cache": (
        {"copies": (2, 1, 4, 3)},
        """disk async 2 of 1 of 1;
layer copies {
  state f : word 1;
  op set(v : word 1) spec {
    f = v;
  } impl {
    call write(0:8, row(v));
    call flush(); # may go
    call write(1:8, row(v)); # may go
    call flush(); # may go
  }
  tick tidy {
    let r = call read(0:8);
    call write(1:8, r); # may go
    call flush(); # may go
  }
  recover {
    let r = call read(0:8);
    call write(1:8, r); # may go
    call flush(); # may go
  }
  relate ((low.view[0:8][0:1] == f) & (low.stable[0:8][0:1] == f));
  always ((low.view[1:8][0:1] == f) & (low.stable[1:8][0:1] == f));
}
""",
    ),
    "a cache that says what it loses, and a layer on it": (
        {"cell": (2, 1, 1, 0), "firm": (2, 1, 2, 1)},
        """disk async 1 of 1 of 1;
layer cell {
  state now : word 1;
  state kept : word 1;
  op set(v : word 1) spec {
    now = v;
    let k = choose;
    if k { kept = v; } # may go
  } on crash {
    let k = choose;
    if k { kept = v; } # may go
  } impl {
    call write(0:8, row(v));
  }
  op keep() spec {
    kept = now;
  } impl {
    call flush(); # may go
  }
  op get() -> word 1 spec {
    return now;
  } impl {
    let r = call read(0:8);
    return r[0:1];
  }
  crash {
    now = kept; # may go
  }
  relate ((low.view[0:8][0:1] == now) & (low.stable[0:8][0:1] == kept));
}
layer firm {
  state f : word 1;
  memory m : word 1;
  op put(v : word 1) spec {
    f = v;
  } impl {
    call set(v);
    call keep(); # may go
    m = v; # may go
  }
  op seen() -> word 1 spec {
    return f;
  } impl {
    let x = call get();
    return (x & m);
  }
  tick tidy {
    call keep(); # may go
  }
  recover {
    let x = call get();
    m = x; # may go
  }
  relate ((low.now == f) & (low.kept == f));
  always (m == f);
  settled (low.now == low.kept);
}
""",
    ),
    "a layer below that chooses when power fails": (
        {"cell": (1, 0, 1, 0), "guess": (3, 1, 1, 1)},
        """disk sync 1 of 1 of 1;
layer cell {
  state a : word 1;
  op set(v : word 1) spec {
    a = v;
  } impl {
    call write(0:8, row(v));
  }
  op get() -> word 1 spec {
    return a;
  } impl {
    let r = call read(0:8);
    return r[0:1];
  }
  crash {
    let lost = choose;
    if lost { a = 0:1; } # may go
  }
  relate (low.view[0:8][0:1] == a);
}
layer guess {
  state f : word 1;
  op put(v : word 1) spec {
    f = v;
  } impl {
    call set(v); # may go
  }
  crash {
    let lost = choose;
    if lost { f = 0:1; } # may go
  }
  recover {
    let x = call get();
    if x { call set(1:1); } # may go
  }
  relate (low.a == f);
}
""",
    ),
}
PART = re.compile(r"^layer (\w+) \{$(.*?)^\}$", re.MULTILINE | re.DOTALL)
SHAPE = re.compile(r"^  state (\w+) : (?:word|table (\d) of 1 of) 1;$", re.MULTILINE)


def variants():
    """Each file, whole and without any one of the lines that may go: its name, its limits and its text."""
    for name, (limits, text) in FILES.items():
        lines = ["yggdrasil 1;", *text.splitlines()]
        places = [at for at, line in enumerate(lines) if line.endswith(" # may go")]
        for gone in (None, *places):
            kept = [line.removesuffix(" # may go") for at, line in enumerate(lines) if at != gone]
            without = f", without line {gone + 1}, {lines[gone].split(' #')[0].strip()}" if gone is not None else ""
            yield name + without, limits, "\n".join(kept) + "\n"


def tables(rows):
    """All values of a table of so many rows."""
    return [";".join(bits) for bits in itertools.product("01", repeat=rows)]


def variables(part):
    """The names of a layer's state and the values that each can have."""
    return [(name, tables(int(rows)) if rows else ["0", "1"]) for name, rows in SHAPE.findall(part)]


def lines_of(word, names):
    """All ways to give values to names, as lines of a schedule."""
    return ["".join(f"{word} {name} {value}\n" for (name, _), value in zip(names, values)) for values in itertools.product(*(them for _, them in names))]


def picks(word, count):
    """All lists of so many picks, as a line."""
    return [f"{word} {''.join(bits) or '-'}\n" for bits in itertools.product("01", repeat=count)]


def stops(calls):
    """All stops that a run of so many calls can come to."""
    return [f"stop before {at}\n" for at in range(calls + 1)] + [f"stop within {at}\n" for at in range(calls)]


def obligations(limits, text):
    """Each obligation, with how many hypotheses speak of its states alone, the lines of all states that it begins with, and all others."""
    kind, rows = re.search(r"disk (\w+) (\d)", text).groups()
    low = [("view", tables(int(rows)))] + ([("stable", tables(int(rows)))] if kind == "async" else [])
    for layer, part in PART.findall(text):
        run, wake, calls, waking = limits[layer]
        state = variables(part)
        memory = [(name, ["0", "1"]) for name in re.findall(r"^  memory (\w+)", part, re.MULTILINE)]
        begun = ["".join(them) for them in itertools.product(lines_of("state", state), lines_of("memory", memory), lines_of("low", low))]
        asleep = ["".join(them) for them in itertools.product(lines_of("state", state), lines_of("low", low))]
        related, settled = 1 + len(re.findall(r"^  always", part, re.MULTILINE)), len(re.findall(r"^  settled", part, re.MULTILINE))
        cut = (stops(calls), picks("picks", run), picks("wake", wake))
        yield f"{layer}.init", 0, [""], [picks("picks", run)]
        for name, given in re.findall(r"^  op (\w+)\((\w*)", part, re.MULTILINE):
            args = lines_of("arg", [(given, ["0", "1"])] if given else [])
            yield f"{layer}.call.{name}", related, begun, [args, picks("picks", run)]
            yield f"{layer}.cut.{name}", related, begun, [args, *cut]
        for name in re.findall(r"^  tick (\w+)", part, re.MULTILINE):
            yield f"{layer}.tick.{name}", related, begun, [picks("picks", run)]
            yield f"{layer}.cuttick.{name}", related, begun, [*cut]
        yield f"{layer}.idle", related, begun if memory else asleep, [picks("picks", run), picks("wake", wake)]
        yield f"{layer}.again", settled, lines_of("low", low), [stops(waking), picks("picks", max(run, wake)), picks("wake", wake), picks("other", wake)]
        low = state


def shown(ask, name, hypotheses, begun, others):
    """Whether some schedule shows the obligation. Where a hypothesis on the states alone is false, no other schedule with these is tried."""
    for states in begun:
        for chosen in itertools.product(*others):
            answer = ask(f"ygg-schedule 1\nobligation {name}\n{states}{''.join(chosen)}end\n")
            word, _, rest = answer.rstrip("\n").partition(" ")
            if word == "shows":
                return True
            if word not in ("holds", "hypothesis"):
                raise ValueError(f"{name}, {states}{''.join(chosen)}: {answer}")
            if word == "hypothesis" and int(rest) < hypotheses:
                break
    return False


def tried(program):
    """Each obligation of each file by name, and what is wrong of its verdict, or None."""
    with tempfile.TemporaryDirectory() as folder:
        file, schedule = pathlib.Path(folder) / "f.ygg", pathlib.Path(folder) / "f.schedule"

        def ran(*words):
            return subprocess.run([program, *words], stdin=subprocess.DEVNULL, capture_output=True, text=True, timeout=60).stdout

        def ask(text):
            schedule.write_text(text)
            return ran("replay", str(file), str(schedule))

        for title, limits, text in variants():
            file.write_text(text)
            said = {name: word for word, name in re.findall(r"^(holds|fails) (\S+)$", ran("verify", str(file)), re.MULTILINE)}
            listed = list(obligations(limits, text))
            yield f"obligations of {title}", None if list(said) == [name for name, *_ in listed] else f"{list(said)}, wanted {[name for name, *_ in listed]}"
            for name, *all_of in listed:
                found = "fails" if shown(ask, name, *all_of) else "holds"
                yield f"{name} of {title}", None if said.get(name) == found else f"verify says {said.get(name)}, the schedules {found}"
