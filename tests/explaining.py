"""What `explain` prints of schedules of files of examples/: of each kind of ending, and of those that are refused. The lines are worked by hand."""
import pathlib
import subprocess
import tempfile

CUT = """ygg-schedule 1
obligation pair.cut.put
state x 00
state y 00
low view 00;00;00;00;00
low stable 00;00;00;00;00
arg a 01
arg b 02
stop before 3
picks 011
wake 111
end
"""
CUT_FIRST = """ygg-explain 1
obligation pair.cut.put
state x 00
state y 00
low view 00;00;00;00;00
low stable 00;00;00;00;00
arg a 01
arg b 02
"""
CUT_REST = """settled
reached view 00;00;02;00;02
reached stable 00;00;02;00;02
picks 0
allowed x 00
allowed y 00
true relate 43:11
true relate 43:39
true relate 43:70
false relate 43:98 02 00
picks 1
allowed x 01
allowed y 02
true relate 43:11
true relate 43:39
false relate 43:70 00 01
true relate 43:98
shows pair.cut.put
"""
# all writes are kept, and power fails when the commit block is written: the call has happened
KEPT = """settled
reached view 00;01;02;01;02
reached stable 00;01;02;01;02
picks 0
allowed x 00
allowed y 00
true relate 43:11
true relate 43:39
false relate 43:70 01 00
false relate 43:98 02 00
picks 1
allowed x 01
allowed y 02
true relate 43:11
true relate 43:39
true relate 43:70
true relate 43:98
holds 1
"""
AGAIN = """ygg-schedule 1
obligation pair.again
low view 01;01;02;00;00
low stable 01;01;02;00;00
stop before 6
picks 011
wake -
other 111
end
"""
AGAIN_TOLD = """ygg-explain 1
obligation pair.again
low view 01;01;02;00;00
low stable 01;01;02;00;00
reached view 00;01;02;00;02
reached stable 00;01;02;00;02
shows pair.again
"""
STACK = """ygg-schedule 1
obligation ledger.cut.move
state t 61,03
low t 61,03,00,00
arg from 1
arg n 01
stop within 3
picks 0
wake -
end
"""
STACK_TOLD = """ygg-explain 1
obligation ledger.cut.move
state t 61,03
low t 61,03,00,00
arg from 1
arg n 01
settled
reached t 61,02,00,00
picks 0
allowed t 61,03
true relate 88:11
false relate 88:36 02 03
true always 89:11
true always 89:31
picks 1
allowed t 62,02
false relate 88:11 61 62
true relate 88:36
true always 89:11
true always 89:31
shows ledger.cut.move
"""


def edited(text, *pairs):
    """A text with parts of it in the place of others."""
    for old, new in pairs:
        assert old in text
        text = text.replace(old, new)
    return text


def rows():
    """The name of a file, a schedule, and the status and the lines that are printed."""
    yield "pair_broken", CUT, 1, CUT_FIRST + CUT_REST
    yield "pair_broken", edited(CUT, ("picks 011", "picks 111")), 2, CUT_FIRST + KEPT
    # the second word of the disk isn't the state's
    first = ("low view 00;00;00;00;00", "low view 00;00;00;00;07"), ("low stable 00;00;00;00;00", "low stable 00;00;00;00;07")
    yield "pair_broken", edited(CUT, *first), 2, edited(CUT_FIRST, *first) + "false relate 43:98 07 00\nhypothesis 0\n"
    # the block has nine calls
    yield "pair_broken", edited(CUT, ("stop before 3", "stop before 10")), 2, CUT_FIRST + "hypothesis 1\n"
    yield "pair_broken_recovery", AGAIN, 1, AGAIN_TOLD
    yield "ledger_broken", STACK, 1, STACK_TOLD
    # schedules that `replay` refuses
    yield "pair_broken", CUT[:-1], 2, "refused 34 12:1\n"
    yield "pair_broken", edited(CUT, ("arg a", "arg c")), 2, "refused 32 7:1\n"
    yield "pair_broken", edited(CUT, ("state x 00", "state x 1ff")), 2, "refused 33 3:1\n"
    yield "pair_broken", "verified 7\n", 2, "refused 31 1:1\n"
    yield "pair_broken", None, 2, "refused 73 0:2\n"


def cases(top, ygg):
    """Each row by its name, and what is wrong of what is printed, or None."""
    with tempfile.TemporaryDirectory() as room:
        for number, (name, schedule, status, wanted) in enumerate(rows(), 1):
            path = pathlib.Path(room, f"schedule {number}")
            if schedule is not None:
                path.write_text(schedule)
            words = [ygg, "explain", str(top / "examples" / f"{name}.ygg"), str(path)]
            done = subprocess.run(words, stdin=subprocess.DEVNULL, capture_output=True, timeout=600)
            found = done.returncode, done.stdout.decode("latin-1")
            yield f"explain {number} of {name}", None if found == (status, wanted) else f"{found}, wanted {(status, wanted)}"
