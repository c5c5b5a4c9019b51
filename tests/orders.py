"""The clauses of one obligation in many orders, on each of which the search of `ygg solve` must do well: a rule for which variable comes next may be led astray by an
order, and then the same clauses take a hundred times as long. bench/orders measures many more texts in many more orders.
"""
import gzip
import pathlib
import random

import certificates

FOLDER = pathlib.Path(__file__).resolve().parent.parent / "bench" / "measured" / "cnf"
TRIED = ("layers8_ok.readings.call.latest", "zfs_bad_wrap.zfs.call.get")
ORDERS = 3
# the most learned clauses: a search that isn't led astray takes half of them
BUDGET = 3000


def stored(name):
    """The clauses of a text of bench/measured/cnf/."""
    return certificates.clauses_in(gzip.decompress((FOLDER / f"{name}.cnf.gz").read_bytes()).decode())


def shuffled(clauses, seed):
    """The same clauses in another order, with the literals of each in another order, and other numbers of variables, all drawn by the seed."""
    draw = random.Random(seed)
    numbers = list(range(1, 1 + max(abs(literal) for clause in clauses for literal in clause)))
    draw.shuffle(numbers)
    other = [[numbers[abs(literal) - 1] * (1 if literal > 0 else -1) for literal in draw.sample(clause, len(clause))] for clause in clauses]
    draw.shuffle(other)
    return other


def written(clauses):
    """The clauses as a text in the DIMACS form."""
    variables = max(abs(literal) for clause in clauses for literal in clause)
    return f"p cnf {variables} {len(clauses)}\n" + "".join(" ".join(map(str, clause)) + " 0\n" for clause in clauses)


def texts():
    """Texts that are unsatisfiable, each with a title."""
    for name in TRIED:
        clauses = stored(name)
        for seed in range(1, 1 + ORDERS):
            yield f"order {seed} of {name}", written(shuffled(clauses, f"{name} {seed}"))
