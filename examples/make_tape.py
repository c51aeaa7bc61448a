#!/usr/bin/env python3
"""Makes a study and a tape for it, and checks what melissa says of them. Needs nothing but Python's standard library.

    make_tape.py STUDY TAPE         writes the two files
    melissa fold STUDY TAPE > RESULT
    make_tape.py --check RESULT     computes each line again, from the samples, and compares

The ensemble is a small channel: ten cells over three ranks and two clients, two fields at two steps, six groups of two
parameters, signed samples. Each client sends to each rank whose cells it has on a lane of its own. Change the numbers
below, or put your own model into simulate(), to make another. docs/FORMATS.md describes both files and the result.
"""
import math
import random
import struct
import sys

CELLS, STEPS, GROUPS, RANKS, CLIENTS = 10, 2, 6, 3, 2
FIELDS = ["level", "speed"]
THRESHOLDS = [-500, 0, 500]
PARAMETERS = [("inflow", 0, 1000), ("slope", -50, 50)]

PIECE, BEAT, BYE = 1, 2, 3  # kinds of frames
CLIENT_LANE = 0
VERSION, SIGNED = 2, 1  # of a tape


def simulate(values, step, field, cell):
    """What a simulation with these parameter values gives: a number from -32,768 to 32,767."""
    inflow, slope = values
    if FIELDS[field] == "level":
        return inflow * (step + 1) - slope * (cell + 1)
    return inflow * slope // 10 + cell * (step - inflow)


def ensemble():
    """For each group the parameter values of its simulations: A, B, and for each k A with the k-th value of B."""
    draw = random.Random(1)
    groups = []
    for _ in range(GROUPS):
        a = [draw.randint(low, high) for _, low, high in PARAMETERS]
        b = [draw.randint(low, high) for _, low, high in PARAMETERS]
        mixed = [a[:k] + [b[k]] + a[k + 1 :] for k in range(len(PARAMETERS))]
        groups.append([a, b, *mixed])
    return groups


# The study.


def study():
    quoted = ", ".join(f'"{name}"' for name in FIELDS)
    lines = [
        f"cells = {CELLS}",
        f"steps = {STEPS}",
        f"groups = {GROUPS}",
        f"ranks = {RANKS}",
        f"clients = {CLIENTS}",
        'samples = "i16"',
        f"fields = [{quoted}]",
        f"thresholds = {THRESHOLDS}",
    ]
    for name, low, high in PARAMETERS:
        lines += ["", "[[parameters]]", f'name = "{name}"', f"low = {low}", f"high = {high}"]
    return "\n".join(lines) + "\n"


# The tape.


def span(index, number):
    """The first cell of a block or part and the one behind its last."""
    return index * CELLS // number, (index + 1) * CELLS // number


def overlap(rank, client):
    """The cells that a client sends to a rank."""
    block, part = span(rank, RANKS), span(client, CLIENTS)
    return range(max(block[0], part[0]), min(block[1], part[1]))


def overlaps():
    """Each rank and client that share cells, with these cells."""
    for rank in range(RANKS):
        for client in range(CLIENTS):
            if cells := overlap(rank, client):
                yield rank, client, cells


def frame(body):
    return struct.pack(">I", len(body)) + body


def piece(group, simulations, step, field, client, cells):
    """All simulations of a group at a step and field, in the cells that a client sends to a rank. Its life is 1."""
    plane = step * len(FIELDS) + field
    body = struct.pack(">BIIIHHII", PIECE, 1, group, plane, client, len(simulations), cells[0], len(cells))
    for values in simulations:
        body += struct.pack(f">{len(cells)}h", *(simulate(values, step, field, cell) for cell in cells))
    return frame(body)


def lane(client, cells):
    """What a client sends to a rank over the whole run."""
    sent = b""
    for group, simulations in enumerate(ensemble()):
        sent += frame(struct.pack(">BII", BEAT, group, 1))
        for step in range(STEPS):
            for field in range(len(FIELDS)):
                sent += piece(group, simulations, step, field, client, cells)
        sent += frame(struct.pack(">BII", BYE, group, 1))
    return sent


def tape():
    lanes = [(rank, lane(client, cells)) for rank, client, cells in overlaps()]
    head = b"MTAP" + struct.pack(">HBI", VERSION, SIGNED, len(lanes))
    return head + b"".join(struct.pack(">BHI", CLIENT_LANE, rank, len(sent)) + sent for rank, sent in lanes)


# The result, from the samples and by the plain formulas.


def covariance(xs, ys):
    """n * n times the covariance of two columns of n numbers."""
    n, x_sum, y_sum = len(xs), sum(xs), sum(ys)
    return sum((n * x - x_sum) * (n * y - y_sum) for x, y in zip(xs, ys)) // n


def correlation(xs, ys):
    """In millionths, cut off towards 0. None where a column doesn't vary."""
    c, product = covariance(xs, ys), covariance(xs, xs) * covariance(ys, ys)
    if product == 0:
        return None
    size = math.isqrt(10**12 * c * c // product)
    return size if c >= 0 else -size


def millionths(number):
    if number is None:
        return "-"
    whole, rest = divmod(abs(number), 10**6)
    return f"{'-' if number < 0 else ''}{whole}.{rest:06}"


def sobol_line(name, a, b, c):
    first, rest = correlation(b, c), correlation(a, c)
    total = None if rest is None else 10**6 - rest
    numbers = covariance(b, c), covariance(a, c), covariance(a, a), covariance(b, b), covariance(c, c)
    return " ".join(["sobol", name, millionths(first), millionths(total), *map(str, numbers)])


def cell_lines(groups, step, field, cell):
    columns = list(zip(*([simulate(values, step, field, cell) for values in group] for group in groups)))
    outputs = columns[0] + columns[1]
    n, total = len(outputs), sum(outputs)
    powers = [sum(w**k for w in outputs) for k in (1, 2, 3, 4)]
    yield f"step {step} field {FIELDS[field]} cell {cell} groups {len(groups)}"
    yield " ".join(["power", *map(str, powers)])
    yield f"variance {sum((n * w - total) ** 2 for w in outputs) // n}/{n * (n - 1)}"
    yield f"third {sum((n * w - total) ** 3 for w in outputs) // n}/{n**3}"
    yield f"extrema {min(outputs)} {max(outputs)}"
    yield " ".join(["exceed", *(str(sum(w > threshold for w in outputs)) for threshold in THRESHOLDS)])
    for k, (name, _, _) in enumerate(PARAMETERS):
        yield sobol_line(name, columns[0], columns[1], columns[2 + k])


def result():
    """The lines that melissa prints when each piece has come."""
    groups, planes = ensemble(), STEPS * len(FIELDS)
    yield "melissa-result 1"
    yield (
        f"study cells {CELLS} steps {STEPS} groups {GROUPS} parameters {len(PARAMETERS)} ranks {RANKS} "
        f"clients {CLIENTS} fields {len(FIELDS)}"
    )
    pairs = [(rank, client) for rank, client, _ in overlaps()]
    for rank in range(RANKS):
        others = sum(r == rank for r, _ in pairs) - 1
        accepted = GROUPS * planes
        yield (
            f"rank {rank} accepted {accepted} kept {others * accepted} replay 0 stale 0 repeated 0 foreign 0 0 0 0 0 0"
        )
    for number, (rank, _) in enumerate(pairs):
        yield f"lane {number} rank {rank} client events {GROUPS * (planes + 2)} clean"
    for step in range(STEPS):
        for field in range(len(FIELDS)):
            for cell in range(CELLS):
                yield from cell_lines(groups, step, field, cell)
    yield "end"


def check(path):
    with open(path, encoding="ascii") as text:
        printed = text.read().split("\n")
    expected = [*result(), ""]
    for number, (line, wanted) in enumerate(zip(printed, expected), 1):
        if line != wanted:
            sys.exit(f"line {number} is\n  {line}\nand should be\n  {wanted}")
    if len(printed) != len(expected):
        sys.exit(f"{len(printed) - 1} lines, and there should be {len(expected) - 1}")
    print(f"all {len(expected) - 1} lines are right")


def main():
    match sys.argv[1:]:
        case ["--check", path]:
            check(path)
        case [study_path, tape_path]:
            with open(study_path, "w", encoding="ascii") as out:
                out.write(study())
            with open(tape_path, "wb") as out:
                out.write(tape())
        case _:
            sys.exit(__doc__)


main()
