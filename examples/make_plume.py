#!/usr/bin/env python3
"""Runs the simulations of examples/plume.toml as its design says, and makes their tape. Needs nothing but Python.

    melissa design examples/plume.toml > DESIGN
    make_plume.py DESIGN TAPE
    melissa fold examples/plume.toml TAPE > RESULT

Dye enters a channel at two inlets on the left, drifts to the right and spreads. How much, how wide and for how long
each inlet gives dye are the parameters, so that each of them matters in another part of the channel.
"""
import functools
import struct
import sys

ROWS, COLUMNS, STEPS, RANKS = 20, 48, 4, 4  # as in plume.toml, whose cells are row after row
INLETS = [6, 13]  # their rows
SPEED = 16.0  # columns in a step
FRONT = 0.3  # steps in which an inlet opens and closes


@functools.lru_cache(maxsize=1000)
def plume(inlet, dye, width, time, step):
    """The dye of an inlet in each cell at the end of a step. Across the stream it falls off as (1 - aside^2)^2."""
    cells = [0] * (ROWS * COLUMNS)
    for column in range(COLUMNS):
        left = step + 1 - column / SPEED  # when what is here now left the inlet
        share = ramp(left / FRONT) * ramp((time / 100 - left) / FRONT)
        if share == 0:
            continue
        spread = width / 100 + column / 12
        for row in range(ROWS):
            aside = (row - INLETS[inlet]) / spread
            inside = 1 - aside * aside
            if inside > 0:
                cells[row * COLUMNS + column] = int(dye * share * width / 100 / spread * inside * inside)
    return cells


def ramp(x):
    return min(1.0, max(0.0, x + 0.5))


def simulate(values, step):
    return [upper + lower for upper, lower in zip(plume(0, *values[:3], step), plume(1, *values[3:], step))]


def groups(path):
    """For each group the values of its simulations, from a design text: lines `group G sim S VALUES`."""
    found = {}
    with open(path, encoding="ascii") as design:
        for words in map(str.split, design):
            if words[0] == "group":
                found.setdefault(int(words[1]), []).append([int(word) for word in words[4:]])
    return found


def piece(group, step, cells, fields):
    """What the simulations of a group have in these cells, as a frame. There is one client, and the life is 1."""
    body = struct.pack(">BIIIHHII", 1, 1, group, step, 0, len(fields), cells.start, len(cells))
    for field in fields:
        body += struct.pack(f">{len(cells)}H", *field[cells.start : cells.stop])
    return struct.pack(">I", len(body)) + body


def tape(ensemble):
    """A tape with a lane for each rank."""
    cells = ROWS * COLUMNS
    blocks = [range(rank * cells // RANKS, (rank + 1) * cells // RANKS) for rank in range(RANKS)]
    lanes = [bytearray() for _ in blocks]
    for group, simulations in ensemble.items():
        for step in range(STEPS):
            fields = [simulate(values, step) for values in simulations]
            for block, lane in zip(blocks, lanes):
                lane += piece(group, step, block, fields)
    head = b"MTAP" + struct.pack(">HI", 1, RANKS)
    return head + b"".join(struct.pack(">BHI", 0, rank, len(lane)) + lane for rank, lane in enumerate(lanes))


def main():
    if len(sys.argv) != 3:
        sys.exit(__doc__)
    with open(sys.argv[2], "wb") as out:
        out.write(tape(groups(sys.argv[1])))


main()
