#!/usr/bin/env python3
"""A simulation of a heated rod, and a client that sends it: the one of docs/TUTORIAL.md.

    rod.py STUDY GROUP LIFE HOST:PORT

The study is rod.toml. What is sent, and how, is client.py's.
"""
import functools

import client

CELLS, STEPS, MOMENTS = 40, 3, 150  # moments of a step
AIR = 20.0  # degrees


@functools.cache
def rod(wall, power, place, loss):
    """The temperatures of the cells at the end of each step, in degrees. The rod is as warm as the air at first."""
    heat = [power / 50 * max(0.0, 1 - abs(cell - place) / 3) for cell in range(CELLS)]
    now, ends = [AIR] * CELLS, []
    for _ in range(STEPS):
        for _ in range(MOMENTS):
            left, right = [wall, *now[:-1]], [*now[1:], now[-1]]
            now = [
                here + 0.4 * (before - 2 * here + behind) + heat[cell] - loss / 1000 * (here - AIR)
                for cell, (before, here, behind) in enumerate(zip(left, now, right))
            ]
        ends.append(now)
    return ends


def simulate(study, values, step, field, cell):
    """A sample: hundredths of a degree."""
    return round(100 * rod(*values)[step][cell])


if __name__ == "__main__":
    client.simulate = simulate
    client.main()
