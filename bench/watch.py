#!/usr/bin/env python3
"""Times a watch over many groups and events: bench/watch.py [GROUPS EVENTS TICKS]

Makes a study and an events file (beats and ends of random groups from a fixed seed, with so many ticks among
them) in a folder of its own, watches it three times with the program that `rt ci` leaves, output to nowhere,
and prints for each run the seconds and the peak memory. `rt ci` first.
"""
import os
import random
import sys
import tempfile

from timing import run


def write_study(path, groups):
    with open(path, "w") as study:
        study.write(f"cells = 1\nsteps = 1\ngroups = {groups}\nslots = {groups}\nsilence = 300\n")
        study.write('[[parameters]]\nname = "x"\nlow = 0\nhigh = 65535\n')


def write_events(path, groups, events, ticks):
    randomness = random.Random(1)
    every = max(1, events // ticks)
    with open(path, "w") as file:
        for now in range(events):
            if now % every == 0:
                file.write(f"tick {now}\n")
            elif now % 16 == 1:
                file.write(f"done {randomness.randrange(groups)} 1 {now}\n")
            else:
                file.write(f"beat {randomness.randrange(groups)} 1 {now}\n")


def main():
    groups, events, ticks = map(int, sys.argv[1:4]) if len(sys.argv) > 3 else (65_535, 100_000, 1_000)
    with tempfile.TemporaryDirectory() as folder:
        study, file = os.path.join(folder, "study.toml"), os.path.join(folder, "events")
        write_study(study, groups)
        write_events(file, groups, events, ticks)
        print(f"groups {groups} events {events} ticks {ticks}")
        for _ in range(3):
            seconds, _, peak = run("watch", study, file)
            print(f"{seconds:.2f} s, peak {peak / 1e6:.1f} MB")


if __name__ == "__main__":
    main()
