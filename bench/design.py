#!/usr/bin/env python3
"""Times the largest design: bench/design.py [GROUPS PARAMETERS]

Makes a study in a folder of its own and prints its design three times with the program that `rt ci` leaves,
output to nowhere: for each run the seconds and the peak memory. `rt ci` first.
"""
import os
import sys
import tempfile

from timing import run


def main():
    groups, parameters = map(int, sys.argv[1:3]) if len(sys.argv) > 2 else (65_535, 16)
    with tempfile.TemporaryDirectory() as folder:
        study = os.path.join(folder, "study.toml")
        with open(study, "w") as file:
            file.write(f"cells = 1\nsteps = 1\ngroups = {groups}\nseed = 1\n")
            for k in range(parameters):
                file.write(f'[[parameters]]\nname = "x{k}"\nlow = 0\nhigh = 4294967295\n')
        print(f"groups {groups} parameters {parameters}")
        for _ in range(3):
            seconds, _, peak = run("design", study)
            print(f"{seconds:.2f} s, peak {peak / 1e6:.1f} MB")


if __name__ == "__main__":
    main()
