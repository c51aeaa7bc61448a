#!/usr/bin/env python3
"""Compares runs on threads with folds: bench/workers.py [--times N] [--study STUDY] [--workers N ..]

No speed. For the numbers 1 to N, the tape of the study's trial of that number is run by `melissad run` with each number of
workers, and folded by `melissa fold` under the schedule that the run saved. Both texts must be equal byte for byte. Ends
with the first pair that differs. With `--study examples/large-trial.toml` a whole campaign is compared. `rt ci` first;
MELISSA and MELISSAD name programs that lie elsewhere.
"""
import argparse
import os
import sys
import tempfile

from timing import SERVER, run

HERE = os.path.dirname(os.path.abspath(__file__))


def read(path):
    with open(path, "rb") as file:
        return file.read()


def main():
    parser = argparse.ArgumentParser()
    parser.add_argument("--times", type=int, default=20)
    parser.add_argument("--study", default=os.path.join(HERE, "..", "examples", "three-ranks.toml"))
    parser.add_argument("--workers", type=int, nargs="+", default=[1, 2, 3, 8])
    options = parser.parse_args()
    study = os.path.abspath(options.study)
    compared = 0
    for number in range(1, options.times + 1):
        with tempfile.TemporaryDirectory() as folder:
            tape, plain, schedule, ran, folded = (os.path.join(folder, name) for name in ["tape", "plain", "schedule", "ran", "folded"])
            run("trial", study, str(number), tape, plain, folder=folder)
            for workers in options.workers:
                run("run", study, tape, str(workers), schedule, output=ran, program=SERVER, folder=folder)
                run("fold", study, tape, schedule, output=folded, folder=folder)
                if read(ran) != read(folded):
                    sys.exit(f"trial {number} with {workers} workers: the fold of the saved schedule differs")
                compared += 1
    print(f"{compared} runs of {options.times} trials, each equal to the fold of its schedule")


if __name__ == "__main__":
    main()
