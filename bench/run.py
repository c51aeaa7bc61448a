#!/usr/bin/env python3
"""Times lanes on threads: bench/run.py [--cells N] [--steps N] [--groups N] [--parameters N] [--ranks N] [--clients N]
[--rounds N] [--large-pages]

Makes a study that shows all statistics, with three thresholds, and a tape of it in a folder of its own, and then, in turn,
so many rounds: `melissa fold` of the tape, and `melissad run` of it with 1, 2 and 4 workers. The output is full, so each
program ends at its first write, when all is read and added. Prints the least and the median seconds of each, and of
both the rate of adding beside that of one worker and the cost of one worker beside the fold. Adding is what is left
when two parts are taken off that no worker shares: reading the tape (a fold of it whose schedule is refused), and
making the ranks' states (a run of a tape without lanes). With `--large-pages` all programs run with the C library's
setting that asks the system for large pages. `rt ci` first; MELISSA and MELISSAD name programs that lie elsewhere.
"""
import argparse
import os
import statistics
import struct
import tempfile

from fold import write_study, write_tape
from timing import SERVER, run, use_large_pages

WORKERS = [1, 2, 4]
FILES = ["study.toml", "tape", "empty", "schedule", "made"]


def arguments():
    parser = argparse.ArgumentParser()
    for name, number in [("cells", 100_000), ("steps", 1), ("groups", 200), ("parameters", 5), ("ranks", 4), ("clients", 1), ("rounds", 12)]:
        parser.add_argument("--" + name, type=int, default=number)
    parser.add_argument("--large-pages", action="store_true")
    parser.set_defaults(all=True)
    return parser.parse_args()


def round_of(folder):
    """The seconds of each command."""
    study, tape, empty, schedule, made = (os.path.join(folder, name) for name in FILES)
    refused = {"wanted": 4, "folder": folder}
    full = {"output": "/dev/full", "wanted": 6, "folder": folder}
    times = {
        "reading the tape": run("fold", study, tape, schedule, **refused),
        "reading no lane": run("fold", study, empty, schedule, **refused),
        "a run of no lane": run("run", study, empty, "1", made, program=SERVER, **full),
        "fold": run("fold", study, tape, **full),
    }
    for workers in WORKERS:
        times[workers] = run("run", study, tape, str(workers), made, program=SERVER, **full)
    return {name: seconds for name, (seconds, _, _) in times.items()}


def tell(name, times, events):
    shared = times["reading the tape"] + times["a run of no lane"] - times["reading no lane"]
    print(f"{name} of the rounds: reading the tape {times['reading the tape']:.3f} s, making the states {shared - times['reading the tape']:.3f} s")
    print(f"  fold: {times['fold']:.3f} s, {times['fold'] * 1e9 / events:.1f} ns per cell, step and group")
    for workers in WORKERS:
        ratio = (times[1] - shared) / (times[workers] - shared)
        print(f"  {workers} workers: {times[workers]:.3f} s, adding alone {times[workers] - shared:.3f} s, {ratio:.2f} times one worker's rate")
    print(f"  one worker beside the fold: {times[1] / times['fold']:.2f}")


def main():
    options = arguments()
    if options.large_pages:
        use_large_pages()
    with tempfile.TemporaryDirectory() as folder:
        study, tape, empty, schedule, _ = (os.path.join(folder, name) for name in FILES)
        write_study(study, options)
        write_tape(tape, options)
        with open(empty, "wb") as file:
            file.write(b"MTAP" + struct.pack(">HI", 1, 0))
        with open(schedule, "w") as file:
            file.write("no schedule")
        events = options.cells * options.steps * options.groups
        print(f"tape {os.path.getsize(tape) / 1e6:.1f} MB, {options}")
        rounds = [round_of(folder) for _ in range(options.rounds)]
        for name, measure in [("least", min), ("median", statistics.median)]:
            tell(name, {key: measure(times[key] for times in rounds) for key in rounds[0]}, events)


if __name__ == "__main__":
    main()
