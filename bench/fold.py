#!/usr/bin/env python3
"""Times the proved program on a large tape: bench/fold.py [--cells N] [--steps N] [--groups N] [--parameters N]
[--ranks N] [--clients N] [--all] [--bins] [--beside COMMAND [--rounds N]] [--large-pages]

Makes a study and a tape with one client lane for each rank and client that share cells (random samples from a fixed
seed) in a folder of its own, folds it three times with the program that `rt ci` leaves, output to nowhere, and prints
for each run the seconds, those of the processor, the nanoseconds per cell, step and group, and the peak memory beside
the tape's size. Then it folds it three times over an output that is full: the program ends at its first write, when all
is read and added. The difference of the least seconds is what the text takes. With `--all` the study shows all
statistics and has three thresholds; without, power alone. With `--bins` it is folded over histograms and the bins text
is written. With `--beside` another program that reads and adds the same tape is run too, in turn with the fold without
its text, so many rounds, and the medians of both are printed with their ratio; in COMMAND `{study}` and `{tape}` stand
for the files' names. With `--large-pages` all programs run with the C library's setting that asks the system for large
pages. `rt ci` first.
"""
import argparse
import os
import random
import shlex
import statistics
import struct
import tempfile

from timing import run, use_large_pages


def arguments():
    parser = argparse.ArgumentParser()
    for name, number in [("cells", 100_000), ("steps", 1), ("groups", 200), ("parameters", 5), ("ranks", 1), ("clients", 1)]:
        parser.add_argument("--" + name, type=int, default=number)
    parser.add_argument("--all", action="store_true")
    parser.add_argument("--bins", action="store_const", dest="command", const="bins", default="fold")
    parser.add_argument("--beside")
    parser.add_argument("--rounds", type=int, default=7)
    parser.add_argument("--large-pages", action="store_true")
    return parser.parse_args()


def write_study(path, options):
    shown = "thresholds = [10000, 32768, 50000]" if options.all else 'statistics = ["power"]'
    with open(path, "w") as study:
        for key in ["cells", "steps", "groups", "ranks", "clients"]:
            study.write(f"{key} = {getattr(options, key)}\n")
        study.write(f"{shown}\n")
        for k in range(options.parameters):
            study.write(f'[[parameters]]\nname = "x{k}"\nlow = 0\nhigh = 65535\n')


def overlaps(options):
    """The rank, the client, the first cell and the number of cells of each overlap that has cells."""
    for rank in range(options.ranks):
        for client in range(options.clients):
            first = max(rank * options.cells // options.ranks, client * options.cells // options.clients)
            end = min((rank + 1) * options.cells // options.ranks, (client + 1) * options.cells // options.clients)
            if first < end:
                yield rank, client, first, end - first


def write_tape(path, options):
    rows = options.parameters + 2
    randomness = random.Random(1)
    lanes = list(overlaps(options))
    with open(path, "wb") as tape:
        tape.write(b"MTAP" + struct.pack(">HI", 1, len(lanes)))
        for rank, client, first, count in lanes:
            body = 25 + 2 * rows * count
            tape.write(struct.pack(">BHI", 0, rank, options.groups * options.steps * (4 + body)))
            for group in range(options.groups):
                for step in range(options.steps):
                    tape.write(struct.pack(">IBIIIHHII", body, 1, 1, group, step, client, rows, first, count))
                    tape.write(randomness.randbytes(2 * rows * count))


def compare(options, study, tape):
    """The medians of the fold without its text and of the other program, run in turn."""
    other, *words = [word.format(study=study, tape=tape) for word in shlex.split(options.beside)]
    own, others = [], []
    for _ in range(options.rounds):
        own.append(run(options.command, study, tape, output="/dev/full", wanted=6))
        others.append(run(*words, program=other))
    for place, name in [(0, "by the clock"), (1, "of the processor")]:
        first, second = (statistics.median(times[place] for times in rounds) for rounds in [own, others])
        print(f"{name}: {first:.3f} s beside {second:.3f} s, {first / second:.2f}")


def main():
    options = arguments()
    if options.large_pages:
        use_large_pages()
    with tempfile.TemporaryDirectory() as folder:
        study, tape = os.path.join(folder, "study.toml"), os.path.join(folder, "tape")
        write_study(study, options)
        write_tape(tape, options)
        print(f"tape {os.path.getsize(tape) / 1e6:.1f} MB, {options}")
        events = options.cells * options.steps * options.groups
        whole = [run(options.command, study, tape) for _ in range(3)]
        for seconds, user, peak in whole:
            print(f"{seconds:.3f} s, {user:.3f} s of the processor, {seconds * 1e9 / events:.1f} ns per cell, step and group, peak {peak / 1e6:.1f} MB")
        added = [run(options.command, study, tape, output="/dev/full", wanted=6) for _ in range(3)]
        for seconds, user, _ in added:
            print(f"without the text: {seconds:.3f} s, {user:.3f} s of the processor, {seconds * 1e9 / events:.1f} ns per cell, step and group")
        if options.beside:
            compare(options, study, tape)
        text = os.path.join(folder, "text")
        run(options.command, study, tape, output=text)
        size = os.path.getsize(text) / 1e6
        rest = min(run[0] for run in whole) - min(run[0] for run in added)
        if size >= 1:
            print(f"the text: {size:.1f} MB in {rest:.3f} s, {size / rest:.0f} MB/s")


if __name__ == "__main__":
    main()
