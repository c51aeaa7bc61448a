#!/usr/bin/env python3
"""Times a trial: bench/trial.py [--cells N] [--steps N] [--groups N] [--parameters N] [--ranks N] [--clients N] [--all]

Makes a study in a folder of its own, where the checkpoints go too, and with the program that `rt ci` leaves a trial of
it: three times with its tape and schedule saved, three times without. Then it folds the saved tape with the saved
schedule three times over an output that is full, so that the program ends at its first write, when all is read and
added. The least seconds of a trial that saves nothing, less those of the fold, are what the making takes beyond the
reading. Prints the seconds, those of the processor and the peak memory beside the sizes of the two files. With `--all`
the study shows all statistics and has three thresholds. `rt ci` first.
"""
import argparse
import os
import tempfile

from timing import run

NUMBERS = [("cells", 10_000), ("steps", 1), ("groups", 100), ("parameters", 5), ("ranks", 4), ("clients", 3)]


def arguments():
    parser = argparse.ArgumentParser()
    for name, number in NUMBERS:
        parser.add_argument("--" + name, type=int, default=number)
    parser.add_argument("--all", action="store_true")
    return parser.parse_args()


def study_text(options):
    keys = [f"{key} = {getattr(options, key)}" for key, _ in NUMBERS if key != "parameters"]
    keys.append("thresholds = [10000, 32768, 50000]" if options.all else 'statistics = ["power"]')
    tables = [f'[[parameters]]\nname = "x{k}"\nlow = 0\nhigh = 65535' for k in range(options.parameters)]
    return "\n".join(keys + tables) + "\n"


def tell(what, runs):
    for seconds, user, peak in runs:
        print(f"{what}: {seconds:.3f} s, {user:.3f} s of the processor, peak {peak / 1e6:.1f} MB")
    return min(seconds for seconds, _, _ in runs)


def main():
    options = arguments()
    with tempfile.TemporaryDirectory() as folder:
        os.chdir(folder)
        study, tape, schedule = "study.toml", "tape", "schedule"
        with open(study, "w") as file:
            file.write(study_text(options))
        saved = [run("trial", study, "42", tape, schedule) for _ in range(3)]
        size, events = os.path.getsize(tape), sum(1 for _ in open(schedule))
        print(f"tape {size / 1e6:.1f} MB, {events} events, {options}")
        tell("trial, saved", saved)
        whole = tell("trial", [run("trial", study, "42") for _ in range(3)])
        folded = tell("fold without its text", [run("fold", study, tape, schedule, output="/dev/full", wanted=6) for _ in range(3)])
        print(f"making beyond reading: {whole - folded:.3f} s, {size / 1e6 / max(whole - folded, 1e-9):.0f} MB/s")


main()
