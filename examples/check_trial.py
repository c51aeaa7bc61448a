#!/usr/bin/env python3
"""Makes a trial, folds its tape again, and compares: examples/check_trial.py [STUDY [NUMBER]]

Runs `melissa trial STUDY NUMBER TAPE SCHEDULE` and `melissa fold STUDY TAPE SCHEDULE` in a folder of its own, and looks
that the rank lines of both are equal, that each rank accepted every group of the study at every step and field, that the
numbers of groups are those of the step lines, and that the first two power sums of the cells add up to the line `sum` of
the summary. It ends with a line that says what agreed, or with a difference and status 1. A larger study is
`large-trial.toml`, with number 7. `rt ci` first; set MELISSA to the program's path where it lies elsewhere.
"""
import os
import subprocess
import sys
import tempfile

HERE = os.path.dirname(os.path.abspath(__file__))
PROGRAM = os.path.abspath(os.environ.get("MELISSA", os.path.join(HERE, "..", "crates", "melissa", "out", "melissa")))


def run(folder, *words):
    ended = subprocess.run([PROGRAM, *words], cwd=folder, stdout=subprocess.PIPE, text=True)
    if ended.returncode != 0:
        sys.exit(f"{' '.join(words)} ended with {ended.returncode}")
    return ended.stdout.splitlines()


def starting(lines, word):
    return [line for line in lines if line.split()[0] == word]


def compare(what, one, other):
    if one != other:
        sys.exit(f"{what} differ:\n{one}\n{other}")


def main():
    study = os.path.abspath(sys.argv[1] if len(sys.argv) > 1 else os.path.join(HERE, "three-ranks.toml"))
    number = sys.argv[2] if len(sys.argv) > 2 else "42"
    with tempfile.TemporaryDirectory() as folder:
        summary = run(folder, "trial", study, number, "tape", "schedule")
        result = run(folder, "fold", study, "tape", "schedule")
    compare("the rank lines", starting(summary, "rank"), starting(result, "rank"))
    study_words = starting(result, "study")[0].split()
    numbers = {name: int(number) for name, number in zip(study_words[1::2], study_words[2::2])}
    accepted = numbers["steps"] * numbers.get("fields", 1) * numbers["groups"]
    compare("the accepted keys", [int(line.split()[3]) for line in starting(summary, "rank")], [accepted] * numbers["ranks"])
    compare("the groups", starting(summary, "groups"), [f"groups {numbers['groups']} {numbers['groups']}"])
    groups = [int(line.split()[-1]) for line in starting(result, "step")]
    compare("the numbers of groups", starting(summary, "groups"), [f"groups {min(groups)} {max(groups)}"])
    powers = [line.split() for line in starting(result, "power")]
    first, second = sum(int(words[1]) for words in powers), sum(int(words[2]) for words in powers)
    compare("the power sums", starting(summary, "sum"), [f"sum {first} {second}"])
    print(f"trial {number}: {len(starting(result, 'rank'))} rank lines, {len(powers)} power lines and the groups agree")


main()
