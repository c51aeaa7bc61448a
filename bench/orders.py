#!/usr/bin/env python3
"""Folds a tape under random complete schedules and compares the step and cell lines with those of the plain one:
bench/orders.py [--times N] [--seed N] [STUDY TAPE | --trial STUDY NUMBER]

Without words the study and the tape are those of examples/make_tape.py; with `--trial` the tape is the one that `melissa
trial` saves. Control lanes are taken out first. Then the premise is tested: any two fitting pieces of one rank, key and
client carry the same samples, and of each rank and key either no life has a piece of every client that shares cells with
the rank, or the greatest life has. A tape that fails it isn't folded. A random schedule has each rank's events in random
order, but that each lane's stay in theirs. Prints in how many of them the rank lines differ. `rt ci` first.
"""
import argparse
import os
import random
import struct
import subprocess
import sys
import tempfile
import tomllib
from collections import defaultdict
from itertools import islice

from timing import HERE, PROGRAM

CLIENT, PIECE = 0, 1
MAKER = os.path.join(HERE, "..", "examples", "make_tape.py")


def arguments():
    parser = argparse.ArgumentParser()
    parser.add_argument("--times", type=int, default=100)
    parser.add_argument("--seed", type=int, default=1)
    parser.add_argument("--trial", action="store_true")
    parser.add_argument("words", nargs="*")
    options = parser.parse_args()
    if len(options.words) not in ([2] if options.trial else [0, 2]):
        parser.error("a study and a tape, or with --trial a study and a number")
    return options


def melissa(folder, *words):
    """What the program prints. It runs in this folder, where it keeps its checkpoints."""
    done = subprocess.run([os.path.abspath(PROGRAM), *words], cwd=folder, capture_output=True, check=False)
    if done.returncode != 0:
        sys.exit(f"melissa {' '.join(words)} ended with status {done.returncode}: {done.stderr.decode()}")
    return done.stdout.decode()


def files(options, folder):
    """The names of the study and of the tape."""
    made, second = os.path.join(folder, "made.toml"), os.path.join(folder, "made.tape")
    if options.trial:
        study = os.path.abspath(options.words[0])
        melissa(folder, "trial", study, options.words[1], second, os.path.join(folder, "made.schedule"))
        return study, second
    if options.words:
        return map(os.path.abspath, options.words)
    subprocess.run([sys.executable, MAKER, made, second], check=True)
    return made, second


# The tape.


def read_tape(name):
    """What stands before the number of lanes, and the kind, rank and bytes of each lane."""
    with open(name, "rb") as file:
        tape = file.read()
    head = 6 if tape[4:6] == b"\0\1" else 7
    at, lanes = head + 4, []
    for _ in range(struct.unpack(">I", tape[head:at])[0]):
        kind, rank, length = struct.unpack(">BHI", tape[at : at + 7])
        lanes.append((kind, rank, tape[at + 7 : at + 7 + length]))
        at += 7 + length
    return tape[:head], lanes


def write_tape(name, head, lanes):
    with open(name, "wb") as file:
        file.write(head + struct.pack(">I", len(lanes)))
        for kind, rank, sent in lanes:
            file.write(struct.pack(">BHI", kind, rank, len(sent)) + sent)


def bodies(sent):
    """The bodies of a lane's frames."""
    at = 0
    while at + 4 <= len(sent):
        end = at + 4 + struct.unpack(">I", sent[at : at + 4])[0]
        yield sent[at + 4 : end]
        at = end


# The premise.


def read_study(name):
    with open(name, "rb") as file:
        study = tomllib.load(file)
    numbers = {key: study.get(key, 1) for key in ["cells", "steps", "groups", "ranks", "clients"]}
    return numbers | {"planes": numbers["steps"] * len(study.get("fields", [0])), "rows": len(study["parameters"]) + 2}


def overlap(study, rank, client):
    """The first cell and the number of cells that a client sends to a rank."""
    cells, ranks, clients = study["cells"], study["ranks"], study["clients"]
    first = max(rank * cells // ranks, client * cells // clients)
    end = min((rank + 1) * cells // ranks, (client + 1) * cells // clients)
    return first, max(0, end - first)


def fitting(study, rank, body):
    """Group and plane, life, client and samples of a piece that fits the rank, or nothing."""
    if body[0] != PIECE:
        return None
    life, group, plane, client, rows, first, count = struct.unpack(">IIIHHII", body[1:25])
    if rows != study["rows"] or group >= study["groups"] or plane >= study["planes"] or client >= study["clients"]:
        return None
    if count == 0 or (first, count) != overlap(study, rank, client):
        return None
    return (group, plane), life, client, body[25:]


def fails_the_premise(study, lanes, events):
    """A rank and key of which the order matters, or nothing."""
    samples, senders = {}, defaultdict(lambda: defaultdict(set))
    for (_, rank, sent), number in zip(lanes, events):
        for body in islice(bodies(sent), number):
            if piece := fitting(study, rank, body):
                key, life, client, carried = piece
                if samples.setdefault((rank, key, client), carried) != carried:
                    return rank, key
                senders[rank, key][life].add(client)
    for (rank, key), lives in senders.items():
        whole = sum(overlap(study, rank, client)[1] > 0 for client in range(study["clients"]))
        if max(map(len, lives.values())) == whole > len(lives[max(lives)]):
            return rank, key
    return None


# The schedules.


def lane_events(text):
    """The number of events of each lane."""
    return [int(line.split(" ")[6]) for line in text.split("\n") if line.startswith("lane ")]


def write_schedule(name, study, lanes, events, draw):
    with open(name, "w", encoding="ascii") as file:
        for rank in range(study["ranks"]):
            order = [k for k, lane in enumerate(lanes) if lane[1] == rank for _ in range(events[k])]
            draw.shuffle(order)
            file.writelines(f"{rank} {k}\n" for k in order)


def parts(text):
    """The lines before the step and cell lines, and these."""
    at = text.index("\nstep ") + 1
    return text[:at], text[at:]


def main():
    options = arguments()
    draw = random.Random(options.seed)
    with tempfile.TemporaryDirectory() as folder:
        study_name, made = files(options, folder)
        study, (head, lanes) = read_study(study_name), read_tape(made)
        lanes = [lane for lane in lanes if lane[0] == CLIENT]
        tape, schedule = os.path.join(folder, "tape"), os.path.join(folder, "schedule")
        write_tape(tape, head, lanes)
        plain = melissa(folder, "fold", study_name, tape)
        events = lane_events(plain)
        if found := fails_the_premise(study, lanes, events):
            sys.exit(f"the tape's order matters: rank {found[0]}, group and plane {found[1]}")
        differ = 0
        for time in range(options.times):
            write_schedule(schedule, study, lanes, events, draw)
            text = melissa(folder, "fold", study_name, tape, schedule)
            if parts(text)[1] != parts(plain)[1]:
                sys.exit(f"the step and cell lines differ: schedule {time} of seed {options.seed}")
            differ += parts(text)[0] != parts(plain)[0]
    print(f"{len(lanes)} lanes, {sum(events)} events: {options.times} schedules give the same step and cell lines, {differ} of them other rank lines")


if __name__ == "__main__":
    main()
