#!/usr/bin/env python3
"""Times an export and a resume of 100,000 cells beside a copy of their files: bench/resume.py [ROUNDS] [--ranks N] [--large-pages]

Makes a study of 100,000 cells, five parameters and three thresholds and a tape with one group and a save in a folder of
its own, and folds it with the program that `rt ci` leaves, so that the checkpoint stores hold its states. Then it exports
them, resumes from the files with a tape that has no lane, over an output that is full, so that no text is made, and does
the same on another number of ranks, which cuts the states anew. Beside each it copies the files, without a sync. It
prints the least and the greatest milliseconds of each, how many times the copy's that is, and the peak memory.
"""
import argparse
import os
import shutil
import struct
import tempfile
import time

from fold import overlaps, write_study
from timing import run, use_large_pages


def write_saved_tape(path, options):
    """One group of samples 7 on a lane for each rank, and a control lane for each with a save."""
    rows = options.parameters + 2
    lanes = list(overlaps(options))
    with open(path, "wb") as tape:
        tape.write(b"MTAP" + struct.pack(">HI", 1, len(lanes) + options.ranks))
        for rank, client, first, count in lanes:
            body = 25 + 2 * rows * count
            tape.write(struct.pack(">BHI", 0, rank, 4 + body))
            tape.write(struct.pack(">IBIIIHHII", body, 1, 1, 0, 0, client, rows, first, count) + b"\0\7" * (rows * count))
        for rank in range(options.ranks):
            tape.write(struct.pack(">BHI", 1, rank, 5) + struct.pack(">IB", 1, 4))


def copied(folder, ranks):
    before = time.perf_counter()
    for rank in range(ranks):
        shutil.copyfile(os.path.join(folder, f"kept.{rank}"), os.path.join(folder, f"copy.{rank}"))
    return time.perf_counter() - before


def tell(name, times, copies):
    least = min(seconds for seconds, _, _ in times)
    most = max(seconds for seconds, _, _ in times)
    peak = max(memory for _, _, memory in times) / 1e6
    print(f"{name}: {least * 1e3:.0f} to {most * 1e3:.0f} ms, {least / min(copies):.1f} times the copy, peak memory {peak:.0f} MB")


def main():
    parser = argparse.ArgumentParser()
    parser.add_argument("rounds", nargs="?", type=int, default=5)
    parser.add_argument("--ranks", type=int, default=1)
    parser.add_argument("--large-pages", action="store_true")
    chosen = parser.parse_args()
    if chosen.large_pages:
        use_large_pages()
    options = argparse.Namespace(cells=100_000, steps=1, groups=200, parameters=5, ranks=chosen.ranks, clients=1, all=True)
    with tempfile.TemporaryDirectory() as folder:
        study, other, tape, none = (os.path.join(folder, name) for name in ["study.toml", "other.toml", "tape", "none"])
        write_study(study, options)
        write_study(other, argparse.Namespace(**{**vars(options), "ranks": options.ranks + 1}))
        write_saved_tape(tape, options)
        with open(none, "wb") as file:
            file.write(b"MTAP" + struct.pack(">HI", 1, 0))
        run("fold", study, tape, output="/dev/full", wanted=6, folder=folder)
        exports, resumes, cuts, copies = [], [], [], []
        for _ in range(chosen.rounds):
            exports.append(run("export", study, "kept", folder=folder))
            copies.append(copied(folder, options.ranks))
            resumes.append(run("resume", study, str(options.ranks), "kept", none, output="/dev/full", wanted=6, folder=folder))
            cuts.append(run("resume", other, str(options.ranks), "kept", none, output="/dev/full", wanted=6, folder=folder))
        size = sum(os.path.getsize(os.path.join(folder, f"kept.{rank}")) for rank in range(options.ranks))
        print(f"files {size / 1e6:.1f} MB, a copy {min(copies) * 1e3:.0f} to {max(copies) * 1e3:.0f} ms")
        tell("export", exports, copies)
        tell("resume with an empty tape", resumes, copies)
        tell(f"resume on {options.ranks + 1} ranks", cuts, copies)


if __name__ == "__main__":
    main()
