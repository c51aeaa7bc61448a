#!/usr/bin/env python3
"""Times the checkpoint of a rank of 100,000 cells, five parameters and three thresholds: bench/save.py [ROUNDS]

Makes a program in a folder of its own, proved and built by `rt run` from copies of the crates: a rank takes three pieces,
and its checkpoint of 25.6 MB is made and recovered 40 times each. A book takes the same pieces, and then 40 saves into a
keeper in memory, or 4 into the checkpoint store's files, each with its syncs. Beside it a plain Rust program copies as
many bytes into new memory, 40 times, and writes as many into a new file with one sync, 4 times. Prints the milliseconds
of each and the megabytes a second, least and greatest of five rounds, and the peak memory.

Then it folds 1,000,000 pieces of one cell without a save, with the program that `rt ci` leaves, and in turn with that of
an earlier build where MELISSA_BEFORE names it.
"""
import argparse
import os
import shutil
import subprocess
import sys
import tempfile
import time

import timing
from fold import write_study, write_tape

HERE = os.path.dirname(os.path.abspath(__file__))
ROOT = os.path.join(HERE, "..")
LOWER = ["mls_model", "mls_laws", "mls_base", "mls_text", "mls_frame", "mls_ckpt", "mls_power", "mls_cov", "mls_field"]
CRATES = LOWER + ["mls_ledger", "mls_assembly", "mls_rank", "mls_tape", "mls_book", "mls_slot"]
NAME = "save_and_recover"
TIMES, STORES = 40, 4
SIZE = 25_600_000

MAIN = """//! Saves and recovers a rank.
#![tactic(auto)]

mod timing;

use std::process::ExitCode;

fn main(rt: HostRuntime) -> ExitCode {
    match timing::run(&rt) {
        Ok(()) => ExitCode::SUCCESS,
        Err(_) => ExitCode::FAILURE,
    }
}
"""

TIMING = """//! How long a checkpoint takes. One word (the program's name) makes checkpoints, two recover them, three do neither. Of
//! a book four words save into memory, five into files, six not at all.

ghost use Rattle.std.specs.Prelude.{◌≡◌, ◌+◌, ◌<◌, ◌≤◌};
ghost use Rattle.mls_model.specs.Outcomes.{total_count};
ghost use Rattle.mls_rank.specs.Cores.{counts_of};

use mls_base::faults::NoMemory;
use mls_base::memory::MemKeeper;
use mls_base::numbers::Numbers;
use mls_base::outside::Keeper;
use mls_base::shape::Shape;
use mls_book::Book;
use mls_field::field::Field;
use mls_frame::{Seen, view};
use mls_rank::{LaneKind, RankCore};
use mls_slot::{FileDisk, SlotKeeper};
use mls_tape::{Lanes, Wire};
use std::alloc::Global;
use std::env;

const SAVE: [u8; 5] = [0, 0, 0, 1, 4];

const NUMBERS: Numbers = Numbers {
    cells: 100_000,
    steps: 1,
    groups: 200,
    parameters: 5,
    ranks: 1,
    clients: 1,
    slots: 1,
    silence: 300,
    lives: 3,
    thresholds: 3,
    threshold: [10000, 32768, 50000, 0, 0, 0, 0, 0],
    signed: false,
    fields: 1,
};

fn piece(alloc: Global, group: u8) -> Result<Vec<u8>, NoMemory> {
    let mut bytes = Vec::new(alloc);
    bytes.extend_from_slice(&[
        0, 0x15, 0x5c, 0xd9, 1, 0, 0, 0, 1, 0, 0, 0, group, 0, 0, 0, 0, 0, 0, 0, 7, 0, 0, 0, 0, 0, 1, 0x86, 0xa0,
    ])?;
    let samples = vec![in alloc; 77u8; 1_400_000]?;
    bytes.extend_from_slice(samples.as_slice())?;
    Ok(bytes)
}

fn step(core: &mut RankCore<Field>, bytes: &[u8]) -> bool
    requires { total_count (counts_of core.old) < 1000 }
    ensures { total_count (counts_of core.new) ≤ total_count (counts_of core.old) + 1 }
{
    match view(bytes) {
        Seen::Whole { frame, .. } => core.step(LaneKind::Client, &frame).is_ok(),
        _ => false,
    }
}

fn fed(alloc: Global, shape: &Shape) -> Result<RankCore<Field>, NoMemory>
    requires { 0 < shape.now.ranks }
{
    let mut core = RankCore::<Field>::new(alloc, shape, 0)?;
    let first = piece(alloc, 1)?;
    step(&mut core, first.as_slice());
    let second = piece(alloc, 2)?;
    step(&mut core, second.as_slice());
    let third = piece(alloc, 3)?;
    step(&mut core, third.as_slice());
    Ok(core)
}

fn saves(alloc: Global, core: &RankCore<Field>, times: u32) -> usize {
    let mut size = 0;
    for _time in 0..times {
        if let Ok(bytes) = core.save_bytes(alloc) {
            size = bytes.len();
        }
    }
    size
}

fn recovers(alloc: Global, shape: &Shape, bytes: &[u8], times: u32) -> bool
    requires { 0 < shape.now.ranks }
{
    let mut all = true;
    for _time in 0..times {
        all = all && RankCore::<Field>::recover(alloc, shape, 0, bytes).is_ok();
    }
    all
}

fn offer<K: Keeper + Drop>(
    alloc: Global,
    book: &mut Book<Wire, Field, K>,
    lane: u32,
    number: u64,
    bytes: &[u8],
) -> bool {
    let Seen::Whole { frame, .. } = view(bytes) else {
        return false;
    };
    let wire = *book.lanes();
    if lane >= wire.lanes() {
        return false;
    }
    let kind = match lane {
        0 => LaneKind::Client,
        _ => LaneKind::Control,
    };
    let event = wire.decoded(lane, number, kind, frame);
    book.offer(alloc, &event).is_ok()
}

fn book_saves<K: Keeper + Drop>(alloc: Global, shape: &Shape, keeper: K, times: u64) -> Result<bool, NoMemory>
    requires { 0 < shape.now.ranks }
{
    let Ok(mut book) = Book::<Wire, Field, K>::new(alloc, Wire::new(2), shape, 0, keeper) else {
        return Err(NoMemory);
    };
    let mut all = true;
    for group in 0..3_u8 {
        let bytes = piece(alloc, group)?;
        all = offer(alloc, &mut book, 0, group as u64, bytes.as_slice()) && all;
    }
    for number in 0..times {
        all = offer(alloc, &mut book, 1, number, &SAVE) && all;
    }
    Ok(all)
}

fn rank_saves(alloc: Global, shape: &Shape, words: u32) -> Result<bool, NoMemory>
    requires { 0 < shape.now.ranks }
{
    let core = fed(alloc, shape)?;
    let bytes = core.save_bytes(alloc)?;
    if core.counts().accepted != 3 || bytes.len() < 20_000_000 {
        return Err(NoMemory);
    }
    let good = match words {
        1 => saves(alloc, &core, 40) == bytes.len(),
        2 => recovers(alloc, shape, bytes.as_slice(), 40),
        _ => true,
    };
    Ok(good)
}

pub fn run(rt: &HostRuntime) -> Result<(), NoMemory> {
    let alloc = rt.alloc();
    let mut words = 0u32;
    for _word in env::args(rt).map_err(|_| NoMemory)? {
        if words < 100 {
            words += 1;
        }
    }
    let Some(shape) = Shape::of(&NUMBERS) else {
        return Err(NoMemory);
    };
    shape.valid();
    let good = match words {
        4 => book_saves(alloc, &shape, MemKeeper::new(alloc, Vec::new(alloc)), 40)?,
        5 => book_saves(alloc, &shape, SlotKeeper::new(FileDisk::new(rt, 0)), 4)?,
        6 => book_saves(alloc, &shape, MemKeeper::new(alloc, Vec::new(alloc)), 0)?,
        _ => rank_saves(alloc, &shape, words)?,
    };
    if good { Ok(()) } else { Err(NoMemory) }
}
"""

COPY = """
fn main() {
    let bytes = vec![77u8; 25_600_000];
    let times = std::env::args().count() - 1;
    let mut seen = 0usize;
    for _ in 0..40 * times {
        seen += std::hint::black_box(bytes.clone()).len();
    }
    std::process::exit((seen & 1) as i32);
}
"""


def build_proved(folder):
    for crate in CRATES:
        shutil.copytree(os.path.join(ROOT, "crates", crate), os.path.join(folder, "crates", crate))
    with open(os.path.join(ROOT, "crates.txt")) as file:
        lines = [line for line in file if line.split(":")[0] in CRATES]
    with open(os.path.join(folder, "crates.txt"), "w") as file:
        file.writelines(lines + [f"{NAME}: mls_model mls_base mls_frame mls_tape mls_field mls_rank mls_book mls_slot\n"])
    source = os.path.join(folder, "crates", NAME, "src")
    os.makedirs(source)
    for name, text in [("main.rt", MAIN), ("timing.rt", TIMING)]:
        with open(os.path.join(source, name), "w") as file:
            file.write(text)
    crate = os.path.join(folder, "crates", NAME)
    subprocess.run(["rt", "run"], cwd=crate, check=False, stdout=subprocess.DEVNULL, stderr=subprocess.DEVNULL)
    return os.path.join(crate, "out", NAME)


def build_copy(folder):
    source, program = os.path.join(folder, "copy.rs"), os.path.join(folder, "copy")
    with open(source, "w") as file:
        file.write(COPY)
    subprocess.run(["rustc", "-O", "-C", "target-cpu=x86-64-v2", "-o", program, source], check=True)
    return program


def run(folder, *words):
    before = time.perf_counter()
    child = subprocess.Popen(words, cwd=folder, stdout=subprocess.DEVNULL, stderr=subprocess.DEVNULL)
    _, status, usage = os.wait4(child.pid, 0)
    if status != 0:
        raise SystemExit(f"{words[0]} ended with status {status}")
    return time.perf_counter() - before, usage.ru_maxrss * 1024 / 1e6


def write_files(folder, times):
    """The seconds of so many files of as many bytes, each with one sync, and no memory that is told of."""
    sent = bytes(SIZE)
    before = time.perf_counter()
    for number in range(times):
        with open(os.path.join(folder, f"file-{number}"), "wb", buffering=0) as file:
            file.write(sent)
            os.fsync(file.fileno())
    return time.perf_counter() - before, 0


def tell(name, many, few, times):
    each = [(seconds - min(few)[0]) / times for seconds, _ in many]
    peak = max(memory for _, memory in many)
    rates = " to ".join(f"{SIZE / 1e6 / seconds:.0f}" for seconds in (max(each), min(each)))
    memory = f", peak memory {peak:.1f} MB" if peak else ""
    print(f"{name}: {min(each) * 1e3:.1f} to {max(each) * 1e3:.1f} ms, {rates} MB/s{memory}")


def one_round(folder, program, copy):
    words = [run(folder, program, *"x" * number) for number in range(6)]
    return [*words, run(folder, copy, "x"), run(folder, copy), write_files(folder, STORES)]


def tell_checkpoints(folder, rounds):
    program, copy = build_proved(folder), build_copy(folder)
    saves, recovers, none, memory, files, book, copies, nothing, written = zip(*(one_round(folder, program, copy) for _ in range(rounds)))
    tell("save_bytes", saves, none, TIMES)
    tell("recover", recovers, none, TIMES)
    tell("a save into a keeper in memory", memory, book, TIMES)
    tell("a save into the store's files, with its syncs", files, book, STORES)
    tell("a copy into new memory", copies, nothing, TIMES)
    tell("a new file with one sync", written, [(0, 0)], STORES)


def tell_pieces(folder, rounds):
    """The seconds of folds of small pieces over an output that is full: all is read and added, and no text is made."""
    options = argparse.Namespace(cells=1, steps=16, groups=62_500, parameters=1, ranks=1, clients=1, all=False)
    study, tape = os.path.join(folder, "study.toml"), os.path.join(folder, "tape")
    write_study(study, options)
    write_tape(tape, options)
    before = os.environ.get("MELISSA_BEFORE")
    programs = [("this build", timing.PROGRAM)] + ([("the earlier build", before)] if before else [])
    times = [[timing.run("fold", study, tape, output="/dev/full", wanted=6, program=path)[0] for _, path in programs] for _ in range(rounds)]
    for (name, _), seconds in zip(programs, zip(*times)):
        print(f"1,000,000 pieces of one cell, {name}: {min(seconds):.3f} to {max(seconds):.3f} s")


def main():
    rounds = int(sys.argv[1]) if len(sys.argv) > 1 else 5
    with tempfile.TemporaryDirectory() as folder:
        tell_checkpoints(folder, rounds)
        tell_pieces(folder, rounds)


if __name__ == "__main__":
    main()
