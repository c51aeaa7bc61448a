#!/usr/bin/env python3
"""Times the kernel that adds a row of five parameters, beside the same loop in plain Rust: bench/kernel.py

Makes a program in a folder of its own that adds rows to a `Martinez` whose sums stay in cache, proved and built by
`rt run` from copies of the crates, and the same in plain Rust, built by `rustc -O -C target-cpu=x86-64-v2`. Each is run
with many and with few rows; the difference, divided by the number of rows, is the time of a row.
"""
import os
import shutil
import subprocess
import tempfile
import time

HERE = os.path.dirname(os.path.abspath(__file__))
ROOT = os.path.join(HERE, "..")
CRATES = ["mls_model", "mls_base", "mls_power", "mls_cov"]
MANY, FEW = 3000, 1000
PAIRS = 32_767

PROVED = """//! Adds rows of five parameters to sums that stay in cache.
#![tactic(auto)]

ghost use Rattle.std.specs.Prelude.{◌≡◌, ◌+◌, ◌≤◌, length};
ghost use Rattle.mls_cov.specs.Standing.{count_of, parameters_of};

use mls_base::row::Row;
use mls_cov::Martinez;
use std::process::ExitCode;

fn row_of(seed: u32) -> Row
    ensures { length result ≡ 7 }
{
    let mut row = Row::new();
    let mut x = seed;
    for _ in 0..7_u32 {
        x = x.wrapping_mul(1664525).wrapping_add(1013904223);
        row.push((x >> 16) as u16);
    }
    row
}

fn add_pairs(martinez: &mut Martinez, one: &Row, other: &Row)
    requires parameters { parameters_of martinez.old ≡ 5 }
    requires one { length one.now ≡ 7 }
    requires other { length other.now ≡ 7 }
    requires room { count_of martinez.old ≡ 0 }
{
    for _ in 0..32_767_u32 {
        martinez.add(one);
        martinez.add(other);
    }
}

fn main(_rt: HostRuntime) -> ExitCode {
    let mut seen = 0u64;
    for round in 0..ROUNDS_u32 {
        let one = row_of(round);
        let other = row_of(round + 2000);
        let mut martinez = Martinez::new(5);
        add_pairs(&mut martinez, &one, &other);
        seen = seen.wrapping_add(martinez.sum(mls_cov::Sum::A));
    }
    ExitCode::from((seen & 1) as u8)
}
"""

INVARIANTS = {
    "row_of": """use Rattle.std.proofs.Common.{◌≡◌, length}
use Rattle.kernel_adds.proofs.row_of.Given as goal

abbrev pub invariant-loop : goal.invariant-loop
invariant-loop l = length l.row ≡ l.counter
""",
    "add_pairs": """use Rattle.std.proofs.Common.{◌≡◌, ◌+◌}
use Rattle.mls_cov.specs.Standing.{count_of, parameters_of}
use Rattle.kernel_adds.proofs.add_pairs.Given as goal

abbrev pub invariant-loop : goal.invariant-loop
invariant-loop l = (count_of l.martinez ≡ l.counter + l.counter) × (parameters_of l.martinez ≡ 5)
""",
}

PLAIN = """
struct Row {
    samples: [u16; 18],
    len: usize,
}

struct Martinez {
    count: u32,
    parameters: usize,
    sums: [u64; 68],
}

impl Martinez {
    fn add(&mut self, row: &Row) {
        let row = &row.samples[..row.len];
        let (a, b) = (row[0] as u64, row[1] as u64);
        self.sums[0] += a;
        self.sums[1] += b;
        self.sums[2] += a * a;
        self.sums[3] += b * b;
        for (sums, c) in self.sums[4..].chunks_exact_mut(4).zip(&row[2..]).take(self.parameters) {
            let c = *c as u64;
            sums[0] += c;
            sums[1] += c * c;
            sums[2] += a * c;
            sums[3] += b * c;
        }
        self.count += 1;
    }
}

fn row_of(seed: u32) -> Row {
    let mut row = Row { samples: [0; 18], len: 0 };
    let mut x = seed;
    for _ in 0..7u32 {
        x = x.wrapping_mul(1664525).wrapping_add(1013904223);
        row.samples[row.len] = (x >> 16) as u16;
        row.len += 1;
    }
    row
}

fn add_pairs(martinez: &mut Martinez, one: &Row, other: &Row) {
    for _ in 0..32_767u32 {
        martinez.add(std::hint::black_box(one));
        martinez.add(std::hint::black_box(other));
    }
}

fn main() {
    let mut seen = 0u64;
    for round in 0..ROUNDSu32 {
        let (one, other) = (row_of(round), row_of(round + 2000));
        let mut martinez = Martinez { count: 0, parameters: 5, sums: [0; 68] };
        add_pairs(&mut martinez, &one, &other);
        seen = seen.wrapping_add(martinez.sums[0] + martinez.count as u64);
    }
    std::process::exit((seen & 1) as i32);
}
"""


def lines_of_crates():
    with open(os.path.join(ROOT, "crates.txt")) as file:
        return [line for line in file if line.split(":")[0] in CRATES]


def build_proved(folder, name, rounds):
    crate = os.path.join(folder, "crates", name)
    os.makedirs(os.path.join(crate, "src"))
    with open(os.path.join(crate, "src", "main.rt"), "w") as file:
        file.write(PROVED.replace("ROUNDS", str(rounds)))
    for function, invariant in INVARIANTS.items():
        os.makedirs(os.path.join(crate, "proofs", function))
        with open(os.path.join(crate, "proofs", function, "Invariants.antt"), "w") as file:
            file.write(invariant.replace("kernel_adds", name))
    with open(os.path.join(folder, "crates.txt"), "a") as file:
        file.write(f"{name}: mls_base mls_cov\n")
    subprocess.run(["rt", "run"], cwd=crate, check=False, stdout=subprocess.DEVNULL, stderr=subprocess.DEVNULL)
    return os.path.join(crate, "out", name)


def build_plain(folder, name, rounds):
    source = os.path.join(folder, name + ".rs")
    with open(source, "w") as file:
        file.write(PLAIN.replace("ROUNDS", str(rounds)))
    program = os.path.join(folder, name)
    subprocess.run(["rustc", "-O", "-C", "target-cpu=x86-64-v2", "-o", program, source], check=True)
    return program


def best(program):
    times = []
    for _ in range(5):
        before = time.perf_counter()
        subprocess.run([program], check=False)
        times.append(time.perf_counter() - before)
    return min(times)


def main():
    with tempfile.TemporaryDirectory() as folder:
        for crate in CRATES:
            shutil.copytree(os.path.join(ROOT, "crates", crate), os.path.join(folder, "crates", crate))
        with open(os.path.join(folder, "crates.txt"), "w") as file:
            file.writelines(lines_of_crates())
        proved = [build_proved(folder, "kernel_many", MANY), build_proved(folder, "kernel_few", FEW)]
        plain = [build_plain(folder, "plain_many", MANY), build_plain(folder, "plain_few", FEW)]
        for name, (many, few) in [("proved", proved), ("plain", plain)]:
            each = (best(many) - best(few)) * 1e9 / (2 * PAIRS * (MANY - FEW))
            print(f"{name}: {each:.1f} ns a row")


if __name__ == "__main__":
    main()
