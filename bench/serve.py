#!/usr/bin/env python3
"""Times served connections: bench/serve.py [--poll] [--connections N ..] [--cells N] [--steps N] [--groups N]
[--parameters N] [--rounds N] [--large-pages]

For each number of connections (1 and 8, with --poll 1, 8, 64 and 512) the pieces of a study that shows all statistics,
with three thresholds, are spread over so many lanes: of as many ranks, at most eight, and then of shares of the groups.
The bytes are made before, the connections are opened and welcomed, and then the bytes are sent over loopback, by a
thread for each connection, to

- a plain receiver, a Python process that only reads, a megabyte at a time: by a thread for each connection, with --poll
  by one thread that selects;
- `melissad serve`, with --poll `melissad poll`.

Both get the pieces, and then nothing behind the greetings: that shows what the ends of the connections take, in the
server with a save at each. Beside them `melissa fold` folds the tape of the same lanes, and a fold whose schedule is
refused shows what reading the tape takes. The output of the programs is full, so each ends at its first write, when all
is read, added and saved. A first run whose output is kept must have the fold's lines of steps and cells. So many rounds
are run in turn; least and median seconds are printed, and megabytes a second. TMPDIR says where files and checkpoints
are made. With `--large-pages` all programs run with the C library's setting that asks the system for large pages.
`rt ci` first; MELISSA and MELISSAD name programs that lie elsewhere.
"""
import argparse
import multiprocessing
import os
import random
import selectors
import socket
import statistics
import struct
import subprocess
import sys
import tempfile
import threading
import time

from fold import write_study
from timing import SERVER, run, use_large_pages

HOST = "127.0.0.1"
WORKERS = 8  # of `melissad serve`
MOST_RANKS = 8
ROOM = 2**20  # bytes that the plain receiver reads at once
HELLO, WELCOME = struct.Struct(">IBHIIHH"), struct.Struct(">IBI")
FILES = ["study.toml", "tape", "schedule", "text", "folded"]


def arguments():
    parser = argparse.ArgumentParser()
    for name, number in [("cells", 100_000), ("steps", 1), ("groups", 200), ("parameters", 5), ("rounds", 5)]:
        parser.add_argument("--" + name, type=int, default=number)
    parser.add_argument("--poll", action="store_const", dest="command", const="poll", default="serve")
    parser.add_argument("--connections", type=int, nargs="+")
    parser.add_argument("--large-pages", action="store_true")
    parser.set_defaults(all=True, clients=1)
    options = parser.parse_args()
    options.connections = options.connections or ([1, 8] if options.command == "serve" else [1, 8, 64, 512])
    if options.command == "serve" and max(options.connections) > WORKERS:
        parser.error(f"{WORKERS} connections are served at once, and all are welcomed before the bytes are sent")
    return options


# What is sent.


def lanes_of(options, connections):
    """For each connection its rank and its pieces: those of its share of the groups in the rank's block."""
    rows, shares, randomness = options.parameters + 2, connections // options.ranks, random.Random(1)
    for number in range(connections):
        share, rank = divmod(number, options.ranks)
        first, end = (edge * options.cells // options.ranks for edge in (rank, rank + 1))
        count, pieces = end - first, bytearray()
        for group in range(share * options.groups // shares, (share + 1) * options.groups // shares):
            for step in range(options.steps):
                body = 25 + 2 * rows * count
                pieces += struct.pack(">IBIIIHHII", body, 1, 1, group, step, 0, rows, first, count)
                pieces += randomness.randbytes(2 * rows * count)
        yield rank, bytes(pieces)


def write_tape(path, lanes):
    with open(path, "wb") as tape:
        tape.write(b"MTAP" + struct.pack(">HI", 1, len(lanes)))
        for rank, pieces in lanes:
            tape.write(struct.pack(">BHI", 0, rank, len(pieces)))
            tape.write(pieces)


def greet(port, rank):
    """A connection that was welcomed."""
    connection = socket.create_connection((HOST, port))
    connection.sendall(HELLO.pack(15, 6, 1, 0, 1, 0, rank))
    answer = connection.recv(WELCOME.size, socket.MSG_WAITALL)
    if answer[:5] != WELCOME.pack(5, 7, 0)[:5]:
        sys.exit(f"{answer.hex()} is no welcome")
    return connection


def send(connection, pieces):
    with connection:
        connection.sendall(pieces)


def send_all(connections, lanes):
    lots = [(connection, pieces) for connection, (_, pieces) in zip(connections, lanes)]
    senders = [threading.Thread(target=send, args=lot) for lot in lots]
    for sender in senders:
        sender.start()
    for sender in senders:
        sender.join()


def empty(lanes):
    return [(rank, b"") for rank, _ in lanes]


# Who receives it.


def read_out(connection):
    room = bytearray(ROOM)
    while connection.recv_into(room):
        pass


def read_by_threads(connections):
    readers = [threading.Thread(target=read_out, args=(connection,)) for connection in connections]
    for reader in readers:
        reader.start()
    for reader in readers:
        reader.join()


def read_by_one(connections):
    room, left = bytearray(ROOM), len(connections)
    with selectors.DefaultSelector() as selector:
        for connection in connections:
            selector.register(connection, selectors.EVENT_READ)
        while left:
            for key, _ in selector.select():
                if not key.fileobj.recv_into(room):
                    selector.unregister(key.fileobj)
                    left -= 1


def welcome(door):
    connection, _ = door.accept()
    connection.recv(HELLO.size, socket.MSG_WAITALL)
    connection.sendall(WELCOME.pack(5, 7, 0))
    return connection


def receive(door, number, read):
    read([welcome(door) for _ in range(number)])


def plain(command, lanes):
    """The seconds of a plain receiver, from the first byte behind the welcomes to its end."""
    read = read_by_one if command == "poll" else read_by_threads
    with socket.create_server((HOST, 0), backlog=len(lanes)) as door:
        receiver = multiprocessing.get_context("fork").Process(target=receive, args=(door, len(lanes), read))
        receiver.start()
        connections = [greet(door.getsockname()[1], rank) for rank, _ in lanes]
        before = time.perf_counter()
        send_all(connections, lanes)
        receiver.join()
        return time.perf_counter() - before


def free_port():
    with socket.socket() as asked:
        asked.bind((HOST, 0))
        return asked.getsockname()[1]


def await_door(port, server):
    """Waits until the server listens. That takes one of its connections, which says nothing."""
    while server.poll() is None:
        try:
            socket.create_connection((HOST, port)).close()
            return
        except ConnectionError:
            time.sleep(0.01)
    sys.exit(f"the server ended with {server.returncode} before it listened")


def watch_peak(pid, peaks):
    """The peak memory of a process while it runs, in bytes. What wait4 tells of it counts the memory of this one too,
    which it was forked from."""
    while True:
        try:
            with open(f"/proc/{pid}/status") as file:
                lines = [line for line in file if line.startswith("VmHWM")]
        except (FileNotFoundError, ProcessLookupError):
            return
        if not lines:
            return
        peaks.append(int(lines[0].split()[1]) * 1024)
        time.sleep(0.01)


def served(command, study, lanes, folder, output="/dev/full", wanted=6):
    """The seconds of a server, from the first byte behind the welcomes to its end, and its peak memory in bytes."""
    port = free_port()
    words = [os.path.abspath(SERVER), command, study, f"{HOST}:{port}", str(len(lanes) + 1)]
    with open(output, "wb") as out:
        server, peaks = subprocess.Popen(words, stdout=out, stderr=subprocess.DEVNULL, cwd=folder), [0]
        threading.Thread(target=watch_peak, args=(server.pid, peaks), daemon=True).start()
        try:
            await_door(port, server)
            connections = [greet(port, rank) for rank, _ in lanes]
            before = time.perf_counter()
            send_all(connections, lanes)
            _, status = os.waitpid(server.pid, 0)
            server.returncode = os.waitstatus_to_exitcode(status)
            seconds = time.perf_counter() - before
        finally:
            if server.returncode is None:
                server.kill()
                server.wait()
    if server.returncode != wanted:
        sys.exit(f"the server ended with status {server.returncode}")
    return seconds, max(peaks)


# What is measured.


def cells_of(path):
    """The lines of steps and cells of a text."""
    with open(path, "rb") as file:
        text = file.read()
    return text[text.index(b"\nstep ") : text.index(b"\nend\n")]


def check(options, lanes, folder):
    """A first run: what is served must be what is folded."""
    study, tape, _, text, folded = (os.path.join(folder, name) for name in FILES)
    served(options.command, study, lanes, folder, text, 0)
    run("fold", study, tape, output=folded, folder=folder)
    if cells_of(text) != cells_of(folded):
        sys.exit("the lines of steps and cells aren't those of the fold")


def round_of(options, lanes, folder):
    """The seconds of each, and the server's peak memory."""
    study, tape, schedule, _, _ = (os.path.join(folder, name) for name in FILES)
    read, nothing_read = plain(options.command, lanes), plain(options.command, empty(lanes))
    added, peak = served(options.command, study, lanes, folder)
    nothing_added, _ = served(options.command, study, empty(lanes), folder)
    whole, _, _ = run("fold", study, tape, output="/dev/full", wanted=6, folder=folder)
    reading, _, _ = run("fold", study, tape, schedule, wanted=4, folder=folder)
    return {
        "plain receiver": read,
        "plain receiver, less the time of empty lanes": read - nothing_read,
        options.command: added,
        f"{options.command}, less the time of empty lanes": added - nothing_added,
        "fold without its text": whole,
        "fold, less the time of reading": whole - reading,
    }, peak


def tell(options, lanes, folder):
    size = sum(len(pieces) for _, pieces in lanes)
    print(f"{len(lanes)} connections, {options.ranks} ranks, {size / 1e6:.1f} MB")
    rounds = [round_of(options, lanes, folder) for _ in range(options.rounds)]
    for name in rounds[0][0]:
        times = [seconds[name] for seconds, _ in rounds]
        least, median = min(times), statistics.median(times)
        print(f"  {name}: least {least:.3f} s, median {median:.3f} s, {size / median / 1e6:.0f} MB/s")
    print(f"  peak memory of the server {max(peak for _, peak in rounds) / 1e6:.1f} MB")


def main():
    options = arguments()
    if options.large_pages:
        use_large_pages()
    for connections in options.connections:
        options.ranks = min(connections, MOST_RANKS)
        with tempfile.TemporaryDirectory() as folder:
            study, tape, schedule, _, _ = (os.path.join(folder, name) for name in FILES)
            lanes = list(lanes_of(options, connections))
            write_study(study, options)
            write_tape(tape, lanes)
            with open(schedule, "w") as file:
                file.write("no schedule")
            check(options, lanes, folder)
            tell(options, lanes, folder)


if __name__ == "__main__":
    main()
