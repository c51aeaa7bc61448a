#!/usr/bin/env python3
"""Sends one life of one group to a melissa server. Needs nothing but Python's standard library (3.11).

    client.py STUDY GROUP LIFE HOST:PORT

The group's simulations are those of the study's design. What they give is told by simulate() below: put your own model
there. As it stands it is the solver of docs/FORMATS.md, so that what is sent is what `melissad group` sends. The bytes
and their order are described in docs/FORMATS.md: Frames, Samples, Blocks, Design text and Sessions.

For each pair of a rank and a client that share cells there is one connection. Ends with 0 where all was sent.
"""
import socket
import struct
import sys
import tomllib

PIECE, BEAT, BYE, HELLO, WELCOME, REFUSE = 1, 2, 3, 6, 7, 8  # kinds of frames
VERSION = 1  # of the handshake
LONGEST_BODY = 67_108_864
REASONS = {
    1: "another version is spoken",
    2: "the study has no such group",
    3: "the study has no such client",
    4: "the study has no such rank",
    5: "this client shares no cell with this rank",
    6: "the first frame was no hello",
}


def simulate(study, values, step, field, cell):
    """What a simulation with these parameter values gives: the 16 bits of a sample, from 0 to 65,535. Under `i16` take
    your number modulo 65,536."""
    shares = [
        (value - parameter["low"]) * 1024 // (parameter["high"] - parameter["low"] + 1)
        for value, parameter in zip(values, study["parameters"])
    ]
    weighted = sum((1 + (k + cell + step + field) % 4) * share for k, share in enumerate(shares))
    return weighted + shares[0] * shares[-1] // 16384


# The design.


def words(seed):
    """The words of PCG XSH-RR 64/32 on stream 54."""
    factor, step, mask = 6364136223846793005, 109, 2**64 - 1
    state = ((seed + step) * factor + step) & mask
    while True:
        x, turn = ((state ^ (state >> 18)) >> 27) & 0xFFFFFFFF, state >> 59
        yield (x >> turn | x << (32 - turn)) & 0xFFFFFFFF
        state = (state * factor + step) & mask


def simulations(study, group):
    """The parameter values of a group's simulations: A, B, and for each k A with the k-th value of B."""
    drawn, parameters = words(study.get("seed", 0)), study["parameters"]
    for _ in range(group + 1):
        rows = [[], []]
        for parameter in parameters:
            low, width = parameter["low"], parameter["high"] - parameter["low"] + 1
            for row in rows:
                row.append(low + next(drawn) * width // 2**32)
    a, b = rows
    return [a, b, *(a[:k] + [b[k]] + a[k + 1 :] for k in range(len(parameters)))]


# Which cells go where.


def span(index, number, cells):
    """The first cell of a block or part and the one behind its last."""
    return index * cells // number, (index + 1) * cells // number


def overlap(study, rank, client):
    """The cells that a client sends to a rank."""
    cells = study["cells"]
    block, part = span(rank, study.get("ranks", 1), cells), span(client, study.get("clients", 1), cells)
    return range(max(block[0], part[0]), min(block[1], part[1]))


def pairs(study):
    """Each rank and client that share cells, with these cells."""
    for rank in range(study.get("ranks", 1)):
        for client in range(study.get("clients", 1)):
            if cells := overlap(study, rank, client):
                yield rank, client, cells


# Frames.


def frame(body):
    return struct.pack(">I", len(body)) + body


def hello(group, life, client, rank):
    return frame(struct.pack(">BHIIHH", HELLO, VERSION, group, life, client, rank))


def piece(study, group, life, rows, step, field, client, cells):
    """All simulations of a group at a step and field, in the cells that a client sends to a rank."""
    plane = step * len(study.get("fields", [""])) + field
    body = struct.pack(">BIIIHHII", PIECE, life, group, plane, client, len(rows), cells[0], len(cells))
    for values in rows:
        samples = (simulate(study, values, step, field, cell) for cell in cells)
        body += struct.pack(f">{len(cells)}H", *samples)
    return frame(body)


def receive(connection, size):
    """The next bytes of a connection, all of them."""
    received = b""
    while len(received) < size:
        more = connection.recv(size - len(received))
        if not more:
            sys.exit("the server closed the connection without an answer")
        received += more
    return received


def await_welcome(connection):
    """Reads the server's answer to a hello, and ends the program where it is no welcome."""
    (size,) = struct.unpack(">I", receive(connection, 4))
    if not 1 <= size <= LONGEST_BODY:
        sys.exit("the server's answer is no frame")
    body = receive(connection, size)
    if body[0] == REFUSE and size == 6:
        reason, value = struct.unpack(">BI", body[1:])
        sys.exit(f"refused for reason {reason} ({REASONS.get(reason, 'unknown')}), value {value}")
    if body[0] != WELCOME or size != 5:
        sys.exit("the server's answer is neither a welcome nor a refusal")


# Sending.


def send_pair(study, group, life, address, rank, client, cells, last):
    """The session of one rank and client on a connection of its own."""
    rows = simulations(study, group)
    with socket.create_connection(address) as connection:
        connection.sendall(hello(group, life, client, rank))
        await_welcome(connection)
        connection.sendall(frame(struct.pack(">BII", BEAT, group, life)))
        for step in range(study["steps"]):
            for field in range(len(study.get("fields", [""]))):
                connection.sendall(piece(study, group, life, rows, step, field, client, cells))
        if last:
            connection.sendall(frame(struct.pack(">BII", BYE, group, life)))


def send_group(study, group, life, address):
    everyone = list(pairs(study))
    for number, (rank, client, cells) in enumerate(everyone):
        send_pair(study, group, life, address, rank, client, cells, number + 1 == len(everyone))


def main():
    match sys.argv[1:]:
        case [path, group, life, where]:
            with open(path, "rb") as text:
                study = tomllib.load(text)
            host, _, port = where.rpartition(":")
            send_group(study, int(group), int(life), (host, int(port)))
        case _:
            sys.exit(__doc__)


if __name__ == "__main__":
    main()
