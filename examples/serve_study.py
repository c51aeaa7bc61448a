#!/usr/bin/env python3
"""Sends a whole study to a server and compares its result with a fold: examples/serve_study.py [--poll]

The study is three-ranks.toml: three ranks, two clients, two fields, twelve groups. `melissad serve` is started on a
free port, with --poll `melissad poll`, and gets, three groups at a time:

- all groups, the even ones by `melissad group`, the odd ones by client.py;
- a life of one group that breaks off in the middle of a piece, before the group comes whole as its next life;
- another group twice;
- a greeting of a group that the study doesn't have and one of another version, which are refused;
- a connection that says nothing.

The lines of steps and cells must be those of `melissa fold` of a trial's tape: there each group is accepted once, with
the same samples. The lane lines must be those of what was sent. It ends with a line that says what agreed, or with a
difference and status 1. `rt ci` first; MELISSA and MELISSAD name programs that lie elsewhere.
"""
import collections
import concurrent.futures
import os
import socket
import struct
import sys
import tempfile
import tomllib

import client
from serving import HERE, MELISSA, MELISSAD, OWN, Server, parted, run, stop_what_runs_at_the_end

STUDY = os.path.join(HERE, "three-ranks.toml")
BROKEN, TWICE = 5, 7  # groups
AT_ONCE = 3  # groups
NUMBER = "42"  # of the trial


def sent_by(group):
    """The program that sends a group, as words before the study."""
    if group % 2 == 0:
        return [MELISSAD, "group"]
    return [sys.executable, os.path.join(HERE, "client.py")]


def broken_bytes(study, life, client_number, cells):
    """What is sent behind the hello of a life that breaks off: a beat, a piece, and half of the next."""
    rows = client.simulations(study, BROKEN)
    pieces = [client.piece(study, BROKEN, life, rows, 0, field, client_number, cells) for field in (0, 1)]
    whole = client.frame(struct.pack(">BII", client.BEAT, BROKEN, life)) + pieces[0]
    return whole, pieces[1][: len(pieces[1]) // 2]


def break_off(study, server, pair):
    rank, client_number, cells = pair
    with socket.create_connection((server.host, server.port)) as connection:
        connection.sendall(client.hello(BROKEN, 1, client_number, rank))
        client.await_welcome(connection)
        connection.sendall(b"".join(broken_bytes(study, 1, client_number, cells)))


def refused(server, greeting, reason, value):
    with socket.create_connection((server.host, server.port)) as connection:
        connection.sendall(greeting)
        answer = client.receive(connection, 10)
    if answer != client.frame(struct.pack(">BBI", client.REFUSE, reason, value)):
        sys.exit(f"{greeting.hex()} was answered by {answer.hex()}")


def send(study, server, group, pair):
    """All that comes of a group, one after another."""
    life = 1
    if group == BROKEN:
        break_off(study, server, pair)
        life = 2
    for _ in range(2 if group == TWICE else 1):
        run(*sent_by(group), STUDY, str(group), str(life), server.address)


def send_all(study, server, pair):
    groups = study["groups"]
    refused(server, client.hello(groups, 1, 0, 0), 2, groups)
    refused(server, client.frame(struct.pack(">BHIIHH", client.HELLO, 2, 0, 1, 0, 0)), 1, 2)
    with concurrent.futures.ThreadPoolExecutor(AT_ONCE) as senders:
        list(senders.map(lambda group: send(study, server, group, pair), range(groups)))


def starting(lines, word):
    return [line for line in lines if line.split()[0] == word]


def behind_steps(lines):
    """The lines of steps and cells."""
    return lines[lines.index(starting(lines, "step")[0]) :]


def lanes_sent(study, pair):
    """What the lane lines must say behind their numbers, and how often."""
    planes, everyone, sent = study["steps"] * len(study["fields"]), list(client.pairs(study)), collections.Counter()
    for number, (rank, _, _) in enumerate(everyone):
        events = 1 + planes + (number + 1 == len(everyone))  # the beat, the pieces, on the last pair the bye
        sent[f"rank {rank} client events {events} clean"] += study["groups"] + 1
    rank, client_number, cells = pair
    whole, _ = broken_bytes(study, 1, client_number, cells)
    sent[f"rank {rank} client events 2 cut at {len(whole)}"] += 1
    return sent


def counts_sent(study, pair):
    """For each rank the keys that it must accept, the pieces that it got, and how many of them are foreign."""
    planes, groups = study["steps"] * len(study["fields"]), study["groups"]
    pieces = [0] * study["ranks"]
    for rank, _, _ in client.pairs(study):
        pieces[rank] += planes * (groups + 1)
    pieces[pair[0]] += 1  # of the life that breaks off
    return [(planes * groups, number, 0) for number in pieces]


def counts_told(lines):
    told = []
    for words in map(str.split, starting(lines, "rank")):
        outcomes, foreign = list(map(int, words[3:12:2])), list(map(int, words[13:]))
        told.append((outcomes[0], sum(outcomes), sum(foreign)))
    return told


def compare(what, one, other):
    if one != other:
        sys.exit(f"{what} differ:\n{one}\n{other}")


def check(study, pair, result, folded):
    """Compares what the server printed with the fold and with what was sent."""
    compare("the lines of steps and cells", behind_steps(result), behind_steps(folded))
    told = collections.Counter(line.split(" ", 2)[2] for line in starting(result, "lane"))
    compare("the lane lines", told, lanes_sent(study, pair))
    compare("the counts of the ranks", counts_told(result), counts_sent(study, pair))


def main():
    if sys.argv[1:] not in ([], ["--poll"]):
        sys.exit(__doc__)
    command = "poll" if sys.argv[1:] else "serve"
    stop_what_runs_at_the_end()
    with open(STUDY, "rb") as text:
        study = tomllib.load(text)
    pair = list(client.pairs(study))[1]  # the one that breaks off
    lanes = lanes_sent(study, pair).total()
    connections = lanes + 2  # with those that are refused
    with tempfile.TemporaryDirectory() as folder:
        with Server(STUDY, connections, command, folder) as server:
            send_all(study, server, pair)
            result, watch = map(str.splitlines, parted(server.text()))
        run(MELISSA, "trial", STUDY, NUMBER, "tape", "schedule", folder=folder)
        folded = run(MELISSA, "fold", STUDY, "tape", "schedule", folder=folder).splitlines()
    check(study, pair, result, folded)
    if command == "serve":
        compare("the groups of the watch", sum(map(int, watch[-1].split()[2::2])), study["groups"])
    cells, lines = len(starting(result, "step")), len(behind_steps(result)) - 1
    print(f"{command}: {connections + OWN} connections, {lanes} lanes, one of them cut;", end=" ")
    print(f"the {lines} lines of {cells} cells are those of the fold")


if __name__ == "__main__":
    main()
