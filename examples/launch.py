#!/usr/bin/env python3
"""A launcher that does what `melissa watch` decides. Needs nothing but Python's standard library (3.11).

    launch.py STUDY RESULT [--command TEMPLATE]             runs a study on this machine
    launch.py STUDY --print TEMPLATE [--address ADDR]       prints what to run elsewhere, as by SLURM
    launch.py --self-test                                   runs a small study, one of whose simulations is killed

What it hears it writes as lines into an events file (--events, launch.events if none is named), asks `melissa watch`
for the decisions, and does those that are new: it starts groups, `slots` of them at once, starts a silent one again as
its next life, and gives one up that had its last life. The study's `slots`, `silence` and `lives` say so.

On this machine it starts `melissad serve` on a free port, and for each life TEMPLATE, a command whose {study}, {group},
{life} and {address} are filled in; client.py is run where none is given. A process that runs is a beat, one that ends
with 0 is done. One that ends otherwise is heard no more, and comes again when `silence` has passed. The result text,
which is that of `melissa fold` whatever came twice or in parts, is written to RESULT. The server is told of the most
connections that could come; what is left of them at the end is opened and closed again. It serves eight at once.

With --print each start is a line on standard output, such as

    tail -n +1 -f heard | launch.py study.toml --print 'sbatch job.sh {group} {life} {address}' --address HOST:PORT | sh

and what it hears are lines of standard input, `beat GROUP LIFE`, `done GROUP LIFE` and `rank RANK`, which here the jobs
add to the file `heard`. It ends when no group runs or waits, or at the end of its input. In the first case it opens and
closes connections to ADDR, where one is given, until no server listens there.

docs/FORMATS.md describes both texts: Events file and Watch text. MELISSA and MELISSAD name programs that lie elsewhere.
"""
import argparse
import itertools
import os
import re
import select
import shlex
import subprocess
import sys
import tempfile
import time
import tomllib

import client
from serving import HERE, MELISSA, OWN, Server, begun, knock, parted, run, stop_what_runs_at_the_end

PLACES = "{study} {group} {life} {address}"
ROUND = 0.1  # seconds between two looks at the processes
MOST_LANES = 65_535  # that a server takes
NUMBER = "(0|[1-9][0-9]{0,8})"
HEARD = re.compile(f"(beat|done) {NUMBER} {NUMBER}|rank {NUMBER}")


def python(path):
    """The template of a Python program that takes client.py's words."""
    return f"{shlex.quote(sys.executable)} {shlex.quote(path)} {PLACES}"


def read_study(path):
    with open(path, "rb") as text:
        return tomllib.load(text)


class Watch:
    """The events that were heard, with their seconds since the beginning, and what `melissa watch` decides of them."""

    def __init__(self, study_path, events_path):
        self.study_path, self.events_path = study_path, events_path
        self.silence = read_study(study_path).get("silence", 300)
        self.beginning, self.now, self.known = time.monotonic(), 0, 0
        open(events_path, "w").close()

    def look(self):
        """Looks at the clock. All that is heard until the next look is heard now."""
        self.now = int(time.monotonic() - self.beginning)

    def hear(self, *events):
        with open(self.events_path, "a", encoding="ascii") as out:
            out.writelines(f"{event} {self.now}\n" for event in events)

    def decide(self):
        """The decisions that are new, as words, and how many groups are in each state."""
        self.hear("tick")
        _, *decisions, end = run(MELISSA, "watch", self.study_path, self.events_path).splitlines()
        new, self.known = decisions[self.known :], len(decisions)
        words = end.split()
        return [decision.split()[1:] for decision in new], dict(zip(words[1::2], map(int, words[2::2])))


def over(totals):
    return totals["running"] == totals["waiting"] == 0


# On this machine.


class Processes:
    """For each group that runs its life and its process."""

    def __init__(self, study_path, address, command):
        self.command, self.names = shlex.split(command), {"study": study_path, "address": address}
        self.running = {}

    def do(self, decision):
        match decision:
            case ["start" | "restart", group, life]:
                self.end(int(group))
                words = [word.format(group=group, life=life, **self.names) for word in self.command]
                self.running[int(group)] = int(life), begun(*words)
            case ["giveup", group]:
                self.end(int(group))
                print(f"group {group} is given up", file=sys.stderr)

    def end(self, group):
        """Ends what still runs of a group."""
        if group in self.running:
            _, process = self.running.pop(group)
            process.kill()
            process.wait()

    def end_all(self):
        for group in list(self.running):
            self.end(group)

    def done(self):
        """An event for each process that ended well since the last look. Those that ended otherwise are left silent."""
        ended = [group for group, (_, process) in self.running.items() if process.poll() is not None]
        for group in ended:
            life, process = self.running.pop(group)
            if process.returncode == 0:
                yield f"done {group} {life}"

    def beats(self):
        return [f"beat {group} {life}" for group, (life, _) in self.running.items()]


def supervise(watch, server, processes, ranks):
    """Hears, asks and does until no group runs or waits. The numbers of groups in each state."""
    between_beats, between_ticks = max(1, watch.silence // 3), max(1, watch.silence // 30)  # seconds
    beaten = ticked = -between_beats
    while True:
        if not server.runs():
            sys.exit(f"the server ended with {server.process.returncode}")
        watch.look()
        events = list(processes.done())
        if watch.now - beaten >= between_beats:
            events += processes.beats() + [f"rank {rank}" for rank in range(ranks)]
            beaten = watch.now
        if events or watch.now - ticked >= between_ticks:
            ticked = watch.now
            watch.hear(*events)
            decisions, totals = watch.decide()
            for decision in decisions:
                processes.do(decision)
            if over(totals):
                return totals
        time.sleep(ROUND)


def launch(study_path, result_path, command, events_path):
    """Runs a study on this machine. The numbers of groups in each state at the end."""
    study = read_study(study_path)
    lanes = study["groups"] * study.get("lives", 3) * len(list(client.pairs(study))) + 1  # one is left at the end
    if lanes + OWN > MOST_LANES:
        sys.exit(f"{lanes} connections could come, and a server takes at most {MOST_LANES - OWN}")
    with Server(study_path, lanes) as server:
        processes = Processes(study_path, server.address, command)
        try:
            totals = supervise(Watch(study_path, events_path), server, processes, study.get("ranks", 1))
        finally:
            processes.end_all()
        while server.runs():
            knock(server.host, server.port)
        result, _ = parted(server.text())
    with open(result_path, "w", encoding="ascii") as out:
        out.write(result)
    return totals


# Elsewhere.


def lines_of(descriptor):
    """The lines that come, one at a time, and None after each second without one."""
    rest = b""
    while True:
        if not select.select([descriptor], [], [], 1)[0]:
            yield None
            continue
        more = os.read(descriptor, 65_536)
        if not more:
            return
        *lines, rest = (rest + more).split(b"\n")
        yield from (line.decode("ascii", "replace").strip() for line in lines)


def printed(decision, template, study_path, address):
    match decision:
        case ["start" | "restart", group, life]:
            return template.format(study=study_path, group=group, life=life, address=address)
        case ["giveup", group]:
            return f"# group {group} is given up"
        case ["restart-rank", rank]:
            return f"# rank {rank} isn't heard"


def prompt(study_path, template, address, events_path):
    """Prints what to run, by what standard input says. The numbers of groups in each state at the end."""
    watch = Watch(study_path, events_path)
    for line in itertools.chain([None], lines_of(sys.stdin.fileno())):
        watch.look()
        if line and HEARD.fullmatch(line):
            watch.hear(line)
        elif line:
            print(f"'{line}' is of no known form", file=sys.stderr)
        decisions, totals = watch.decide()
        for decision in decisions:
            print(printed(decision, template, study_path, address), flush=True)
        if over(totals):
            break
    if address and over(totals):
        host, _, port = address.rpartition(":")
        while knock(host, int(port)):
            pass
    return totals


# The self-test.

KILLED = 3  # the group whose first life is killed
DYING = f"""import os, signal, sys
sys.path.insert(0, {HERE!r})
import client

simulate, calls = client.simulate, 0

def counted(*words):
    global calls
    calls += 1
    if calls == 100 and sys.argv[2:4] == ["{KILLED}", "1"]:
        os.kill(os.getpid(), signal.SIGKILL)
    return simulate(*words)

client.simulate = counted
client.main()
"""


def write(path, text):
    with open(path, "w", encoding="ascii") as out:
        out.write(text)


def made_study(keys):
    """A study of twelve groups with these keys, in this folder."""
    with open(os.path.join(HERE, "three-ranks.toml"), encoding="ascii") as text:
        write("study.toml", keys + text.read())


def cells_of(result):
    lines = result.splitlines()
    return lines[next(place for place, line in enumerate(lines) if line.startswith("step ")) :]


def launch_test():
    """One simulation kills itself between two pieces. It must come again, once, and the result must be the fold's."""
    made_study("slots = 4\nsilence = 1\nlives = 2\n")
    write("dying.py", DYING)
    totals = launch("study.toml", "result", python("dying.py"), "launch.events")
    told = run(MELISSA, "watch", "study.toml", "launch.events").splitlines()
    again = [line.split(" ", 1)[1] for line in told if " restart " in line]
    run(MELISSA, "trial", "study.toml", "1", "tape", "schedule")
    folded = run(MELISSA, "fold", "study.toml", "tape", "schedule")
    with open("result", encoding="ascii") as text:
        alike = cells_of(text.read()) == cells_of(folded)
    if again != [f"restart {KILLED} 2"] or totals["finished"] != 12 or not alike:
        sys.exit(f"self-test: {again}, {totals}, the lines of cells {'are' if alike else 'are not'} those of the fold")


def print_test():
    """Four groups are started, one is done and the next comes; another gives a beat, and nothing comes."""
    made_study("slots = 4\n")
    words = [sys.executable, os.path.join(HERE, "launch.py"), "study.toml", "--print", "sbatch job.sh {group} {life}"]
    ended = subprocess.run(words, input="done 1 1\nbeat 2 1\n", capture_output=True, text=True)
    if ended.stdout.splitlines() != [f"sbatch job.sh {group} 1" for group in range(5)]:
        sys.exit(f"self-test: {ended}")


def self_test():
    with tempfile.TemporaryDirectory() as folder:
        os.chdir(folder)
        try:
            launch_test()
            print_test()
        finally:
            os.chdir(HERE)
    print("self-test passed: a killed simulation came again, and the result is the fold's")


def main():
    parser = argparse.ArgumentParser(description=__doc__, formatter_class=argparse.RawDescriptionHelpFormatter)
    parser.add_argument("study")
    parser.add_argument("result", nargs="?")
    parser.add_argument("--command", default=python(os.path.join(HERE, "client.py")))
    parser.add_argument("--print", dest="template")
    parser.add_argument("--address", default="")
    parser.add_argument("--events", default="launch.events")
    stop_what_runs_at_the_end()
    if sys.argv[1:] == ["--self-test"]:
        self_test()
        return
    options = parser.parse_args()
    if (options.result is None) == (options.template is None):
        parser.error("either RESULT or --print TEMPLATE")
    if options.template:
        totals = prompt(options.study, options.template, options.address, options.events)
        print(f"{totals['finished']} groups finished, {totals['givenup']} given up", file=sys.stderr)
    else:
        totals = launch(options.study, options.result, options.command, options.events)
        print(f"{totals['finished']} groups finished, {totals['givenup']} given up: {options.result}")


if __name__ == "__main__":
    main()
