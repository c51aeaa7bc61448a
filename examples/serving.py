"""A server of one's own: `melissad serve` or `melissad poll` on a free port, known to listen, and never left behind.

A module of serve_study.py and launch.py. The programs are those that `rt ci` leaves; MELISSA and MELISSAD name others.
"""
import errno
import os
import signal
import socket
import subprocess
import sys
import tempfile
import time

HERE = os.path.dirname(os.path.abspath(__file__))
BUILT = os.path.join(HERE, "..", "crates")
MELISSA = os.path.abspath(os.environ.get("MELISSA", os.path.join(BUILT, "melissa", "out", "melissa")))
MELISSAD = os.path.abspath(os.environ.get("MELISSAD", os.path.join(BUILT, "melissad", "out", "melissad")))
PATIENCE = 60  # seconds in which a server begins to listen, or ends when its last connection has come
OWN = 1  # the connections that a Server opens itself


class Server:
    """A server that takes this many connections of others. To know that it listens one more is opened, which says
    nothing, so that it is started for `lanes` + OWN. It runs in the folder, where its checkpoints stay."""

    def __init__(self, study, lanes, command="serve", folder=None):
        self.command, self.host, self.port = command, "127.0.0.1", free_port()
        self.address = f"{self.host}:{self.port}"
        words = [MELISSAD, command, os.path.abspath(study), self.address, str(lanes + OWN)]
        self.out = tempfile.TemporaryFile("w+")
        self.process = begun(*words, folder=folder, stdout=self.out)

    def __enter__(self):
        try:
            self.await_door()
        except BaseException:
            self.stop()
            raise
        return self

    def await_door(self):
        deadline = time.monotonic() + PATIENCE
        while not knock(self.host, self.port):
            if not self.runs():
                sys.exit(f"melissad {self.command} ended with {self.process.returncode} before it listened")
            if time.monotonic() > deadline:
                sys.exit(f"melissad {self.command} doesn't listen at {self.address}")
            time.sleep(0.02)

    def __exit__(self, *_):
        self.stop()

    def runs(self):
        return self.process.poll() is None

    def stop(self):
        if self.runs():
            self.process.kill()
        self.process.wait()

    def text(self):
        """What the server prints, once its last connection has ended."""
        try:
            self.process.wait(PATIENCE)
        except subprocess.TimeoutExpired:
            self.stop()
            sys.exit(f"melissad {self.command} doesn't end: it waits for connections that never came")
        if self.process.returncode != 0:
            sys.exit(f"melissad {self.command} ended with {self.process.returncode}")
        self.out.seek(0)
        return self.out.read()


def stop_what_runs_at_the_end():
    """A request to end, as of `timeout`, is then what an interrupt by the keyboard is: what was started is stopped."""
    signal.signal(signal.SIGTERM, signal.default_int_handler)


def knock(host, port):
    """Opens a connection and closes it. Whether somebody listens, who may be too busy for it."""
    try:
        socket.create_connection((host, port), 1).close()
        return True
    except TimeoutError:
        return True
    except OSError as fault:
        if fault.errno != errno.EADDRNOTAVAIL:
            return False
        time.sleep(1)  # all ports of this machine are in use, by connections that were closed a moment ago
        return True


def free_port():
    """A port that nobody listens at. It could be taken by others before it is used, but hardly is."""
    with socket.socket() as asked:
        asked.bind(("127.0.0.1", 0))
        return asked.getsockname()[1]


def begun(*words, folder=None, **ends):
    """A program that runs."""
    try:
        return subprocess.Popen(words, cwd=folder, text=True, **ends)
    except FileNotFoundError as fault:
        sys.exit(f"there is no {fault.filename}: `rt ci` first, or name the programs by MELISSA and MELISSAD")


def run(*words, folder=None):
    """What a program prints. It must end with 0."""
    process = begun(*words, folder=folder, stdout=subprocess.PIPE)
    printed, _ = process.communicate()
    if process.returncode != 0:
        sys.exit(f"{' '.join(words)} ended with {process.returncode}")
    return printed


def parted(printed):
    """The result text and the watch text of what `serve` printed. `poll` has no watch text."""
    result, watch, rest = printed.partition("melissa-watch 1\n")
    return result, watch + rest
