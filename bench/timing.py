"""The program that `rt ci` leaves, and how long it takes."""
import os
import subprocess
import sys
import time

HERE = os.path.dirname(os.path.abspath(__file__))
PROGRAM = os.environ.get("MELISSA", os.path.join(HERE, "..", "crates", "melissa", "out", "melissa"))
SERVER = os.environ.get("MELISSAD", os.path.join(HERE, "..", "crates", "melissad", "out", "melissad"))


# The C library then asks for large pages for what it takes from the system.
LARGE_PAGES = "glibc.malloc.hugetlb=1"


def use_large_pages():
    """The programs that run from now on read and add in large pages."""
    os.environ["GLIBC_TUNABLES"] = LARGE_PAGES


def run(*words, output=os.devnull, wanted=0, program=PROGRAM, folder=None):
    """The seconds, the seconds of the processor in the program itself, and the peak memory in bytes of the program with these
    words, run in the folder where one is named."""
    with open(output, "wb") as out:
        before = time.perf_counter()
        child = subprocess.Popen([program, *words], stdout=out, stderr=subprocess.DEVNULL, cwd=folder)
        _, status, usage = os.wait4(child.pid, 0)
        seconds = time.perf_counter() - before
    if os.waitstatus_to_exitcode(status) != wanted:
        sys.exit(f"the program ended with status {os.waitstatus_to_exitcode(status)}")
    return seconds, usage.ru_utime, usage.ru_maxrss * 1024
