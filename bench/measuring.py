"""One run of a program, for the scripts beside this one."""
import contextlib
import os
import pathlib
import re
import sys
import time
from typing import NamedTuple


class Run(NamedTuple):
    """What a run took: seconds, processor seconds (user and system), and the most bytes that it held at once."""

    seconds: float
    processor: float
    peak: int
    status: int


def peak_of(child):
    """The peak bytes of a process so far, or None once it has ended."""
    with contextlib.suppress(OSError):
        told = re.search(r"^VmHWM:\s*(\d+) kB", pathlib.Path(f"/proc/{child}/status").read_text(), re.MULTILINE)
        return 1024 * int(told[1]) if told else None
    return None


def run(words, given=os.devnull, answers=os.devnull, faults=None, wanted=(0,)):
    """Runs the words, with files as standard input, output and, where one is named, error. Exits where they end with another status than the wanted.

    The peak is looked at each millisecond, since what the system tells of an ended process is at least the peak of this script, which it is forked
    from; so that of a run of a few milliseconds is of little use.
    """
    began = time.perf_counter()
    child = os.fork()
    if child == 0:
        try:
            os.dup2(os.open(given, os.O_RDONLY), 0)
            os.dup2(os.open(answers, os.O_WRONLY | os.O_CREAT | os.O_TRUNC), 1)
            if faults is not None:
                os.dup2(os.open(faults, os.O_WRONLY), 2)
            os.execv(words[0], words)
        finally:
            os._exit(127)
    peak, ended = 0, (0, 0, None)
    while not ended[0]:
        # Before the program itself runs this is the peak of the copy of this script.
        peak = peak_of(child) or peak
        time.sleep(0.001)
        ended = os.wait4(child, os.WNOHANG)
    seconds = time.perf_counter() - began
    _, status, usage = ended
    status = os.waitstatus_to_exitcode(status)
    if status not in wanted:
        sys.exit(f"bench: {' '.join(words)} ended with status {status}")
    return Run(seconds, usage.ru_utime + usage.ru_stime, peak, status)
