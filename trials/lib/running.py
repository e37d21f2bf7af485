"""Runs the program and returns how it ended: status, output, fault, processor time, and memory.

As a script it runs any command and prints these values. It uses a small process of its own, since the memory that the
system reports for a child is never less than its parent's.
"""
import os
import resource
import signal
import subprocess
import sys
import time
from typing import NamedTuple

LONGEST = 20  # seconds for a small input
# A limit that protects others from a grown input: eight GiB, unless MOST_MEMORY names other bytes.
MOST_MEMORY = int(os.environ.get("MOST_MEMORY", 8 << 30))


class Ended(NamedTuple):
    """How a run ended. A status below 0 is a signal's number."""
    status: int
    out: bytes
    fault: bytes
    seconds: float
    kilobytes: int

    def is_orderly(self, most=3):
        """Whether it ended by itself, with one fault line if the status is a fault."""
        if self.status in (0, 1):
            return self.fault == b""
        one_line = self.fault.startswith(b"echonet: ") and self.fault.count(b"\n") == 1
        return 2 <= self.status <= 3 and one_line and self.fault.endswith(b"\n") \
            or 3 < self.status <= most


class Runner:
    """Runs the program in a folder."""

    def __init__(self, program, folder):
        self.program, self.folder, self.runs = program, folder, 0
        self.most_kilobytes, self.most_seconds = 0, 0.0
        self.out, self.err = (os.path.join(folder, name) for name in (".out", ".err"))

    def run(self, *words, given=os.devnull):
        """Runs it with these arguments. `given` is the file for its standard input."""
        self.runs += 1
        writing = os.O_WRONLY | os.O_CREAT | os.O_TRUNC
        actions = [
            (os.POSIX_SPAWN_OPEN, 0, given, os.O_RDONLY, 0),
            (os.POSIX_SPAWN_OPEN, 1, self.out, writing, 0o600),
            (os.POSIX_SPAWN_OPEN, 2, self.err, writing, 0o600)]
        process = os.posix_spawn(self.program, [self.program, *words], os.environ, file_actions=actions)
        status, used = wait_for(process)
        return self.told(status, used)

    def told(self, status, used):
        """The result of a run."""
        with open(self.out, "rb") as out, open(self.err, "rb") as err:
            ended = Ended(os.waitstatus_to_exitcode(status), out.read(), err.read(),
                          used.ru_utime + used.ru_stime, used.ru_maxrss)
        self.most_kilobytes = max(self.most_kilobytes, ended.kilobytes)
        self.most_seconds = max(self.most_seconds, ended.seconds)
        return ended


def wait_for(process):
    """Waits for a process, and kills it if it takes too long."""
    signal.signal(signal.SIGALRM, lambda *_: os.kill(process, signal.SIGKILL))
    signal.alarm(LONGEST)
    _, status, used = os.wait4(process, 0)
    signal.alarm(0)
    return status, used


def measured(words, given=None, most_seconds=600):
    """Runs any command from a small process: its status, seconds of processor time, kilobytes and fault."""
    small = subprocess.run(
        [sys.executable, "-S", "-E", __file__, *words], stdin=given, capture_output=True,
        timeout=most_seconds, check=True)
    status, seconds, _, kilobytes, fault = small.stdout.decode(errors="replace").split(" ", 4)
    return int(status), float(seconds), int(kilobytes), fault


def steady_ratio(run, size):
    """How many times the processor time grows when the bytes double. It takes the best of three runs at a size and at a
    quarter of it. `run` runs at a size, and returns the bytes of the input and the seconds."""
    runs = [[run(some) for _ in range(3)] for some in (size, size // 4)]
    (whole, longer), (part, shorter) = [(some[0][0], min(seconds for _, seconds in some)) for some in runs]
    return 2 * (longer / shorter * part / whole) ** 0.5


def main(words):
    """Runs the command without its output, and prints a line: its status, seconds of processor time and in all,
    kilobytes, and its fault."""
    started = time.time()
    resource.setrlimit(resource.RLIMIT_CORE, (0, 0))
    resource.setrlimit(resource.RLIMIT_AS, (MOST_MEMORY, MOST_MEMORY))
    with subprocess.Popen(words, stdout=subprocess.DEVNULL, stderr=subprocess.PIPE) as child:
        fault = child.stderr.read()
        _, status, used = os.wait4(child.pid, 0)
        child.returncode = os.waitstatus_to_exitcode(status)
    print(child.returncode, used.ru_utime + used.ru_stime, time.time() - started, used.ru_maxrss,
          "%d lines, %s" % (fault.count(b"\n"), fault[:200].decode(errors="replace").strip()))


if __name__ == "__main__":
    main(sys.argv[1:])
