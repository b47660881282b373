"""Runs the program, and looks at the time and the memory that it takes."""

import os
import resource
import signal

SECONDS = 10
MEGABYTES = 200
# What the wall clock allows, on a machine that others use too.
LATEST = 90 * SECONDS


class Ended:
    """How a run ended: its status, what it printed, its error line, its processor time in seconds and its memory in MB."""

    def __init__(self, status, out, err, seconds, megabytes):
        self.status, self.out, self.err, self.seconds, self.megabytes = status, out, err, seconds, megabytes


class Program:
    """The program at a path. A build with checks at run time is slow: it gets more seconds, and as much memory as it wants."""

    def __init__(self, path, work, slow):
        self.path, self.seconds, self.megabytes = str(path), SECONDS, MEGABYTES
        if slow:
            self.seconds, self.megabytes = 25 * SECONDS, 1 << 20
        self.out, self.err = (os.open(f"{work}/{name}", os.O_RDWR | os.O_CREAT | os.O_TRUNC) for name in ("out", "err"))
        self.none = os.open(os.devnull, os.O_RDONLY)
        self.most_seconds, self.most_megabytes = 0, 0
        self.commands = {line.split()[0] for line in self.run("--help").out.decode().splitlines()[1:] if line.startswith("  ")}

    def start(self, words):
        for file in (self.out, self.err):
            os.ftruncate(file, 0)
            os.lseek(file, 0, os.SEEK_SET)
        actions = [(os.POSIX_SPAWN_DUP2, file, number) for number, file in enumerate((self.none, self.out, self.err))]
        return os.posix_spawn(self.path, [self.path, *words], os.environ, file_actions=actions)

    def run(self, *words):
        """Runs the program with these words. Its processor time is limited, and the wall clock too."""
        child = self.start(words)
        resource.prlimit(child, resource.RLIMIT_CPU, (self.seconds + 1, self.seconds + 2))
        signal.signal(signal.SIGALRM, lambda *_: os.kill(child, signal.SIGKILL))
        signal.alarm(LATEST)
        _, status, used = os.wait4(child, 0)
        signal.alarm(0)
        seconds, megabytes = used.ru_utime + used.ru_stime, used.ru_maxrss // 1024
        self.most_seconds, self.most_megabytes = max(self.most_seconds, seconds), max(self.most_megabytes, megabytes)
        out, err = (os.pread(file, os.fstat(file).st_size, 0) for file in (self.out, self.err))
        return Ended(os.waitstatus_to_exitcode(status), out, err, seconds, megabytes)
