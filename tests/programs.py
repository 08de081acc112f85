"""Runs a built program on some input, whole or in pieces, and gives what it writes."""

import fcntl
import os
import struct
import tempfile

# A library that stops a program before its first instruction and lets copies of it go on, where that is much quicker than a new start (tests/forks.c).
FORKS = os.environ.get("DIKOTHELM_FORKS")


class Program:
    """A program that reads standard input and writes standard output; both are files that every run uses again. Output is a file in memory, since a program
    syncs its output, which takes long on a disk."""

    def __init__(self, path):
        self.path = path
        self.input = tempfile.TemporaryFile()
        self.output = os.fdopen(os.memfd_create("output"), "w+b")
        self.stopped = Stopped(path, self.input.fileno(), self.output.fileno()) if FORKS else None

    def clear_output(self):
        self.output.seek(0)
        self.output.truncate()

    def start(self, source):
        self.clear_output()
        streams = [(os.POSIX_SPAWN_DUP2, source, 0), (os.POSIX_SPAWN_DUP2, self.output.fileno(), 1)]
        return os.posix_spawn(self.path, [self.path], os.environ, file_actions=streams)

    def written(self, status):
        """What was written by a run that has to end well."""
        if status != 0:
            raise RuntimeError("%s ended with status %d" % (self.path, status))
        self.output.seek(0)
        return self.output.read()

    def on(self, data):
        """The output for some bytes, given as a file."""
        self.input.seek(0)
        self.input.truncate()
        self.input.write(data)
        self.input.seek(0)
        if self.stopped:
            self.clear_output()
            return self.written(self.stopped.run())
        return self.written(ended(self.start(self.input.fileno())))

    def on_pieces(self, pieces):
        """The output for some bytes that come in pieces: a read gets one piece and never more. No piece is empty or has more than 4,096 bytes."""
        source, sink = os.pipe2(os.O_DIRECT | os.O_CLOEXEC)
        started = self.start(source)
        os.close(source)
        try:
            for piece in pieces:
                os.write(sink, piece)
        except BrokenPipeError:
            pass
        os.close(sink)
        return self.written(ended(started))


class Stopped:
    """A process of a program that has been loaded and has not begun; each run is that of a copy of it."""

    def __init__(self, path, source, target):
        theirs, self.ask = os.pipe()
        self.status, status = os.pipe()
        # Descriptors far from the wanted ones, so that putting one in its place overwrites no other.
        wanted = [(fcntl.fcntl(fd, fcntl.F_DUPFD_CLOEXEC, 20), to) for fd, to in ((source, 0), (target, 1), (theirs, 4), (status, 5))]
        streams = [(os.POSIX_SPAWN_DUP2, fd, to) for fd, to in wanted]
        os.posix_spawn(path, [path], dict(os.environ, LD_PRELOAD=FORKS), file_actions=streams)
        for fd in [theirs, status] + [fd for fd, _ in wanted]:
            os.close(fd)

    def run(self):
        """The status of a run."""
        os.write(self.ask, b"x")
        return struct.unpack("i", os.read(self.status, 4))[0]


def ended(process):
    """The status that a process ends with."""
    return os.waitpid(process, 0)[1]


def cut(data, size):
    """The data in pieces of a size; the last may be smaller."""
    return [data[at:at + size] for at in range(0, len(data), size)]


def cut_at_every_place(data):
    """The data as often as it has bytes, in pieces of one byte more than it has: the cut in each copy falls one place behind that of the copy before."""
    return cut(data * len(data), len(data) + 1)
