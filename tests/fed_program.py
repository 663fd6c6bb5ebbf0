"""A program that is fed through a pipe, in pieces that it gets one by one, and how much memory it takes for it."""
import fcntl
import os
import pathlib
import re
import struct
import subprocess
import tempfile
import termios
import threading

LIMIT = 60      # seconds that a run may take


class Fed:
    """A run of a program on what it is given; `with` ends it."""

    def __init__(self, program):
        self.output = tempfile.TemporaryFile()
        self.process = subprocess.Popen([program], stdin=subprocess.PIPE, stdout=self.output, stderr=subprocess.STDOUT, bufsize=0)
        self.timer = threading.Timer(LIMIT, self.process.kill)

    def __enter__(self):
        self.timer.start()
        return self

    def __exit__(self, *_):
        self.timer.cancel()
        self.process.kill()
        self.process.wait()
        self.process.stdin.close()
        self.output.close()

    def unread(self):
        """How many octets of the pipe the program has not read yet."""
        return struct.unpack("i", fcntl.ioctl(self.process.stdin, termios.FIONREAD, bytes(4)))[0]

    def give(self, octets, size=None):
        """Gives the octets in pieces of this size, each when the one before was read. It stops if the program ends."""
        size = size or len(octets) or 1
        for at in range(0, len(octets), size):
            try:
                self.process.stdin.write(octets[at:at + size])
            except BrokenPipeError:
                return
            while self.unread() and self.process.poll() is None:
                os.sched_yield()

    def peak(self):
        """The most memory that was resident, in KiB, once the program waits for more; none if it has ended. The running program is
        asked: what the system counts for one that has ended is at least what its parent took when it was started."""
        place = pathlib.Path("/proc", str(self.process.pid))
        try:
            while re.search(r"\) R ", (place / "stat").read_text()):
                os.sched_yield()
            return int(re.search(r"VmHWM:\s*(\d+) kB", (place / "status").read_text())[1])
        except (OSError, TypeError):
            return None

    def printed(self):
        """All that it prints and says, when it gets no more; and its status."""
        self.process.stdin.close()
        status = self.process.wait()
        self.output.seek(0)
        return self.output.read().decode("latin-1"), status
