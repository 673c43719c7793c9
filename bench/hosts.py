"""A program that is served by `debug_host serve`, in a process of its own; other files here use it."""

import os
import re
import signal
import socket
import subprocess
import tempfile
import time

LISTENS = re.compile(rb"Debugger listening on ws://127\.0\.0\.1:(\d+)/session\n")


def free_port():
    """A port at which nobody listens now."""
    with socket.socket() as listener:
        listener.bind(("127.0.0.1", 0))
        return listener.getsockname()[1]


def processor_ms(process):
    """The milliseconds of the processor that the threads of a process took that are there."""
    spent = 0
    for thread in os.listdir("/proc/%d/task" % process):
        with open("/proc/%d/task/%s/schedstat" % (process, thread)) as file:
            spent += int(file.read().split()[0])
    return spent / 1e6


class Host:
    """The program with the words `serve`, a free port and these, in a folder; ready once it listens.

    Its output goes to a file, or where `output` says; `extra` is added to its environment."""

    def __init__(self, program, folder, *words, port=None, output=None, extra=None):
        self.port = port or free_port()
        self.files = tempfile.TemporaryFile(), tempfile.TemporaryFile()
        command = [os.path.abspath(program), "serve", "--port", str(self.port), *words]
        self.process = subprocess.Popen(
            command,
            cwd=folder,
            stdin=subprocess.DEVNULL,
            stdout=output or self.files[0],
            stderr=self.files[1],
            env=dict(os.environ, **extra) if extra else None,
            preexec_fn=lambda: signal.signal(signal.SIGINT, signal.SIG_DFL),
        )

    def __enter__(self):
        return self

    def __exit__(self, *_):
        if self.process.poll() is None:
            self.process.kill()
            self.process.wait()
        for file in self.files:
            file.close()

    def written(self, number):
        """What it has written so far, of the output (0) or the errors (1)."""
        file = self.files[number].fileno()
        return os.pread(file, os.fstat(file).st_size, 0)

    def size(self):
        """How many bytes of output it has written so far."""
        return os.fstat(self.files[0].fileno()).st_size

    def ready(self, seconds=30):
        """Waits until it listens; gives the host."""
        try:
            self.until(lambda: LISTENS.search(self.written(1)), seconds, "listens")
        except AssertionError:
            self.__exit__()
            raise
        return self

    def until(self, holds, seconds, what):
        """Waits until that holds."""
        end = time.monotonic() + seconds
        while not holds():
            if self.process.poll() is not None and not holds():
                raise AssertionError("the host has ended, before it %s: %r" % (what, self.written(1)))
            if time.monotonic() > end:
                raise AssertionError("after %d s it isn't so that the host %s" % (seconds, what))
            time.sleep(0.005)

    def end(self, seconds=60):
        """Waits for its end: the status, the output, and what it said but where it listens."""
        status = self.process.wait(seconds)
        return status, self.written(0), LISTENS.sub(b"", self.written(1))

    def interrupt(self):
        self.process.send_signal(signal.SIGINT)

    def processor_ms(self):
        return processor_ms(self.process.pid)

    def memory(self, kind="VmHWM"):
        """The most memory that it held, in MiB; with `VmRSS` what it holds now."""
        with open("/proc/%d/status" % self.process.pid) as file:
            return int(re.search(kind + r":\s+(\d+) kB", file.read()).group(1)) / 1024
