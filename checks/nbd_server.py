"""`tools/nbd-serve` on an image, for the checks."""
import signal
import subprocess
import tempfile
import time

SERVER = "tools/nbd-serve"
# How long a server may take to listen, to say what has happened, and to end.
SECONDS = 60


class Served:
    """A server of one image, up to its end."""

    def __init__(self, program, image, mode, *words):
        self.socket = f"{image}.socket"
        self.errors = tempfile.TemporaryFile()
        self.process = subprocess.Popen([SERVER, image, "--mode", mode, "--program", program, *words],
                                        stderr=self.errors, stdout=subprocess.DEVNULL)
        self.waits_for(lambda: b" on " in self.told() or self.process.poll() is not None)

    @property
    def uri(self):
        return f"nbd+unix:///?socket={self.socket}"

    @staticmethod
    def waits_for(comes):
        """Whether it comes in time."""
        until = time.monotonic() + SECONDS
        while not comes():
            if time.monotonic() > until:
                return False
            time.sleep(0.01)
        return True

    def told(self):
        self.errors.seek(0)
        return self.errors.read()

    def statuses(self, count):
        """The statuses of the sessions, once so many have ended."""
        self.waits_for(lambda: self.told().count(b"ended with status") >= count)
        return [int(line.split()[-1]) for line in self.told().splitlines() if b"ended with status" in line]

    def session(self):
        """The program of the session that runs, once one does."""
        found = []

        def is_there():
            words = ["pgrep", "-P", str(self.process.pid), "-f", " nbd .* --mode "]
            found[:] = subprocess.run(words, stdout=subprocess.PIPE, check=False).stdout.split()
            return bool(found)

        return int(found[0]) if self.waits_for(is_there) else None

    def stop(self, number=signal.SIGTERM):
        self.process.send_signal(number)
        return self.process.wait(timeout=SECONDS)

    def __enter__(self):
        return self

    def __exit__(self, *_):
        if self.process.poll() is None:
            self.stop()
        self.errors.close()
