"""The program that `checks/journal` runs, the tracer that it may be run under, and what has been judged so far."""
import os
import re
import shutil
import struct
import subprocess
import threading

SECTOR = 512
SECONDS = 120
CALLS = "pwrite64,fsync,fdatasync"
BASES = (0x1111111111111111, 0x2222222222222222, 0x3333333333333333, 0x4444444444444444)

# The standard error of what is run has what the system says alone.
os.environ["YOVAMELIS_ADVICE"] = "0"


class Tally:
    """Counts what is judged by a check, and prints what fails."""

    def __init__(self, check="journal"):
        self.check = check
        self.passed = self.failed = 0
        self.lock = threading.Lock()

    def judge(self, name, good, told=""):
        with self.lock:
            if good:
                self.passed += 1
                return
            self.failed += 1
            if self.failed <= 20:
                print(f"{self.check}: {name}: {told}"[:2000], flush=True)


class Shape:
    """The numbers of an image that follow from its superblock: those of its blocks and of its journal, in sectors."""

    def __init__(self, image):
        tag, self.sections = struct.unpack_from("<HI", image, 10)
        self.spb = 1 << image[28]
        entry = -(-(8 + 8 * self.spb + tag) // 8) * 8
        self.entry = entry
        self.per_sector = 504 // entry
        self.section = 8 * self.per_sector * self.spb + 8
        self.journal = self.section * self.sections

    def commit_id(self, sector, number):
        """The commit id of a number, at a sector of the journal."""
        return struct.pack("<Q", BASES[number] ^ (sector // self.section << 32 ^ sector % self.section))

    def empty(self, sector, number):
        """What stands in an empty sector of a number, at a sector of the journal."""
        unused = b"\0\0\0\0\xff\xff\xff\xff" + bytes(self.entry - 8)
        head = unused * self.per_sector if sector % self.section < 8 else b""
        return head.ljust(504, b"\0") + self.commit_id(sector, number)

    def numbers(self, image):
        """The number of each sector of the journal, or None."""
        found = []
        for sector in range(self.journal):
            end = (9 + sector) * SECTOR
            ids = [self.commit_id(sector, number) for number in range(4)]
            found.append(ids.index(image[end - 8:end]) if image[end - 8:end] in ids else None)
        return found


class Program:
    """The built program, and the words that it takes with a key."""

    def __init__(self, path):
        self.path = path
        self.tracer = find_tracer()

    def run(self, words, script="", tracer=()):
        """Runs it to its end: the status, and what is printed, as a text."""
        try:
            done = subprocess.run([*tracer, self.path, *words], input=script.encode(), stdout=subprocess.PIPE,
                                  stderr=subprocess.STDOUT, timeout=SECONDS, check=False)
        except subprocess.TimeoutExpired:
            return None, f"no end within {SECONDS} seconds\n"
        return done.returncode, done.stdout.decode("latin-1")

    def traced(self, words, script, log):
        """Runs it under the tracer: the status, what is printed, and the events."""
        status, text = self.run(words, script, log_to(log))
        return status, text, events_of(log)


def find_tracer():
    """Whether there is a tracer that may trace."""
    strace = shutil.which("strace")
    return bool(strace) and subprocess.run([strace, "-qq", "-o", "/dev/null", "true"], stderr=subprocess.DEVNULL,
                                           check=False).returncode == 0


def log_to(log):
    """The words that run a program under the tracer, with the bytes of all that it writes in a log."""
    return ("strace", "-qq", "-o", log, "-e", f"trace={CALLS},write", "-xx", "-s", "16777216")


def change(what, calls, nth):
    """The words that run a program under the tracer, which changes the nth of some calls. The program is the child, so
    that a kill is one of the program."""
    return ("strace", "-D", "-qq", "-o", "/dev/null", "-e", f"trace={calls}", "-e", f"inject={calls}:{what}:when={nth}")


def events_of(log):
    """What a log tells, in order: ("write", byte, bytes), ("sync",) and ("text", bytes)."""
    told = []
    with open(log, encoding="latin-1") as lines:
        for line in lines:
            if re.match(r"f(data)?sync\(\d+\) *= 0", line):
                told.append(("sync",))
                continue
            found = re.match(r'(pwrite64|write)\((\d+), "((?:\\x..)*)", \d+(?:, (\d+))?\) *= (\d+)', line)
            if found is None:
                continue
            content = bytes.fromhex(found[3].replace("\\x", ""))[:int(found[5])]
            if found[1] == "pwrite64":
                told.append(("write", int(found[4]), content))
            elif found[2] == "1":
                told.append(("text", content))
    return told


def sectors_written(events):
    """How many sectors were written before each sync, where there are any."""
    counts = [0]
    for event in events:
        if event[0] == "sync":
            counts.append(0)
        elif event[0] == "write":
            counts[-1] += len(event[2]) // SECTOR
    return [count for count in counts if count]


def read_file(name):
    with open(name, "rb") as file:
        return file.read()


def write_file(name, content):
    with open(name, "wb") as file:
        file.write(content)


def content_of(runs):
    """The bytes of runs such as 0500,aa*3,00*507."""
    parts = (run.partition("*") for run in runs.split(","))
    return b"".join(bytes.fromhex(byte) * int(count or 1) for byte, _, count in parts)


def runs_of(content):
    """The longest runs of some bytes, as the program prints them."""
    return ",".join(f"{run[0][0]:02x}*{len(run[0])}" for run in re.finditer(rb"(?s)(.)\1*", content))


def blocks_of_text(text, size):
    """The blocks that the lines `ok read` of a text give, one after the other, or None where there is another line."""
    content = b""
    for line in text.splitlines():
        if line == "closed":
            return [content[at:at + size] for at in range(0, len(content), size)]
        words = line.split(" ")
        if words[:2] != ["ok", "read"]:
            return None
        content += content_of(words[4])
    return None


def read_all(blocks):
    """A script that reads every block."""
    return "".join(f"read {first} {min(256, blocks - first)}\n" for first in range(0, blocks, 256))


def mixed(before, after, sectors):
    """The image before, with some sectors as they are after."""
    image = bytearray(before)
    for sector in sectors:
        image[sector * SECTOR:(sector + 1) * SECTOR] = after[sector * SECTOR:(sector + 1) * SECTOR]
    return bytes(image)


def changed(before, after):
    """The sectors that differ."""
    return [sector for sector in range(len(before) // SECTOR)
            if before[sector * SECTOR:(sector + 1) * SECTOR] != after[sector * SECTOR:(sector + 1) * SECTOR]]
