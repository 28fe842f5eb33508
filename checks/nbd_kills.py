"""Sessions of `nbd` that something ends: sinks that fail, a disk that does, kills, and cuts of the power.

What is left is opened again. Each block holds its last content that a reply to a FLUSH, or to a WRITE with FUA, has
promised, or that of a later write; in journal mode the blocks are those after some of the writes, in their order.
"""
import fcntl
import random
import signal
import subprocess
import time

from cuts import image_left
from journal_kills import History
from journal_program import CALLS, SECTOR, change, content_of, events_of, log_to, read_file, write_file
from nbd_client import FUA, WRITE
from nbd_replies import BLOCKS
from nbd_streams import Serial, Session, flush, order_of, read, write

SECONDS = 60                    # for the replies of a flight
# Of a course, of a session, and of a mode.
KILLS, CUTS, STOPS, FAULTS = 3, 8, 14, 6
# Linux, fcntl.h; and how much such a pipe then holds.
SET_PIPE_SIZE, PIPE = 1031, 4096


class Flights:
    """Requests that are given flight by flight, each a piece, and what their replies promise.

    No two writes of a flight have a block in common, so a round writes a block of each, in order.
    """

    def __init__(self, base):
        self.history = History(base)
        self.serial = Serial(BLOCKS)
        self.serial.blocks = list(base)
        self.asks, self.wanted, self.counted = [], {}, {}

    def give(self, asks):
        """Takes a flight: its piece, and the length of its replies."""
        writes, before = self.history.writes, len(self.history.writes)
        for turn in range(max(len(ask.blocks()) for ask in asks) or 1):
            for ask in asks:
                writes.extend(ask.blocks()[turn:turn + 1])
                if ask.flushes() and turn + 1 >= len(ask.blocks()):
                    self.counted.setdefault(ask.cookie, len(writes) if ask.kind == WRITE else before)
        new = self.serial.replies(asks)
        self.asks += asks
        self.wanted.update(new)
        return b"".join(ask.message() for ask in asks), sum(len(reply) for reply in new.values())

    def are_left(self, mode, seen, text):
        """Whether blocks that are read may be left where these replies stand: a block of direct mode that is None has
        another tag than its data."""
        told = order_of(text, self.wanted)
        if told is None or seen is None:
            return False
        least = max((self.counted[cookie] for cookie in told[0] if cookie in self.counted), default=0)
        if mode == "J":
            return self.history.is_prefix(seen, least, self.history.writes)
        flushed = History(self.history.base)
        flushed.writes = self.history.writes[:least]
        later = {}
        for block, content in self.history.writes[least:]:
            later.setdefault(block, set()).add(content)
        return all(content == old or block in later and (content in later[block] or content is None and mode == "D")
                   for block, (content, old) in enumerate(zip(seen, flushed.now())))


class Drawn:
    """Flights that a seed draws: each block that is written has a content of its own."""

    def __init__(self, seed):
        self.chance, self.number, self.cookie = random.Random(seed), 0, 0

    def flight(self):
        self.cookie += 1
        kind = self.chance.random()
        if kind < 0.2:
            return [flush(self.cookie)]
        if kind < 0.3:
            return [read(self.cookie, self.chance.randrange(BLOCKS - 8) * SECTOR, 8 * SECTOR)]
        return list(self.writes())

    def writes(self):
        """Some writes, each of a part of the device of its own."""
        most = self.chance.choice((1, 1, 2, 5, 16))
        for part in self.chance.sample(range(16), most):
            self.cookie += 1
            count = self.chance.randint(1, 5)
            yield write(self.cookie, (part * 5 + self.chance.randint(0, 5 - count)) * SECTOR,
                        b"".join(self.block() for _ in range(count)), FUA if self.chance.random() < 0.15 else 0)

    def block(self):
        self.number += 1
        return self.number.to_bytes(2, "big") * (SECTOR // 2)


def blocks_of(room, mode):
    """The blocks that a run reads, each by a line of its own, None where its tag differs; or None."""
    _, text = room.program.run(room.words(mode, "run"), "".join(f"read {block} 1\n" for block in range(BLOCKS)))
    lines = text.splitlines()
    if len(lines) != BLOCKS + 1 or lines[-1] != "closed":
        return None
    starts = [(f"ok read {block} 1 ", f"fault block {block} ") for block in range(BLOCKS)]
    if not all(line.startswith(start) for line, start in zip(lines, starts)):
        return None
    return [content_of(line.split()[-1]) if line.startswith("ok") else None for line in lines[:-1]]


def judge_left(room, name, mode, flights, text):
    seen = blocks_of(room, mode)
    good = flights.are_left(mode, seen, text)
    room.judge(name, good, f"replied to: {order_of(text, flights.wanted)}; {seen is not None}")
    return seen


def zeros():
    return [bytes(SECTOR)] * BLOCKS


# ---- sinks

def closed_sinks(room, mode):
    """An output that is closed, or has no room: nothing is replied, and a write may be there."""
    for name, sink in (("closed", ">&-"), ("full", ">/dev/full")):
        room.new_image()
        flights = Flights(zeros())
        first, _ = flights.give([write(1, 0, b"\x11" * SECTOR, FUA)])
        second, _ = flights.give([write(2, 0, b"\x22" * SECTOR)])
        done = subprocess.run(["sh", "-c", f'exec "$0" "$@" {sink}', room.program.path, *room.words(mode)],
                              input=first + second, stderr=subprocess.DEVNULL, check=False)
        room.judge(f"an output that is {name}, mode {mode}", done.returncode == 6, done.returncode)
        judge_left(room, f"behind an output that is {name}, mode {mode}", mode, flights, b"")


def stopped_sinks(room, mode):
    """A pipe whose reader goes after some bytes: what it read are replies, of which the last may be cut short."""
    chance = random.Random(mode)
    for count in [0, 1, 15, 16, 17] + [chance.randrange(12000) for _ in range(STOPS)]:
        room.new_image()
        flights, drawn, text = Flights(zeros()), Drawn(f"{mode} {count}"), b""
        session = Session(room.program, room.words(mode))
        fcntl.fcntl(session.child.stdout, SET_PIPE_SIZE, PIPE)
        while True:
            piece, length = flights.give(drawn.flight())
            session.give(piece)
            got = session.take(min(length, count - len(text)), SECONDS)
            text += got
            if not got or len(text) == count:
                break
        # More than the pipe holds.
        for cookie in range(4):
            session.give(flights.give([read(1 << 40 | cookie, 0, PIPE)])[0])
        session.child.stdout.close()
        status, _ = session.end()
        name = f"a reader that goes after {count} bytes, mode {mode}"
        room.judge(name, status == 6 and len(text) == count, f"status {status}, {len(text)} bytes")
        judge_left(room, name, mode, flights, text)


def drawn_flights(room, mode, seed, count):
    """Flights on the image, and their pieces."""
    room.new_image()
    flights, drawn = Flights(zeros()), Drawn(f"{mode} {seed}")
    return flights, [flights.give(drawn.flight())[0] for _ in range(count)]


def failing(room, mode, call, error, status, faults):
    """A session in which the nth of some call of the system fails, for some n: whole replies, and where the sink fails
    one more that is cut short."""
    chance, log = random.Random(mode), f"{room.folder}/log"
    flights, pieces = drawn_flights(room, mode, call, 12)
    room.serve(mode, pieces, ("strace", "-qq", "-s", "0", "-o", log, "-e", f"trace={call}"))
    total = read_file(log).count(f"{call}(".encode())
    for nth in sorted({1, total, *(chance.randint(1, total) for _ in range(FAULTS))}) if total else ():
        room.new_image()
        ended, text = room.serve(mode, pieces, change(f"error={error}", call, nth))
        told = order_of(text, flights.wanted)
        good = text in faults or told is not None and (status == 6 or told[1] == b"")
        name = f"{call} {nth} of {total} fails, mode {mode}"
        room.judge(name, ended == status and good, f"status {ended}, {told}")
        judge_left(room, f"{name}, what is left", mode, flights, b"" if text in faults else text)


def failing_disk(room, mode):
    for call in CALLS.split(","):
        failing(room, mode, call, "EIO", 4, (b"fault disk\n",))


def failing_sink(room, mode):
    failing(room, mode, "write", "EPIPE", 6, ())


# ---- kills, and cuts of the power

def killed(room, mode, seed):
    """Sessions that are killed among their requests, at a call of the system or at any moment, one after the other on
    the image that is left."""
    chance, drawn, base = random.Random(f"{mode} {seed}"), Drawn(seed), zeros()
    for turn in range(KILLS):
        tracer = ()
        if room.program.tracer and chance.random() < 0.6:
            tracer = change("signal=KILL", CALLS, chance.randint(1, 60))
        flights = Flights(base)
        session = Session(room.program, room.words(mode), tracer)
        text = give_flights(session, flights, drawn, chance)
        status, rest = session.kill()
        name = f"kill {turn} of course {seed}, mode {mode}"
        room.judge(name, status == -signal.SIGKILL, f"status {status}")
        base = judge_left(room, name, mode, flights, text + rest)
        if base is None or None in base:
            room.new_image()
            base = zeros()


def give_flights(session, flights, drawn, chance):
    """Gives flights, each once all before are replied to, and one that is not waited for: the replies so far."""
    text = b""
    for _ in range(chance.choice((2, 5, 12, 30))):
        piece, length = flights.give(drawn.flight())
        session.give(piece)
        got = session.take(length, SECONDS)
        text += got
        if len(got) < length:
            return text
    session.give(flights.give(drawn.flight())[0])
    time.sleep(chance.random() ** 4 * 0.01)
    return text


def cut(room, mode, seed):
    """What cuts of a session may leave, with any of the sectors lost that were not yet synced."""
    chance, log = random.Random(f"{mode} {seed}"), f"{room.folder}/log"
    flights, pieces = drawn_flights(room, mode, seed, 20)
    before = read_file(room.image)
    status, text = room.serve(mode, pieces, log_to(log))
    events = events_of(log)
    replies = b"".join(event[1] for event in events if event[0] == "text")
    room.judge(f"session {seed}, mode {mode}", status == 0 and text == replies, f"status {status}")
    for _ in range(CUTS):
        until = chance.randrange(len(events) + 1)
        write_file(room.image, image_left(chance, before, events[:until]))
        text = b"".join(event[1] for event in events[:until] if event[0] == "text")
        judge_left(room, f"session {seed}, cut before call {until}, mode {mode}", mode, flights, text)
