"""What a session of `nbd` replies on real files, its statuses, and what it leaves where it comes to its end."""
import base64
import gzip
import hashlib
import random
import re
import struct
import subprocess
import threading
import time
import zlib

from image_layout import Layout
from journal_program import SECTOR, read_file, write_file
from nbd_client import DISC, FUA, READ, WRITE
from nbd_streams import (EINVAL, Ask, Serial, Session, are_whole, cut_into, flush, order_of, read, reply_of, serve,
                         stream_of, write)

SMALL = "crates/integrity_main/data/small"
BLOCKS = 80                     # of the small image, of 512 bytes each
STREAMS = "checks/nbd-data/streams"
RECALCULATED = "checks/recalculate-data/crash-J-recalc-hmac131-1024-written"
# How long a reply may take in the best of some tries, and in any.
TRIES, SECONDS, SECONDS_AT_MOST = 3, 1, 60
# Requests of a short session, in which the journal has had some laps; and how many KiB more than it a long one may use.
SHORT, MORE_MEMORY = 1000, 256


class Room:
    """A folder of a task's own with an image, and what is judged there."""

    def __init__(self, program, tally, folder):
        self.program, self.tally, self.folder = program, tally, folder
        self.image = f"{folder}/image"
        self.new_image()

    def new_image(self):
        write_file(self.image, read_file(SMALL))

    def judge(self, name, good, told=""):
        self.tally.judge(name, good, told)

    def words(self, mode, command="nbd"):
        return [command, self.image, "--mode", mode]

    def serve(self, mode, pieces, tracer=()):
        return serve(self.program, self.words(mode), pieces, tracer)

    def placed(self):
        """The blocks in their places, if each has its tag there."""
        layout = Layout(read_file(self.image))
        stored = [layout.stored(block) for block in range(layout.blocks)]
        good = all(tag == layout.tag_of(block, data, None) for block, (data, tag) in enumerate(stored))
        return [data for data, _ in stored] if good else None

    def flip(self, at):
        image = bytearray(read_file(self.image))
        image[at] ^= 1
        write_file(self.image, bytes(image))


# ---- values of the protocol, written out

def worked(room):
    """Single requests as bytes, each also one byte at a time; and three requests in flight together."""
    head = "25609513" "0000" "0000" "0000000000000001" "0000000000000000"
    block_7 = "25609513" "0000" "0000" "0000000000000009" "0000000000000e00" "00000200"
    rows = (("a read", head + "00000200", 0, "67446698" "00000000" "0000000000000001" + "00" * 512),
            ("a read of nothing", head + "00000000", 0, "67446698" "00000016" "0000000000000001"),
            ("27 bytes", (head + "00000200")[:54], 0, ""),
            ("another magic", "25609514", 2, ""))
    for mode in "JDB":
        for size in (65536, 1):
            for name, stream, status, replies in rows:
                room.new_image()
                told = room.serve(mode, cut_into(bytes.fromhex(stream), size))
                room.judge(f"{name}, mode {mode}, by {size}", told == (status, bytes.fromhex(replies)), told)
            room.new_image()
            room.flip(Layout(read_file(room.image)).tag_place(7))
            told = room.serve(mode, cut_into(bytes.fromhex(block_7), size))
            wanted = 1, bytes.fromhex("67446698" "00000005" "0000000000000009")
            room.judge(f"a tag that differs, mode {mode}, by {size}", told == wanted, told)
        room.new_image()
        stream = stream_of([write(1, 0, b"\xaa" * 4096), read(2, 40448, 512), read(3, 0, 512), Ask(DISC, 4)])
        replies = reply_of(2, 0, bytes(512)) + reply_of(1) + reply_of(3, 0, b"\xaa" * 512)
        told = room.serve(mode, [stream])
        room.judge(f"a write is replied to behind a later read, mode {mode}", told == (0, replies), told)


# ---- a client that waits

def at_once(room, mode):
    """A client that waits for each reply gets it before it sends the next request, and within a second. Where the
    machine has other work the replies may take longer, so there are three tries."""
    for number in range(TRIES):
        room.new_image()
        slowest = waiting(room, mode)
        if slowest <= SECONDS:
            break
    room.judge(f"replies to a client that waits, mode {mode}", slowest <= SECONDS, f"{slowest} seconds, try {number}")


def waiting(room, mode):
    """A client that waits for each reply: how long the slowest but the first took."""
    serial = Serial(BLOCKS)
    asks = [read(1, 0, 512), write(2, 512, b"\x11" * 1024), flush(3), write(4, 512, b"\x22" * 512, FUA),
            read(5, 512, 1024), write(6, 1, b"\x33" * 512), Ask(WRITE, 7), read(8, 0, 511), Ask(4, 9, 0, 512),
            flush(10, 7, 9), write(11, 0, b"\x44" * 4096, FUA), read(12, 0, 4096)]
    session, slowest = Session(room.program, room.words(mode)), 0
    for ask in asks:
        wanted, asked = serial.reply(ask), time.monotonic()
        session.give(ask.message())
        got = session.take(len(wanted), SECONDS_AT_MOST)
        if ask.cookie > 1:
            slowest = max(slowest, time.monotonic() - asked)
        room.judge(f"request {ask.cookie} of a client that waits, mode {mode}", got == wanted, got[:64])
    told = session.end()
    room.judge(f"a client that waits, mode {mode}", told == (0, b"") and room.placed() == serial.blocks, told[0])
    return slowest


# ---- errors

def refusals():
    """Requests that are refused, each cause with each kind. The bytes of the writes look like requests."""
    end, size = 1 << 64, 512
    rows = ((0, 0), (1, size), (size - 1, size), (0, 1), (0, size - 1), (0, size + 1), (0, 1025 * size),
            (BLOCKS * size, size), ((BLOCKS - 1) * size, 2 * size), (0, (BLOCKS + 1) * size), (end - size, size),
            (end - size, 2 * size), (end - 1, 1), (1 << 63, size), (0, (1 << 24) + size))
    like_requests = stream_of([write(99, 0, b"\xee" * size), Ask(DISC, 98)])
    for offset, length in rows:
        yield Ask(READ, 0, offset, length)
        if length <= 1025 * size:
            yield Ask(WRITE, 0, offset, length, (like_requests * (length // len(like_requests) + 1))[:length])
    for kind in (4, 5, 6, 7, 0x100, 0xffff):
        yield Ask(kind, 0, 0, size)
    yield Ask(READ, 0, 0, (1 << 32) - 1)


def refused(room, mode):
    """Each cause of a refusal, each ahead of a request that is served: the bytes of a write are taken all the same."""
    asks = []
    for ask in refusals():
        asks.append(ask._replace(cookie=len(asks)))
        asks.append(write(len(asks), len(asks) % BLOCKS * 512, bytes([len(asks)]) * 512))
    for size in (65536, 100, 1):
        chosen = [ask for ask in asks if size > 1 or len(ask.data) < 65536]
        room.new_image()
        serial = Serial(BLOCKS)
        wanted = serial.replies(chosen)
        errors = [ask.cookie for ask in chosen if wanted[ask.cookie] == reply_of(ask.cookie, EINVAL)]
        even = [ask.cookie for ask in chosen if ask.cookie % 2 == 0]
        room.judge("each second request is to be refused", errors == even, errors)
        status, text = room.serve(mode, cut_into(stream_of(chosen), size))
        good = status == 0 and are_whole(text, wanted) and room.placed() == serial.blocks
        room.judge(f"refusals, mode {mode}, by {size}", good, f"status {status}, {order_of(text, wanted)}")


def damaged(room, mode):
    """Reads that meet a tag which differs, or a bit of data, are EIO, up to a write of the block; the status is 1."""
    layout = Layout(read_file(room.image))
    room.flip(layout.tag_place(7))
    room.flip(layout.place(20))
    before = read_file(room.image)
    asks = [read(1, 7 * 512, 512), read(2, 0, 4096), read(3, 8 * 512, 512), flush(4), read(5, 10 * 512, 20 * 512, FUA),
            write(6, 7 * 512, b"\x77" * 512), read(7, 0, 4096), read(8, 20 * 512, 512),
            write(9, 20 * 512, bytes(512), FUA), read(10, 0, BLOCKS * 512), Ask(DISC, 11)]
    for size in (65536, 28, 1):
        write_file(room.image, before)
        serial = Serial(BLOCKS, damaged=(7, 20))
        wanted = serial.replies(asks)
        status, text = room.serve(mode, cut_into(stream_of(asks), size))
        good = status == 1 and are_whole(text, wanted) and room.placed() == serial.blocks
        room.judge(f"damaged blocks, mode {mode}, by {size}", good, f"status {status}, {order_of(text, wanted)}")


# ---- ends, and what is ignored

def streams_that_end():
    """Streams with their status, and the requests that are done: name, bytes, status, requests."""
    first = [write(1, 0, b"\xaa" * 512), flush(2)]
    later = stream_of([write(3, 0, b"\xbb" * 512), read(4, 0, 512)])
    start, whole = stream_of(first), write(3, 512, b"\xcc" * 1024).message()
    flags = [write(1, 0, b"\x11" * 512, 0xfffe), write(2, 512, b"\x22" * 512, 0xffff), read(3, 0, 512, FUA),
             read(4, 0, 1024, 0xffff), flush(5, (1 << 64) - 1, (1 << 32) - 1, 0xffff), flush(6, 1, 513),
             read(7, 0, 1024)]
    yield "no request", b"", 0, []
    yield "flags", stream_of(flags), 0, flags
    for name, ask in (("a request to end", Ask(DISC, 9)), ("one with fields", Ask(DISC, 9, 7, 512, flags=0xffff))):
        yield name, ask.message() + later, 0, []
        yield f"{name} behind others", start + ask.message() + later, 0, first
        yield f"{name} ahead of another magic", start + ask.message() + b"no request", 0, first
    for count in (1, 3, 4, 27):
        yield f"{count} bytes of a request", start + later[:count], 0, first
    for count in (28, 29, 540, len(whole) - 1):
        yield f"{count} bytes of a write", start + whole[:count], 0, first
    for magic in ("25609514", "00000000", "67446698", "26609513", "2560951395"[2:]):
        yield f"the magic {magic}", start + bytes.fromhex(magic) + later, 2, first
        yield f"three bytes of {magic}", start + bytes.fromhex(magic)[:3], 0, first
    yield "a script", b"read 0 1\n", 2, []
    yield "a script behind requests", start + b"closed\n", 2, first


def ends(room):
    """How a stream ends, also one byte at a time, in each mode."""
    for mode in "JDB":
        for name, stream, status, asks in streams_that_end():
            for size in (65536, 1):
                room.new_image()
                serial = Serial(BLOCKS)
                wanted = serial.replies(asks)
                ended, text = room.serve(mode, cut_into(stream, size))
                good = ended == status and are_whole(text, wanted)
                # Behind another magic the device is not closed.
                if status == 0:
                    good = good and room.placed() == serial.blocks
                room.judge(f"{name}, mode {mode}, by {size}", good, f"status {ended}: {text[:64]}")


def ended_at_each_byte(room, part, parts):
    """One stream of all kinds, ended at each byte: the requests that are whole are done, and no other."""
    asks = [read(1, 0, 512), write(2, 512, b"\x11" * 512), Ask(4, 3, 0, 512), flush(4), read(5, 512, 512),
            Ask(READ, 6, 1, 512), write(7, 1, b"\x22" * 5), read(8, 0, 4096), Ask(WRITE, 9), flush(10, 5, 5),
            read(11, BLOCKS * 512, 512), read(12, 512, 1024, FUA), Ask(DISC, 13)]
    stream = stream_of(asks)
    for end in range(part, len(stream) + 1, parts):
        room.new_image()
        at, whole = 0, []
        for ask in asks:
            at += len(ask.message())
            if at <= end:
                whole.append(ask)
        serial = Serial(BLOCKS)
        wanted = serial.replies(whole)
        status, text = room.serve("JDB"[end // parts % 3], [stream[:end]] if end else [])
        good = status == 0 and are_whole(text, wanted) and room.placed() == serial.blocks
        room.judge(f"a stream that ends at byte {end}", good, f"status {status}, {order_of(text, wanted)}")


# ---- what comes before a session

def words_and_images(room):
    """Words that are refused, images and a standard input that are; from the session's begin on there is no text."""
    image, ask = room.image, read(1, 0, 512)
    for words in (["R"], ["X"], ["j"], [], ["J", "more"], ["J", "--integrity-key-file", image], ["J", "--placed"]):
        told = room.program.run(["nbd", image, *(["--mode"] if words else []), *words])
        room.judge(f"words {words}", told == (2, "fault words\n"), told)
    room.judge("as it was", read_file(image) == read_file(SMALL))
    told = serve(room.program, ["nbd", "--mode=J", image], [ask.message()])
    room.judge("words in another order", told == (0, reply_of(1, 0, bytes(512))), told)
    for name, content, wanted in (("no sector", b"", (3, "fault image magic\n")),
                                  ("255 sectors", read_file(SMALL)[:-SECTOR], (3, "fault image too small 255 256\n"))):
        write_file(image, content)
        for mode in "JDB":
            told = room.program.run(room.words(mode))
            room.judge(f"{name}, mode {mode}", told == wanted and read_file(image) == content, told)
    told = room.program.run(["nbd", f"{room.folder}/none", "--mode", "J"])
    room.judge("no image", told == (4, "fault disk\n"), told)
    room.new_image()
    session = Session(room.program, room.words("J"))
    session.give(ask.message())
    first = session.take(528, SECONDS_AT_MOST)
    told = room.program.run(room.words("D"))
    room.judge("an image that another session has", told == (4, "fault disk\n"), told)
    room.judge("that session goes on", first == reply_of(1, 0, bytes(512)) and session.end() == (0, b""))
    for name, source in (("closed", "<&-"), ("a folder", "</")):
        done = subprocess.run(["sh", "-c", f'exec "$0" "$@" {source}', room.program.path, *room.words("J")],
                              stdout=subprocess.PIPE, stderr=subprocess.DEVNULL, check=False)
        room.judge(f"an input that is {name}", (done.returncode, done.stdout) == (5, b""), done)


def keys(room):
    """A key that is refused, consent that lacks, and a key under which blocks are served."""
    words = ["--integrity", "hmac-sha256", "--integrity-key-file", f"{room.folder}/key"]
    told = room.program.run([*room.words("J"), *words[:2]])
    room.judge("no key", told == (2, "fault words\n"), told)
    told = room.program.run([*room.words("J"), *words])
    room.judge("no key file", told == (5, "fault key\n"), told)
    for key, fault in ((b"", "empty"), (bytes(4097), "long")):
        write_file(words[-1], key)
        told = room.program.run([*room.words("J"), *words])
        room.judge(f"a key that is {fault}", told == (2, f"fault key {fault}\n"), told)
    with gzip.open(f"{RECALCULATED}.gz") as stored:
        image = stored.read()
    write_file(words[-1], read_file(f"{RECALCULATED}.key"))
    flags, = struct.unpack_from("<I", image, 24)
    for mode in "JDB":
        write_file(room.image, image)
        told = room.program.run([*room.words(mode), *words])
        room.judge(f"no consent, mode {mode}", told == (3, f"fault image consent {flags:#x}\n"), told)
        asks = [write(1, 1024, b"\x5a" * 2048, FUA), read(2, 1024, 2048)]
        told = serve(room.program, [*room.words(mode), *words, "--integrity-legacy-recalculate"], [stream_of(asks)])
        room.judge(f"consent, mode {mode}", told == (0, reply_of(1) + reply_of(2, 0, b"\x5a" * 2048)), told[0])


# ---- many requests

def large(room, mode):
    """Requests of 1,024 blocks, and more of them in a piece than are in flight at a time."""
    write_file(room.image, bytes(2 << 20))
    status, text = room.program.run(["format", room.image])
    room.judge("format", status == 0, text)
    blocks = int(text.split()[-1])
    drawn = random.Random(7)
    data = drawn.randbytes(1024 * 512)
    last = (blocks - 1024) * 512
    asks = [write(1, 512, data), read(2, 512, 1024 * 512), read(3, 0, 1025 * 512), write(4, 0, data + bytes(512)),
            write(5, last, data, FUA), read(6, last, 1024 * 512), read(7, last, 1025 * 512), flush(8)]
    for cookie in range(100, 164):
        first = drawn.randrange(16)
        asks.append(drawn.choice((read(cookie, first * 512, 1024), write(cookie, first * 512, drawn.randbytes(1024)),
                                  write(cookie, first * 512, drawn.randbytes(512), FUA), flush(cookie))))
    serial = Serial(blocks)
    wanted = serial.replies(asks)
    status, text = room.serve(mode, cut_into(stream_of(asks), 65536))
    good = status == 0 and are_whole(text, wanted) and room.placed() == serial.blocks
    room.judge(f"large requests, mode {mode}", good, f"status {status}")


def memory(room, mode, long):
    """A session of so many requests uses no more memory than a short one."""
    some = [write(1, 512, b"\x5a" * 512), read(2, 512, 512), Ask(READ, 3, 5, 512), read(4, 1024, 512)] * 6
    some.append(flush(5) if mode == "B" else read(5, 0, 1024))
    serial = Serial(BLOCKS)
    length = sum(len(serial.reply(ask)) for ask in some)
    used = []
    for count in (SHORT, long):
        room.new_image()
        turns = count // len(some)
        with subprocess.Popen([room.program.path, *room.words(mode)], stdin=subprocess.PIPE, stdout=subprocess.PIPE,
                              stderr=subprocess.DEVNULL) as session:
            feeder = threading.Thread(target=feed, args=(session.stdin, stream_of(some), turns))
            feeder.start()
            got = 0
            while got < turns * length and (piece := session.stdout.read1(1 << 20)):
                got += len(piece)
            # The greatest so far, of the program alone.
            with open(f"/proc/{session.pid}/status", encoding="ascii") as told:
                used.append(int(re.search(r"VmHWM:\s*(\d+) kB", told.read())[1]))
            feeder.join()
            session.stdin.close()
            room.judge(f"{count} requests, mode {mode}", session.wait() == 0 and got == turns * length, got)
    good = used[1] <= used[0] + MORE_MEMORY
    room.judge(f"memory, mode {mode}", good, f"KiB of {SHORT} and of {long} requests: {used}")


def feed(source, some, turns):
    """Writes the same bytes many times."""
    try:
        for _ in range(turns):
            source.write(some)
        source.flush()
    except OSError:
        pass


# ---- drawn streams

def drawn_images():
    """The lines of the data, image by image."""
    with open(STREAMS, encoding="ascii") as data:
        lines = [line.split() for line in data if not line.startswith("#")]
    starts = [at for at, line in enumerate(lines) if line[0] == "format"]
    return [lines[start:end] for start, end in zip(starts, starts[1:] + [len(lines)])]


def unpacked(text):
    return zlib.decompress(base64.b64decode(text))


def drawn(room, lines):
    """Sessions on one image, one after the other: replies, status and image are those of the data."""
    keyed = []
    for number, (word, *fields) in enumerate(lines):
        if word == "format":
            write_file(room.image, bytes(int(fields[0]) * SECTOR))
            if fields[1] != "-":
                write_file(f"{room.folder}/key", bytes.fromhex(fields[1]))
                keyed = ["--integrity", "hmac-sha256", "--integrity-key-file", f"{room.folder}/key"]
            status, text = room.program.run(["format", room.image, *fields[2:], *keyed])
            room.judge(f"format {fields}", status == 0, text)
        elif word == "flip":
            room.flip(int(fields[0]))
        else:
            mode, status, image, sizes, stream, replies = fields
            pieces, rest = [], unpacked(stream)
            for size in map(int, sizes.split(",")):
                pieces, rest = pieces + [rest[:size]], rest[size:]
            words = [*room.words(mode), *keyed, "--integrity-legacy-recalculate"]
            ended, text = serve(room.program, words, pieces)
            name = f"drawn stream {number} of {' '.join(lines[0][3:])}, mode {mode}"
            room.judge(name, (ended, text) == (int(status), unpacked(replies)), f"status {ended}")
            room.judge(f"{name}, image", hashlib.sha256(read_file(room.image)).hexdigest()[:32] == image)
