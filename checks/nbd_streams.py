"""Streams of NBD requests, what each request is replied by the protocol alone, and sessions of the built program.

A session gets each piece of a stream as one packet of a socket, so that each read of the program gives it one piece.
Source: the NBD protocol, doc/proto.md, "Transmission phase".
"""
import os
import select
import socket
import struct
import subprocess
import tempfile
import threading
import time
from typing import NamedTuple

from journal_program import SECONDS, SECTOR
from nbd_client import DISC, FLUSH, FUA, READ, SIMPLE_REPLY_MAGIC, WRITE, request

EIO, EINVAL = 5, 22
MOST_BLOCKS, MOST_PIECE = 1024, 65536
HEAD = 16                       # of a reply, in bytes


class Ask(NamedTuple):
    """A request; a WRITE has its bytes, whatever its length tells of them."""
    kind: int
    cookie: int
    offset: int = 0
    length: int = 0
    data: bytes = b""
    flags: int = 0

    def message(self):
        return request(self.kind, self.cookie, self.offset, self.length, self.flags) + self.data

    def flushes(self):
        """Whether a reply without an error tells that all before it is flushed."""
        return self.kind == FLUSH or self.kind == WRITE and bool(self.flags & FUA)

    def blocks(self, size=SECTOR):
        """The blocks that it writes, each with its bytes."""
        return [(self.offset // size + k, self.data[k * size:(k + 1) * size]) for k in range(len(self.data) // size)]


def read(cookie, offset, length, flags=0):
    return Ask(READ, cookie, offset, length, flags=flags)


def write(cookie, offset, data, flags=0):
    return Ask(WRITE, cookie, offset, len(data), data, flags)


def flush(cookie, offset=0, length=0, flags=0):
    return Ask(FLUSH, cookie, offset, length, flags=flags)


def stream_of(asks):
    return b"".join(ask.message() for ask in asks)


def reply_of(cookie, error=0, data=b""):
    return struct.pack(">IIQ", SIMPLE_REPLY_MAGIC, error, cookie) + data


class Serial:
    """What requests are replied where each is done before the next, on blocks of zeros of which some are damaged."""

    def __init__(self, blocks, size=SECTOR, damaged=()):
        self.blocks, self.size, self.damaged = [bytes(size)] * blocks, size, set(damaged)

    def is_refused(self, ask):
        if ask.kind == FLUSH:
            return False
        return (ask.kind not in (READ, WRITE) or ask.length == 0 or ask.length % self.size != 0
                or ask.offset % self.size != 0 or ask.length > MOST_BLOCKS * self.size
                or ask.offset + ask.length > len(self.blocks) * self.size)

    def reply(self, ask):
        """Does a request: its reply."""
        if self.is_refused(ask):
            return reply_of(ask.cookie, EINVAL)
        data = b""
        if ask.kind == WRITE:
            for block, content in ask.blocks(self.size):
                self.blocks[block] = content
                self.damaged.discard(block)
        elif ask.kind == READ:
            first, count = ask.offset // self.size, ask.length // self.size
            if self.damaged & set(range(first, first + count)):
                return reply_of(ask.cookie, EIO)
            data = b"".join(self.blocks[first:first + count])
        return reply_of(ask.cookie, 0, data)

    def replies(self, asks):
        """Does requests up to a DISC: the reply of each cookie."""
        done = {}
        for ask in asks:
            if ask.kind == DISC:
                break
            done[ask.cookie] = self.reply(ask)
        return done


def order_of(text, wanted):
    """The cookies of the replies in a text, in order, and the bytes of one more that is cut short; None where it has
    one that is not wanted, or stands twice."""
    order, at = [], 0
    while len(text) - at >= HEAD:
        cookie, = struct.unpack_from(">Q", text, at + 8)
        reply = wanted.get(cookie, b"")
        if cookie in order or len(text) - at < len(reply):
            break
        if not reply or text[at:at + len(reply)] != reply:
            return None
        order.append(cookie)
        at += len(reply)
    rest = text[at:]
    left = [wanted[cookie] for cookie in wanted if cookie not in order]
    return (order, rest) if not rest or any(reply.startswith(rest) for reply in left) else None


def are_whole(text, wanted):
    """Whether a text has each reply, whole, once, and nothing else."""
    told = order_of(text, wanted)
    return told is not None and told[1] == b"" and set(told[0]) == set(wanted)


def cut_into(stream, size):
    """The pieces of a stream, of so many bytes each."""
    return [stream[at:at + size] for at in range(0, len(stream), size)]


class Session:
    """A session of the program. It is given pieces, each within a packet, and its replies are read. One that hangs is
    killed in the end."""

    def __init__(self, program, words, tracer=(), out=subprocess.PIPE):
        self.source, theirs = socket.socketpair(socket.AF_UNIX, socket.SOCK_SEQPACKET)
        with theirs:
            self.child = subprocess.Popen([*tracer, program.path, *words], stdin=theirs, stdout=out,
                                          stderr=subprocess.DEVNULL)
        self.watch = threading.Timer(SECONDS, self.child.kill)
        self.watch.start()

    def give(self, piece):
        """Gives a piece, if the program still takes one."""
        try:
            for packet in cut_into(piece, MOST_PIECE):
                self.source.send(packet)
        except OSError:
            return False
        return True

    def take(self, count, seconds):
        """So many bytes of replies, or those that come within some seconds."""
        got, until = b"", time.monotonic() + seconds
        while len(got) < count:
            ready, _, _ = select.select([self.child.stdout], [], [], max(0, until - time.monotonic()))
            piece = os.read(self.child.stdout.fileno(), count - len(got)) if ready else b""
            if not piece:
                break
            got += piece
        return got

    def end(self):
        """Ends the stream: the status, and the replies that were not yet read."""
        try:
            self.source.shutdown(socket.SHUT_WR)
        except OSError:
            pass
        text = b""
        if self.child.stdout and not self.child.stdout.closed:
            with self.child.stdout as out:
                text = b"".join(iter(lambda: os.read(out.fileno(), 1 << 20), b""))
        status = self.child.wait()
        self.watch.cancel()
        self.source.close()
        return status, text

    def kill(self):
        self.child.kill()
        return self.end()


def serve(program, words, pieces, tracer=()):
    """Serves a stream of these pieces to its end: the status, and the replies."""
    with tempfile.TemporaryFile() as out:
        session = Session(program, words, tracer, out)
        for piece in pieces:
            if not session.give(piece):
                break
        status, _ = session.end()
        out.seek(0)
        return status, out.read()
